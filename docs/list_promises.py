#!/usr/bin/env python3
"""Writes the generated part of docs/proofs.md and all of docs/reading.md; --check only compares.

docs/proofs.md lists each clause of `run`, each law and each public call of a crate, in the words of the comment next to it, with the definitions that its
contract cites. docs/reading.md lists the definitions that a clause reaches, with their numbers of lines, first those that others build on.
"""
import ast
import glob
import os
import re
import sys

from list_definitions import CRATES, DOCS, HEAD, File

BEGIN, END = "<!-- written by docs/list_promises.py -->\n", "<!-- end of what it writes -->\n"
CALL, LAWS = "raire_cli/src/call.rt", "call_laws/src/laws.rt"
EVERYWHERE = {"texts", "writing", "Rose", "files_known", "asked", "file_count", "due"}  # what many clauses cite, and none is about
APART = ["raire_cli", "call_laws", "raire"]  # their promises have their own sections
WORD = re.compile(r"[^\s(){}\[\];,]+")
FUNCTION = re.compile(r"^(\s*)(pub )?(?:const )?fn (\w+)")
BLOCK = re.compile(r"^(pub )?(trait|impl)\b(.*)\{$")
CLAUSE = re.compile(r"^\s*ensures (?:(\w+) )?\{")


def lines_of(path):
    with open(os.path.join(CRATES, path)) as file:
        return file.read().split("\n")


class Promise:
    """A call or a law with a contract: its words, and the name, the comment and the text of each clause."""

    def __init__(self, name, words, owner):
        self.name, self.words, self.owner, self.clauses = name, words, owner, []

    def cited(self):
        return {word.partition(".")[0] for _, _, text in self.clauses for word in WORD.findall(text)}


def owner_of(line):
    """The trait or the type that a block belongs to, and whether all its functions are public."""
    match = BLOCK.match(line)
    if not match:
        return None
    rest = re.sub(r"<[^<>]*(?:<[^<>]*>[^<>]*)*>", "", match[3]).strip()
    if match[2] == "trait":
        return (rest.split(":")[0].split()[0], True) if match[1] else ("", False)
    trait, _, of = rest.partition(" for ")
    return (f"{of.split()[0]} as {trait.split()[0]}", True) if of else (rest.split()[0], False)


def promises_of(path):
    """The public calls of a source that have a contract, in order."""
    owner, words, comments, promise, found = None, [], [], None, []
    for line in lines_of(path):
        text = line.strip()
        owner = owner_of(line) or (None if line == "}" else owner)
        function = FUNCTION.match(line)
        if text.startswith("///"):
            words.append(text[3:].strip())
        elif text.startswith("// "):
            comments.append(text[3:].strip())
        elif function:
            is_public = bool(function[2]) or bool(owner and owner[1] and function[1])
            promise = Promise(function[3], words, owner[0] if owner else "") if is_public else None
            found += [promise] if promise else []
            words, comments = [], []
        elif promise and CLAUSE.match(line):
            promise.clauses.append([CLAUSE.match(line)[1] or "", " ".join(comments), text])
            comments = []
        elif text in ("{", "{}") or not text:
            promise = None if text else promise
            words, comments = (words, comments) if text else ([], [])
        elif promise and promise.clauses:
            promise.clauses[-1][2] += f" {text}"
        elif not text.startswith("#"):
            words = words if promise else []
    return [it for it in found if it.clauses]


def first_of(words):
    """The first paragraph."""
    return " ".join(words[: words.index("")] if "" in words else words)


def link(path):
    crate, _, module = path.partition("/specs/")
    return f"[{crate}/{module.removesuffix('.antt')}](../crates/{path})"


def definitions_of(promise, source):
    """The definitions that the contract cites, with their files."""
    by_file = {}
    for name in sorted(promise.cited() & source.named.keys()):
        path, there = source.named[name]
        by_file.setdefault(path, []).append(there)
    return "; ".join(f"{', '.join(f'`{it}`' for it in names)} ({link(path)})" for path, names in by_file.items())


def heads_of(path):
    """The comment above each definition of a file, in one line."""
    above, found = [], {}
    for line in lines_of(path):
        head = HEAD.match(line)
        if line.startswith("-- ") and not line.startswith("-- ----"):
            above.append(line[3:].strip())
        elif head and above:
            found[head[1]] = " ".join(above)
            above = []
        else:
            above = []
    return found


def sentence(words):
    """The words as a sentence."""
    return f"{words[0].upper()}{words[1:].rstrip('.')}." if words else ""


def explained(promise, source):
    """The definitions of a clause of `run`, each with the comment above it."""
    found = []
    for name in sorted(promise.cited() & source.named.keys() - EVERYWHERE):
        path, there = source.named[name]
        found.append(f"`{there}` in {link(path)}: {sentence(heads_of(path).get(there, '')) or 'see there.'}")
    return " ".join(found)


def row(*cells):
    return f"| {' | '.join(it.replace('|', chr(92) + '|') for it in cells)} |\n"


def head_of(*names):
    return row(*names) + row(*("---" for _ in names)).replace(" ", "")


def sources_of(crate):
    return sorted(os.path.relpath(it, CRATES) for it in glob.glob(os.path.join(CRATES, crate, "src", "**", "*.rt"), recursive=True))


def handed_on(crate):
    """The names that other crates can use: those of `pub use`, and the modules of `pub mod`."""
    text = "\n".join(lines_of(f"{crate}/src/lib.rt"))
    names = re.findall(r"^pub use [\w:]+::\{?([^;}]*)\}?;", text, re.MULTILINE)
    return {it.strip() for part in names for it in part.split(",")} | set(re.findall(r"^pub mod (\w+);", text, re.MULTILINE))


def is_of_laws(path):
    return path.endswith("laws.rt")


def intro_of(crate):
    return first_of([it[3:].strip() for it in lines_of(f"{crate}/src/lib.rt") if it.startswith("//!")])


def edits_of(crate):
    return sorted(os.path.basename(it).removesuffix(".edit").replace("_", " ") for it in glob.glob(os.path.join(CRATES, crate, "must-fail", "*.edit")))


def section(crate):
    """What is promised about a crate."""
    calls, laws, public = [], [], handed_on(crate)
    for path in sources_of(crate):
        if os.path.basename(path).startswith("examples"):
            continue
        source = File(path)
        for it in promises_of(path):
            name = f"{it.owner}::{it.name}" if it.owner else it.name
            if not {os.path.basename(path).removesuffix(".rt"), (it.owner or it.name).split()[0]} & public:
                continue
            if is_of_laws(path):
                laws.append(row(f"`{it.name}`", first_of(it.words), definitions_of(it, source)))
            else:
                clauses = ", ".join(dict.fromkeys(f"`{clause}`" for clause, _, _ in it.clauses if clause))
                calls.append(row(f"`{name}`", first_of(it.words), clauses, definitions_of(it, source)))
    edits = edits_of(crate)
    return (
        f"## `{crate}`\n\n{intro_of(crate)}\n\n"
        + (head_of("call", "what it does", "clauses", "definitions") + "".join(calls) + "\n" if calls else "")
        + (head_of("law", "what it says", "definitions") + "".join(laws) + "\n" if laws else "")
        + (f"Wrong bodies that the gate tries: {'; '.join(edits)}.\n\n" if edits else "")
    )


def crates():
    with open(os.path.join(DOCS, "..", "crates.txt")) as file:
        return [line.split(":")[0].split()[0] for line in file if ":" in line and not line.startswith("#")]


def promises():
    source = File(CALL)
    (run,) = [it for it in promises_of(CALL) if it.name == "run"]
    of_run = []
    for name, comment, text in run.clauses:
        one = Promise(name, [], "")
        one.clauses = [(name, comment, text)]
        of_run.append(row(f"`{name}`", comment, explained(one, source)))
    laws = [row(f"`{it.name}`", first_of(it.words), definitions_of(it, File(LAWS))) for it in promises_of(LAWS)]
    return (
        "## The clauses of `run`\n\n"
        + head_of("clause", "what it says", "exactly")
        + "".join(of_run)
        + "\n## Laws over calls of `run`\n\n"
        + head_of("law", "what it says", "definitions")
        + "".join(laws)
        + "\n"
        + "".join(section(it) for it in reversed(crates()) if it not in APART and not it.endswith("_tests") and it != "raire_cases")
        + "## What the built program is tried on\n\n"
        + "Files, streams and memory of a real system are in no clause. These scripts try them, most of them against a plain program in `plain/`.\n\n"
        + head_of("script", "what it does")
        + "".join(tried())
    )


# ---- what is tried


def tried():
    """A row for each script of acceptance/ that runs the built program or its tools, with the first paragraph of its docstring."""
    for path in sorted(glob.glob(os.path.join(DOCS, "..", "acceptance", "*.py"))):
        with open(path) as file:
            tree = ast.parse(file.read())
        words = (ast.get_docstring(tree) or "").split("\n\n")[0].replace("\n", " ")
        if any(isinstance(it, ast.If) and "__main__" in ast.dump(it.test) for it in tree.body):
            yield row(f"`acceptance/{os.path.basename(path)}`", words)


# ---- what to read


class Definitions:
    """The definitions of all crates: which others each of them cites, and its lines."""

    def __init__(self):
        self.files = {}

    def file_of(self, path):
        if path not in self.files:
            self.files[path] = File(path)
        return self.files[path]

    def reached(self, heads):
        """What these definitions, each a path and a name, depend on, and they themselves."""
        left, found = list(heads), set()
        while left:
            path, name = left.pop()
            if (path, name) in found or name not in self.file_of(path).words:
                continue
            found.add((path, name))
            left += [(other or path, it) for other, it in self.file_of(path).cited(name)]
        return found

    def lines(self, found):
        """How many lines these definitions have in their files, not counting comments and blank lines."""
        counted = {(path, block) for path, name in found for block in self.file_of(path).words[name]}
        return sum(1 for _, block in counted for line in block.split("\n") if line.strip())


def of_clause(clauses):
    """The definitions that these clauses of `run` name."""
    source = File(CALL)
    (run,) = [it for it in promises_of(CALL) if it.name == "run"]
    named = {word.partition(".")[0] for name, _, text in run.clauses if name in clauses for word in WORD.findall(text)}
    return [source.named[it] for it in named & source.named.keys()]


def of_law(path, law):
    source = File(path)
    (it,) = [it for it in promises_of(path) if it.name == law]
    return [source.named[name] for name in it.cited() & source.named.keys()]


def in_order(all_of, found):
    """One row for each file, the lowest crate first; within a crate, files that others cite come first."""
    order = {crate: i for i, crate in enumerate(crates())}
    by_file = {}
    for path, name in found:
        by_file.setdefault(path, set()).add(name)
    cites = {path: {other or path for name in names for other, _ in all_of.file_of(path).cited(name)} - {path} for path, names in by_file.items()}

    def below(path, seen):
        for it in sorted(cites.get(path, set()) & by_file.keys()):
            if it not in seen:
                seen.append(it)
                below(it, seen)
        return seen

    depth = {path: len(below(path, [])) for path in by_file}
    for path in sorted(by_file, key=lambda it: (order[it.split("/")[0]], depth[it], it)):
        at = {name: i for i, name in enumerate(all_of.file_of(path).words)}
        names = sorted(by_file[path], key=at.get)
        yield row(link(path), ", ".join(f"`{it}`" for it in names), str(all_of.lines({(path, it) for it in names})))


READINGS = [
    (
        "What a search claims",
        "`headline` and `full_count`: assertions that confirm the winner, or an order as the reason for a full count",
        ["headline", "full_count"],
    ),
    ("An accepted assertion file, and a session that is opened", "`accepted` and `opened`", ["accepted", "opened"]),
    ("Claims that are adopted", "`adopted` and `complete_adoption`", ["adopted", "complete_adoption"]),
    ("A round of an audit", "`audited`", ["audited"]),
]


def readings():
    all_of, known, out = Definitions(), set(), []
    for title, what, clauses in READINGS:
        found = all_of.reached(of_clause(clauses)) - known
        known |= found
        out.append(reading(all_of, title, what, found))
    found = all_of.reached(of_law(LAWS, "signed_off_are_few")) - known
    out.append(reading(all_of, "The risk limit", "the law `signed_off_are_few`", found))
    return "\n".join(out)


def reading(all_of, title, what, found):
    total = f"{len(found)} definitions, {all_of.lines(found)} lines"
    return f"## {title}\n\n{what[0].upper()}{what[1:]}: {total}.\n\n" + head_of("file", "definitions", "lines") + "".join(in_order(all_of, found))


READING = """# What to read to believe the headline

To believe what is proved, read the definitions that a clause of `run` reaches, and nothing else. The check
does the rest. Read from the top: each definition only uses those above it, or those in its own file. Each part
lists what the parts before it don't have. Lines count no comments and no blank lines.

The definitions of elections, in `irv_base` and `assertions`, and `Confirms` in `raire_cli/Confirmation` say what a
search claims. The rest says how files, words and texts are read and written. docs/list_promises.py writes this page
from the sources.

"""


def written():
    path = os.path.join(DOCS, "proofs.md")
    with open(path) as file:
        head, _, rest = file.read().partition(BEGIN)
    return {path: head + BEGIN + promises() + END + rest.partition(END)[2], os.path.join(DOCS, "reading.md"): READING + readings()}


def main():
    for path, text in written().items():
        if sys.argv[1:] == ["--check"]:
            with open(path) as file:
                if file.read() != text:
                    sys.exit(f"docs/{os.path.basename(path)}: it isn't what docs/list_promises.py writes")
            continue
        with open(path, "w") as file:
            file.write(text)


if __name__ == "__main__":
    main()
