"""commands.txt: what was typed in an audit, as a shell script that anyone can run again.

A record is a list of deeds. A deed is what one press of a button did: choices, files that were given, and commands with their status and the SHA-256 of
what they made. The text and the record say the same thing: `text_of` and `record_of` are inverses, and `record_of` refuses every other text.
"""
import hashlib
import re
import shlex
from typing import NamedTuple

NAME = "commands.txt"
PROGRAM = "raire"
COMMANDS = (
    "agree", "audit", "boxes", "cards", "check", "contests", "convert", "open", "plan", "plurality", "poll", "report", "sample", "search", "show", "tabulate",
    "trim",
)
PUT_TOGETHER = ("cat", "joined")  # what the shell does with seen files instead of the program
FILE_OPTIONS = ("--account", "--names", "--candidates", "--places")
NOWHERE = "/dev/null"

HEAD = """\
#!/bin/sh
# Everything that was typed in this audit, by ./raire desk. It can be run again: unpack the program, put its folder on the path,
# and type in an empty folder
#     sh THE/FOLDER/OF/THIS/FILE/commands.txt
# Files that were given are copied from there. Everything else is made again, and each file has to have the bytes that it had:
# after "made" come the status of the line above and the SHA-256 of what it made. A difference ends the script with its name.
here=$(dirname "$0")
given() { cp -- "$here/$1" "$1"; }
made() {
    status=$?
    [ "$status" = "$1" ] || { echo "commands.txt: status $status, and it was $1, before: made $*" >&2; exit 1; }
    shift
    while [ $# -gt 0 ]; do echo "$1  $2" | sha256sum --check --quiet - || exit 1; shift 2; done
}
joined() { # CONTEST FILE ..: card by card, with each contest's id after the card's
    while [ $# -gt 0 ]; do
        contest=$1 awk '{ i = index($0, ","); print FNR "," substr($0, 1, i) ENVIRON["contest"] substr($0, i) }' "$2"
        shift 2
    done | LC_ALL=C sort -s -t , -k 1,1n | cut -d , -f 2-
}
"""
STEP, END = "# step ", "# sha256 of the lines above: "
FILE = re.compile(r"[a-z][a-z0-9]*(_[A-Za-z0-9]+)*\.(raire|csv|json|txt|html|zip|xlsx|soi|toi|xml)")
DIGEST = re.compile("[0-9a-f]{64}")
CHOICE = re.compile(r"([a-z][a-z_]*)=(.*)", re.DOTALL)


class Broken(Exception):
    """A text isn't a record. The place is a line."""

    def __init__(self, at, why):
        super().__init__(f"line {at}: {why}")


class Choice(NamedTuple):
    """What a person chose or typed in."""
    name: str
    value: str

    def lines(self):
        return [f"{self.name}={shlex.quote(self.value)}"]


class Given(NamedTuple):
    """A file that a person gave."""
    name: str
    digest: str

    @property
    def made(self):
        return {self.name: self.digest}

    def lines(self):
        return [f"given {self.name}", f"made 0 {self.digest} {self.name}"]


class Command(NamedTuple):
    """A command that was run. Its standard output is the file `out`, if there is one."""
    words: tuple
    out: str
    status: int
    made: dict

    def line(self):
        return typed(self.words, self.out)

    def lines(self):
        made = [f"{digest} {name}" for name, digest in self.made.items()]
        return [self.line(), " ".join(["made", str(self.status), *made])]


class Deed(NamedTuple):
    """What a single press of a button did, and the step that it belongs to."""
    step: str
    lines: tuple


def typed(words, out):
    """A command as it is typed."""
    return f"{shlex.join(words)} > {out or NOWHERE}"


def digest_of(data):
    return hashlib.sha256(data).hexdigest()


def files_of(record):
    """Each file of a record with its final digest."""
    return {name: digest for deed in record for line in deed.lines if not isinstance(line, Choice) for name, digest in line.made.items()}


# ---- from record to text

def text_of(record):
    lines = [HEAD]
    for deed in record:
        lines.append(f"\n{STEP}{deed.step}\n")
        lines += [f"{text}\n" for line in deed.lines for text in line.lines()]
    text = "".join(lines)
    return f"{text}\n{END}{digest_of(text.encode())}\n"


# ---- from text to record

def record_of(text):
    """The record in a text. A text that no record has is refused at the line where it differs."""
    head = HEAD.count("\n")
    if not text.startswith(HEAD):
        is_older = text.startswith("\n".join(HEAD.split("\n", 2)[:2]))
        older = "another version of the desk wrote this: continue with that version, or by hand"
        raise Broken(1, older if is_older else "this isn't the commands.txt of a desk")
    record, lines = [], list(enumerate(text.split("\n")[head:], head + 1))
    while lines and not lines[0][1].startswith(END):
        at, line = lines.pop(0)
        if line.startswith(STEP):
            record.append(Deed(line[len(STEP):], ()))
        elif line:
            if not record:
                raise Broken(at, "comes before the first step")
            record[-1] = record[-1]._replace(lines=(*record[-1].lines, entry_of(at, line, lines)))
    see_same(text, text_of(record))
    return record


def see_same(text, wanted):
    if text == wanted:
        return
    pairs = zip(text.splitlines() + [""], wanted.splitlines() + [""])
    at, line = next(((at, one) for at, (one, other) in enumerate(pairs, 1) if one != other), (1, ""))
    raise Broken(at, "isn't the SHA-256 of the lines above; some line was changed" if line.startswith(END) else "isn't as a desk writes it")


def entry_of(at, line, lines):
    """A choice, a file that was given, or a command. For the last two, the next line says what they made."""
    chosen = CHOICE.fullmatch(line)
    if chosen:
        return Choice(chosen[1], " ".join(words_of(at, chosen[2])))
    words = words_of(at, line)
    status, made = made_of(*lines.pop(0)) if lines else made_of(at, "")
    if words[0] == "given" and len(words) == 2 and list(made) == words[1:] and status == 0:
        return Given(words[1], made[words[1]])
    return command_of(at, words, status, made)


def words_of(at, line):
    try:
        return shlex.split(line)
    except ValueError:
        raise Broken(at, "ends in the middle of a word") from None


def made_of(at, line):
    """The status and the digest of each file in a line `made`."""
    word, status, *rest = [*line.split(" "), "", ""]
    rest = rest[:-2] if rest[-2:] == ["", ""] else []
    digests, names = rest[::2], rest[1::2]
    is_whole = len(digests) == len(names) and all(map(DIGEST.fullmatch, digests)) and all(map(FILE.fullmatch, names))
    if word != "made" or not status.isascii() or not status.isdigit() or not is_whole:
        raise Broken(at, "doesn't say what the line above made")
    return int(status), dict(zip(names, digests))


def command_of(at, words, status, made):
    """A command of the program, or one that puts seen files together. No other command is ever run."""
    *words, arrow, out = words if len(words) > 3 else ["", "", "", ""]
    is_of_program = words[0] == PROGRAM and words[1] in COMMANDS
    if arrow != ">" or not (is_of_program or words[0] in PUT_TOGETHER):
        raise Broken(at, "isn't a command that a desk types")
    outs = [] if out == NOWHERE else [out]
    if not all(map(is_file_of_folder, [*file_words(words), *outs])):
        raise Broken(at, "names a file that isn't in the folder")
    if list(made)[:1] != outs:
        raise Broken(at, "made another file than it says")
    return Command(tuple(words), None if out == NOWHERE else out, status, made)


def file_words(words):
    """The words of a command that name files."""
    if words[0] == "joined":
        return words[2::2]
    rest = words[1:] if words[0] == "cat" else words[3:] if words[1] == "convert" else words[2:]
    options = [word.partition("=") for word in rest if word.startswith("-")]
    return [word for word in rest if not word.startswith("-")] + [value for name, _, value in options if name in FILE_OPTIONS]


def is_file_of_folder(word):
    return FILE.fullmatch(word) is not None and word != NAME
