#!/usr/bin/env python3
"""The built program when the C library refuses it memory, one growth at a time.

acceptance/refused.py PROGRAM runs each command that the program has. A library that is loaded before the C library counts the calls for memory from the
start of the program, and refuses one of them: the first, then the second, and so on, until runs don't reach the refused call. Then it refuses all calls
starting with the first, then all starting with the second, and so on. Each run must end with status 9 and nothing on standard output, or with the command's
own status and texts. The last line says how many runs did.
"""
import multiprocessing.pool
import os
import shutil
import subprocess
import sys
import tempfile

import places  # noqa: F401
import audits
import compare
import contests
import hostile
import plain_audit
from draws import Draws
from limits import MOST_CANDIDATES

TOP = os.path.dirname(os.path.dirname(os.path.abspath(__file__)))
NONE = 2**63
# The number of consecutive runs in which no growth was refused, after which a sweep ends: workers share their memory differently in each run.
AT_LAST = 8

# The calls from number REFUSED_FIRST to number REFUSED_LAST are refused. The first of them is reported.
LIBRARY = r"""
typedef __SIZE_TYPE__ size_t;
void *__libc_malloc(size_t);
void *__libc_calloc(size_t, size_t);
void *__libc_realloc(void *, size_t);
void *__libc_memalign(size_t, size_t);
int *__errno_location(void);
char *getenv(const char *);
unsigned long strtoul(const char *, char **, int);
long write(int, const void *, size_t);

static unsigned long asked, first, last;
static int told;

static unsigned long number(const char *name) { return strtoul(getenv(name), 0, 10); }

__attribute__((constructor)) static void start(void) {
    told = number("REFUSED_TOLD");
    last = number("REFUSED_LAST");
    asked = 0;
    first = number("REFUSED_FIRST");
}

static int is_refused(void) {
    unsigned long at = __atomic_add_fetch(&asked, 1, __ATOMIC_SEQ_CST);
    if (first == 0 || at < first || at > last)
        return 0;
    if (at == first)
        write(told, "!", 1);
    *__errno_location() = 12;
    return 1;
}

void *malloc(size_t size) { return is_refused() ? 0 : __libc_malloc(size); }
void *calloc(size_t count, size_t size) { return is_refused() ? 0 : __libc_calloc(count, size); }
void *realloc(void *old, size_t size) { return is_refused() ? 0 : __libc_realloc(old, size); }
void *aligned_alloc(size_t align, size_t size) { return is_refused() ? 0 : __libc_memalign(align, size); }
void *memalign(size_t align, size_t size) { return aligned_alloc(align, size); }
int posix_memalign(void **to, size_t align, size_t size) {
    void *found = aligned_alloc(align, size);
    if (!found)
        return 12;
    *to = found;
    return 0;
}
"""

# For each command, a line of words that has an answer, on the files of `hostile.good_files` and the examples.
LINES = {
    "search": ["search", "row1.raire"],
    "search of four": ["search", "county.raire"],
    "search by eight": ["search", "county.raire", "--workers=8"],
    "search, full count": ["search", "row1.raire", "--floor=2"],
    "search, spent": ["search", "row1.raire", "--nodes=1"],
    "search, tie": ["search", "tie.raire"],
    "search, refused": ["search", "manifest.csv"],
    "search, missing": ["search", "none"],
    "search of 32": ["search", "many.raire", "--workers=2"],
    "search by sets": ["search", "county.raire", "--sets=16"],
    "search by sets, spent": ["search", "row1.raire", "--sets=2"],
    "search by sets, tie": ["search", "tie.raire", "--sets=1"],
    "search of 32 by sets": ["search", "many.raire", "--sets=100000", "--workers=2"],
    "check by sets": ["check", "row1.raire", "row1.json", "--sets=1"],
    "check of 32 by sets": ["check", "many.raire", "many.json", "--sets=100000"],
    "check by sets, spent": ["check", "county.raire", "planned.json", "--sets=1"],
    "trim by sets": ["trim", "row1.raire", "row1.json", "--sets=3"],
    "search for cards": ["search", "county.raire", "--cards=200", "--gamma=200"],
    "search for too few cards": ["search", "county.raire", "--cards=9"],
    "check": ["check", "row1.raire", "row1.json"],
    "check of draws": ["check", "county.raire", "planned.json"],
    "check of 32": ["check", "many.raire", "many.json"],
    "check, other": ["check", "ballots.raire", "row1.json"],
    "trim": ["trim", "row1.raire", "row1.json"],
    "trim of draws": ["trim", "county.raire", "planned.json"],
    "trim, other": ["trim", "ballots.raire", "row1.json"],
    "adopt": ["adopt", "row1.raire", "row1.json"],
    "adopt by sets": ["adopt", "row1.raire", "row1.json", "--sets=3"],
    "adopt of 32": ["adopt", "many.raire", "many.json"],
    "adopt, spent": ["adopt", "county.raire", "planned.json", "--sets=1"],
    "adopt, other": ["adopt", "ballots.raire", "row1.json"],
    "adopt, an order stands": ["adopt", "ballots.raire", "unproved.json"],
    "poll": ["poll", "manifest.csv", "assertions.json", "seen.csv", "--seed=2024", "--draws=40"],
    "poll, an order stands": ["poll", "manifest.csv", "unproved.json", "seen.csv", "--seed=2024", "--draws=5"],
    "contests of two": ["contests", "two.raire", "manifest.csv", "two_seen.csv", "--seed=2024", "--draws=5", "--workers=2"],
    "contests, a tie": ["contests", "tied.raire", "manifest.csv", "two_seen.csv", "--seed=2024", "--draws=5"],
    "contests, refused": ["contests", "two.raire", "manifest.csv", "seen.csv", "--seed=2024", "--draws=5"],
    "words": ["search", "row1.raire", "--floor"],
}


def built(folder):
    """The library, built by the kit's own compiler."""
    source, library = os.path.join(folder, "refused.c"), os.path.join(folder, "refused.so")
    audits.write(source, LIBRARY)
    tools = os.path.join(os.path.dirname(os.path.dirname(os.path.realpath(shutil.which("rt")))), "toolchain", "bin")
    words = [f"{tools}/clang", "-O1", "-shared", "-fPIC", "-nostdlib", f"--ld-path={tools}/ld.lld", source, "-o", library]
    subprocess.run(words, check=True)
    return library


# The answer of a search that is out of budget by nodes, which the plain program doesn't give.
SPENT = 4, "spent\ncandidate 3\norder 2,1,3\nmargin 1\n", ""


class Sweep:
    """Runs of one line, each with other growths refused."""

    def __init__(self, program, library, words):
        self.program, self.library, self.words = program, library, words
        self.own = self.run(NONE, NONE)[1]

    def is_plain(self):
        """Whether the answer without a refused growth is what the plain program says."""
        is_told = self.own[0] == SPENT[0] and not any(word.startswith("--sets") for word in self.words)
        status, out, err = SPENT if is_told else plain_audit.run(self.words)
        return self.own == (status, out.encode(), err.encode())

    def run(self, first, last):
        """Whether a growth was refused, and the answer."""
        read, write = os.pipe()
        names = {"LD_PRELOAD": self.library, "REFUSED_FIRST": str(first), "REFUSED_LAST": str(last), "REFUSED_TOLD": str(write)}
        try:
            ran = subprocess.run(
                [self.program, *self.words], capture_output=True, stdin=subprocess.DEVNULL, env={**os.environ, **names}, pass_fds=[write],
                timeout=60,
            )
            came = ran.returncode, ran.stdout, ran.stderr
        except subprocess.TimeoutExpired:
            came = "it doesn't end"
        os.close(write)
        is_refused = os.read(read, 1) == b"!"
        os.close(read)
        return is_refused, came

    def is_right(self, is_refused, came):
        return came == self.own or (is_refused and came == (9, b"", b"raire: out of memory\n"))

    def all(self, pool, to_the_end):
        """How many runs had a growth refused, and which answers are wrong."""
        refused, wrong, first, met_none = 0, [], 1, 0
        while met_none < AT_LAST:
            firsts = range(first, first + 64)
            for at, (is_refused, came) in zip(firsts, pool.map(lambda at: self.run(at, NONE if to_the_end else at), firsts)):
                refused += is_refused
                met_none = 0 if is_refused else met_none + 1
                if not self.is_right(is_refused, came):
                    wrong.append(f"growth {at}{' and all later ones' if to_the_end else ''} refused: {came}")
            first += 64
        return refused, wrong


def many_candidates():
    """A contest of as many candidates as there may be, with its assertions."""
    ids = [str(11 + c) for c in range(MOST_CANDIDATES)]
    compare.write("many.raire", ids, compare.few_strong(Draws(32), len(ids)))
    audits.write("many.json", plain_audit.run(["search", "many.raire"])[1])


def main():
    program = os.path.abspath(sys.argv[1])
    commands = audits.Runs(program).commands
    lines = {**{shows: words for shows, words in hostile.LINES.items() if shows not in LINES}, **LINES}
    counts, failed = [], 0
    with tempfile.TemporaryDirectory() as folder, multiprocessing.pool.ThreadPool(os.cpu_count()) as pool:
        library = built(folder)
        os.chdir(folder)
        hostile.good_files()
        audits.write("unproved.json", hostile.in_json("assertions", b"[]").decode())
        for name in ("row1.raire", "row1.json", "county.raire", "tie.raire"):
            shutil.copy(os.path.join(TOP, "examples", name), name)
        audits.write("two.raire", contests.TWO)
        audits.write("tied.raire", contests.TWO.replace("8,b_1,2\n", ""))
        audits.write("two_seen.csv", contests.SEEN)
        many_candidates()
        audits.write("planned.json", plain_audit.run(LINES["search for cards"])[1])
        for shows, words in lines.items():
            if words[0] in commands:
                sweep = Sweep(program, library, words)
                if not sweep.is_plain():
                    failed += 1
                    print(f"{shows}: without a refusal it comes to {sweep.own}")
                for to_the_end in (False, True):
                    refused, wrong = sweep.all(pool, to_the_end)
                    counts.append(refused)
                    failed += len(wrong)
                    for told in wrong[:3]:
                        print(f"{shows}: {told}")
                print(f"{shows}: {sweep.own[0]}; {counts[-2]} growths refused one at a time, {counts[-1]} with all later ones")
        os.chdir(TOP)
    print(f"{sum(counts)} runs with refused memory, {failed} not as they should be")
    sys.exit(1 if failed or not counts else 0)


if __name__ == "__main__":
    main()
