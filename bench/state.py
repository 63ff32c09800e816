#!/usr/bin/env python3
"""Times `./raire state` against its single runs of the program, typed in order.

    bench/state.py [PROGRAM [CONTESTS [COUNTIES]]]   makes a state (1,000 contests in 200 counties by default) in five parts. Each part is made by
                                                     `./raire state --jobs 1 --without-pages`, and then by its runs alone, both on one processor.
                                                     Prints the seconds by the clock and of the processor, and those of Snakemake's start, once a
                                                     part (a run that has one job to do, whose outputs exist, less a run that has none)
"""
import json
import os
import resource
import shutil
import subprocess
import sys
import tempfile
import time

TOP = os.path.dirname(os.path.dirname(os.path.abspath(__file__)))
sys.path.append(os.path.join(TOP, "acceptance"))

import made_state  # noqa: E402

PARTS = 5


def timed(does):
    """The seconds by the clock, and the processor seconds of all processes that were started."""
    before, start = resource.getrusage(resource.RUSAGE_CHILDREN), time.monotonic()
    does()
    after = resource.getrusage(resource.RUSAGE_CHILDREN)
    return time.monotonic() - start, after.ru_utime + after.ru_stime - before.ru_utime - before.ru_stime


def run(folder, program, *words):
    subprocess.run([os.path.join(TOP, "tools", "state"), folder, "--without-pages", "--jobs", "1", *words], env={**os.environ, "RAIRE": program}, check=True,
                   stdout=subprocess.DEVNULL, stderr=subprocess.DEVNULL)


def commands(folder):
    """What the program was asked, in the order of the records."""
    for place, _, names in os.walk(os.path.join(folder, "made", "runs")):
        for name in sorted(names):
            if name.endswith(".json"):
                with open(os.path.join(place, name)) as file:
                    yield from (entry["words"] for entry in json.load(file).values())


def alone(folder, program, lines):
    for words in lines:
        subprocess.run([program, *words], cwd=folder, stdin=subprocess.DEVNULL, stdout=subprocess.DEVNULL, stderr=subprocess.DEVNULL)


def split(folder, counties):
    """A folder for each part, with the table and some of the counties."""
    names = sorted(os.listdir(os.path.join(folder, "counties")))
    with open(os.path.join(folder, "terms.csv")) as file:
        head, everywhere, *rows = file.readlines()
    for part in range(PARTS):
        place, its = f"{folder}.{part}", names[part::PARTS]
        os.makedirs(os.path.join(place, "counties"))
        for name in its:
            shutil.move(os.path.join(folder, "counties", name), os.path.join(place, "counties", name))
        with open(os.path.join(place, "terms.csv"), "w") as file:
            file.writelines([head, everywhere, *(row for row in rows if row.partition(",")[0] in its)])
        yield place


def start_of_engine(folder, program):
    """The seconds of a run that has one job to do, whose outputs exist, less those of a run that has none."""
    done = os.path.join(folder, "made", "runs", "done")
    run(folder, program)
    none = timed(lambda: run(folder, program))
    os.remove(os.path.join(done, max(os.listdir(done))))
    one = timed(lambda: run(folder, program))
    return [more - less for more, less in zip(one, none)]


def main():
    program = os.path.abspath(sys.argv[1]) if sys.argv[1:] else os.path.join(TOP, "crates", "raire", "out", "raire")
    contests, counties = [int(word) for word in sys.argv[2:]] + [1000, 200][len(sys.argv[2:]):]
    os.sched_setaffinity(0, {max(os.sched_getaffinity(0))})
    sums, count = {"./raire state": (0, 0), "its runs alone": (0, 0), "Snakemake's start": (0, 0)}, 0
    with tempfile.TemporaryDirectory() as place:
        folder = os.path.join(place, "state")
        made_state.write_state(folder, contests, counties)
        for part in split(folder, counties):
            took = [timed(lambda: run(part, program))]
            lines = list(commands(part))
            took += [timed(lambda: alone(part, program, lines)), start_of_engine(part, program)]
            sums = {name: (clock + more, cpu + of_more) for (name, (clock, cpu)), (more, of_more) in zip(sums.items(), took)}
            count += len(lines)
            print(f"{count} runs: " + "; ".join(f"{name} {clock:.1f} s, {cpu:.1f} s" for name, (clock, cpu) in sums.items()), flush=True)
    print(f"{contests} contests, {counties} counties, {count} runs of the program; load {os.getloadavg()[0]:.1f}")
    for name, (clock, cpu) in sums.items():
        print(f"{name}: {clock:.1f} s by the clock, {cpu:.1f} s of the processor")
    (whole, whole_cpu), (single, single_cpu), (start, start_cpu) = sums.values()
    print(f"ratio without the start: {(whole - start) / single:.2f} by the clock, {(whole_cpu - start_cpu) / single_cpu:.2f} of the processor")


if __name__ == "__main__":
    main()
