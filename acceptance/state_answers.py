"""A state whose program answers with each status: which answers are results, and which fail with the line that says why."""
import os

from state_folder import put, rows

SEED = "2026-11-03 dice 2 6 1 4 5 5 3 1"
CONTEST, FOLDER = "Town council seat 3", "Town+council+seat+3"
TERMS = f"county,audit,seed,draws,trim\n*,session,{SEED},40 90,yes\n"
TOO_LONG = 64 * 1024 * 1024 + 1
MANY = 300_000  # ballots

# Passes its words on to the program. For a county called HARM_of_COMMAND it harms this command.
STAND_IN = """\
#!/usr/bin/python3
import os, re, resource, subprocess, sys, time

program, words = {program!r}, sys.argv[1:]
county = re.search("(?:counties|contests)/([^/]+)", " ".join(words))[1]
harm, _, command = county.partition("_of_")
if words[0] == command and harm == "full_disk":
    os.dup2(os.open("/dev/full", os.O_WRONLY), 1)
for kib in range(6000, 2000, -100) if words[0] == command and harm == "no_memory" else []:
    ran = subprocess.run([program, *words], capture_output=True, text=True, preexec_fn=lambda: resource.setrlimit(resource.RLIMIT_AS, (kib << 10, kib << 10)))
    if ran.returncode:
        sys.stderr.write(ran.stderr)
        sys.exit(ran.returncode)
if words[0] == command and harm == "killed":
    os.kill(os.getpid(), 9)
if words[0] == command and harm == "asleep":
    time.sleep(1000)
if words[0] == command and harm == "bad_words":
    words.append("--no-such")
if words[0] == command and harm == "spent":
    words = ["--sets=1" if word.startswith(("--nodes=", "--sets=")) else word for word in words]
if words[0] == command and harm == "no":
    print("no: order 2,1,3 stands")
    sys.exit(6)
if words[0] == command and harm == "changed":
    out = subprocess.run([program, *words], capture_output=True, text=True, check=True).stdout
    sys.stdout.write(re.sub('"margin":([0-9]+),"order"', lambda found: '"margin":%d,"order"' % (int(found[1]) + 1), out))
    sys.exit()
os.execv(program, [program, *words])
"""

# The state of the contest, and how the reason in its row begins.
RESULTS = {
    "well": ("signed off", ""),
    "changed_of_search": ("refuted", "check --sets=1048576: no: "),
    "no_of_trim": ("refuted", "trim --sets=1048576: no: order 2,1,3 stands"),
    "changed_of_trim": ("refuted", "check_of_trimmed --sets=1048576: no: "),
    "no_of_open": ("refuted", "open: no: order 2,1,3 stands"),
    "no_of_audit": ("refuted", "audit 40: no: "),
    "spent_of_check": ("spent", "check: spent, "),
    "spent_of_trim": ("signed off", ""),
    "spent_of_open": ("spent", "open: spent, "),
    "spent_of_audit": ("spent", "audit 40: spent, "),
}
# How the line of the contest continues after its name; {} is the county's folder.
FAILURES = {
    "bad_manifest": "plan: status 2: raire: {}/manifest.csv: M1 at 1; ", "read_fault": "plan: status 7: raire: {}/manifest.csv: read fault; ",
    "full_disk_of_check": "check --sets=1048576: status 8: an output could not be written",
    "no_memory_of_search": "search --nodes=100000: status 9: raire: out of memory",
    "too_long": "search --nodes=100000: status 11: raire: {}/ballots.raire: too long; ", "nowhere": "plan: status 12: raire: {}/manifest.csv: no such file; ",
    "killed_of_open": "open: status -9: something killed it", "bad_words_of_audit": "audit 40: status 1: raire: ",
}
ASLEEP = "asleep_of_search"


def write(folder, program, counties):
    """Writes the town's county once for each name, and the program that harms them."""
    put(folder, "terms.csv", text=TERMS)
    put(folder, "stand_in", text=STAND_IN.format(program=program))
    os.chmod(os.path.join(folder, "stand_in"), 0o755)
    for county in counties:
        for name in ("ballots.raire", "manifest.csv"):
            put(folder, "counties", county, name, of=f"town/{name}")
        for name in ("seen_40.csv", "seen.csv"):
            put(folder, "counties", county, FOLDER, name, of="town/seen.csv")


def write_failures(folder, program):
    write(folder, program, ["well", *FAILURES])
    for county in ("read_fault", "nowhere"):
        os.remove(os.path.join(folder, "counties", county, "manifest.csv"))
    os.mkdir(os.path.join(folder, "counties", "read_fault", "manifest.csv"))
    put(folder, "counties", "bad_manifest", "manifest.csv", text="batch;cards\n")
    with open(os.path.join(folder, "counties", "no_memory_of_search", "ballots.raire"), "a") as file:
        file.writelines(f"{CONTEST},{at},Birch\n" for at in range(MANY))
    with open(os.path.join(folder, "counties", "too_long", "ballots.raire"), "r+b") as file:
        file.truncate(TOO_LONG)
    os.makedirs(os.path.join(folder, "counties", "unread", "ballots.raire"))


def run(tried, folder, *words):
    return tried.run(folder, *words, given={"RAIRE": os.path.join(folder, "stand_in")}.items())


def by_status(tried, place):
    results, failures, asleep = (os.path.join(place, name) for name in ("results", "failures", "asleep"))
    write(results, tried.program, RESULTS)
    status, out, err = run(tried, results)
    tried.see("no result is a failure", status == 0, (out, err))
    found = rows(results)
    for county, (state, why) in RESULTS.items():
        row = found[county, CONTEST]
        tried.see(f"{county}: {state}", row["state"] == state and row["why"].startswith(why) and bool(row["why"]) == bool(why), row)
    write_failures(failures, tried.program)
    status, out, err = run(tried, failures)
    tried.see("a failure is one", status == 1 and out.startswith(f"{len(FAILURES) + 1} failed, 1 signed off\n"), (out, err))
    found = rows(failures)
    for county, told in FAILURES.items():
        line, row = f"{county}, contest {CONTEST}: {told.format('counties/' + county)}", found[county, CONTEST]
        tried.see(f"{county} fails: {line}", f"state: {line}" in err and row["state"] == "failed" and row["why"].startswith(line), err)
    told = "state: unread: search: status 7: raire: counties/unread/ballots.raire: read fault; "
    tried.see("a ballot file of which nothing can be read fails", told in err, err)
    tried.see("the contest of which nothing fails is done", found["well", CONTEST]["state"] == "signed off", found)
    write(asleep, tried.program, [ASLEEP])
    status, out, err = run(tried, asleep, "--seconds", "2")
    told = f"state: {ASLEEP}, contest {CONTEST}: search --nodes=100000: stopped after 2 seconds; "
    tried.see("what takes too long is stopped", status == 1 and told in err, (out, err))
