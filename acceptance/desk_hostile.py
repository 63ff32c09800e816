#!/usr/bin/env python3
"""Asks a desk what nobody should ask it, and uses two tabs to do at once what can only be done once.

acceptance/desk_hostile.py PROGRAM sends requests with foreign hosts and origins, without the key, cookie or token, with names of files that aren't the
desk's, with bodies that are too long or too slow, with scripts in every field, and over thousands of connections. Each request must get a plain answer. The
folder and what is next to it must be as before, and no command may have been run. Then it uses old pages and two tabs, fills the disk and removes the
permission to write. The last line says how many checks passed. PROGRAM is the one of ./raire.
"""
import hashlib
import os
import random
import re
import shlex
import socket
import subprocess
import sys
import tempfile
import time

from desk_visit import Desk, form, free_ports, HOST, multipart, RAIRE, read, Visitor
from desk_walks import go_through, read_cards, take, WALKS

STEPS = ("records", "contest", "cards", "assertions", "plan", "terms", "seed", "fetch1", "read1", "round1", "count", "end")
URLENCODED = {"Content_Type": "application/x-www-form-urlencoded"}
SCRIPT = "<script>alert(1)</script>"
EXPORT = [
    ("way", "export"), ("format", "plain"), ("title", "Mayor"), ("overvotes", "end"), ("skips", "pass"), ("repeats", "pass"), ("write-ins", "merge"),
]
NAMES = (
    "../commands.txt", "..%2f..%2fetc%2fpasswd", "%2e%2e/%2e%2e/etc/passwd", "%2fetc%2fpasswd", "....//etc/passwd", "commands.txt", ".desk", ".desk/output", "%00", "ballots.raire%00.csv", "a" * 300, "a" * 6_000,
    "..", ".", "%5c..%5c", "desk.py", "style.css/../../desk/desk.py", "%c0%ae%c0%ae%2f", "~root", "$(id)", "%0d%0aX-Bad:%201", SCRIPT.replace("<", "%3C").replace(">", "%3E"),
)


class Tried:
    def __init__(self):
        self.count = self.failed = self.asked = 0

    def see(self, shows, holds, told=""):
        self.count += 1
        if not holds:
            self.failed += 1
            print(f"./raire desk: {shows}: not so {told}", flush=True)


def state_of(place):
    """Each file below a folder, with its bytes."""
    return {os.path.join(top, name): read(os.path.join(top, name)) for top, _, names in os.walk(place) for name in names}


def commands_run(desk):
    """A count that grows with each command that a desk has run: the page faults of its children."""
    return read(f"/proc/{desk.process.pid}/stat", "r").rpartition(")")[2].split()[8]


def state_version(place):
    """The version of a folder's state, as its pages have it."""
    return hashlib.sha256(read(os.path.join(place, "commands.txt"))).hexdigest()


class Stranger:
    """Sends requests, and checks that each gets one of the expected statuses, in plain words, and changes nothing."""

    def __init__(self, tried, visitor, place):
        self.tried, self.visitor, self.place, self.before = tried, visitor, place, state_of(place)

    def sends(self, what, statuses, method, path, body=None, **headers):
        self.tried.asked += 1
        try:
            answer = self.visitor.ask(method, path, body, **headers)
            said = (answer.status, answer.text[:200])
        except (ConnectionError, socket.timeout) as fault:
            answer, said = None, (0, type(fault).__name__)
        is_plain = answer is not None and "Traceback" not in answer.text and "werkzeug" not in answer.text.lower() and SCRIPT not in answer.text
        self.tried.see(f"{what}: {statuses}", said[0] in statuses and (is_plain or said[0] == 0), said)
        if answer is not None and answer.status not in (431, 400, 413) and "text/html" in answer.headers.get("Content-Type", ""):
            self.tried.see(f"{what}: its page may run no script of others", "script-src 'self'" in answer.headers.get("Content-Security-Policy", ""))

    def see_unchanged(self, what):
        self.tried.see(f"{what}: nothing was changed", state_of(self.place) == self.before, sorted(set(state_of(self.place)) ^ set(self.before)))


def strangers(stranger, port):
    """Foreign hosts and origins, and no key."""
    own, good = f"{HOST}:{port}", stranger.visitor.cookie
    for host in ("localhost", f"localhost:{port}", HOST, "evil.example", f"evil.example:{port}", f"{HOST}:{port + 1}", f"[::1]:{port}", "", f"{own}.evil.example", f"{own}@evil.example", "127.1", f"0x7f000001:{port}"):
        stranger.sends(f"Host {host!r}", (421, 400), "GET", "/", Host=host)
        stranger.sends(f"Host {host!r} of a form", (421, 400), "POST", "/step/records/do", form(token="x"), Host=host, **URLENCODED)
    for origin in ("null", "http://evil.example", f"https://{own}", f"http://localhost:{port}", f"http://{HOST}", f"http://{HOST}:{port + 1}", f"http://{own}.evil.example", f"HTTP://{own}", "", None):
        for path in ("/step/records/do", "/stop", "/step/end/do"):
            stranger.sends(f"Origin {origin} of {path}", (403,), "POST", path, form(token="x"), Origin=origin, **URLENCODED)
    for site in ("cross-site", "same-site", "x"):
        stranger.sends(f"Sec-Fetch-Site {site}", (403,), "GET", "/", Sec_Fetch_Site=site)
    for cookie in (None, "", "desk-1=x", good[:-1], good + "x", good.replace("desk-", "desk"), good.upper(), "a=b; " * 50, "\x80\xff", f"desk-{port}="):
        for path in ("/", "/step/records", "/typed", "/file/terms.txt", "/bundle", "/look/style.css", "/?key=x", "/?key=" + good.partition("=")[2]):
            stranger.sends(f"cookie {cookie!r} at {path}", (401, 400), "GET", path, Cookie=cookie)
        stranger.sends(f"cookie {cookie!r} of a form", (401, 400), "POST", "/step/records/do", form(token="x"), Cookie=cookie, **URLENCODED)
    for method in ("PUT", "DELETE", "PATCH", "OPTIONS", "TRACE", "CONNECT", "PROPFIND"):
        stranger.sends(method, (405, 400), method, "/step/records/do", Origin=f"http://{own}")
    stranger.see_unchanged("strangers")


def forms(stranger, visitor):
    """Forms without the token, and with fields that don't exist."""
    page = visitor.go("/step/records")
    token, version = page.hidden("token"), page.hidden("version")
    for step in STEPS:
        for wrong in ("", token[:-1], token + "x", SCRIPT):
            stranger.sends(f"token {wrong[:9]!r} at {step}", (403,), "POST", f"/step/{step}/do", form(token=wrong, version=version), **URLENCODED)
        stranger.sends(f"{step} with a version that is none", (409, 400, 404), "POST", f"/step/{step}/do", form(token=token, version=SCRIPT, way="raire", rounds="4", how="x", seed="1", again="1"), **URLENCODED)
    for path in ("/step/records/back", "/step/plan/try", "/step/terms/preview", "/step/seed/preview", "/read/1/A/begin", "/read/1/A/take", "/read/1/C/take", "/read/0/A/take"):
        stranger.sends(f"{path} out of turn", (404, 409), "POST", path, form(token=token, version=version, person=SCRIPT, card="../x"), **URLENCODED)
    stranger.see_unchanged("forms")
    for name in NAMES:
        for path in (f"/file/{name}", f"/look/{name}", f"/step/{name}", f"/read/1/{name}", f"/{name}"):
            stranger.sends(path[:60], (404, 400, 308, 405, 431, 303), "GET", path)
    stranger.see_unchanged("names")


def bodies(stranger, visitor):
    """Bodies over the limits, and malformed bodies."""
    page = visitor.go("/step/records")
    token, version = page.hidden("token"), page.hidden("version")
    long = b"x" * 3_000_000
    for path in ("/stop", "/step/records/back", "/step/terms/preview", "/read/1/A/take"):
        stranger.sends(f"3 MB at {path}", (413,), "POST", path, b"token=" + long, **URLENCODED)
    kind = "multipart/form-data; boundary=a-line-that-no-file-has"
    body, _ = multipart([("token", token), ("version", version), ("way", "raire"), ("how", "x" * 2_000_000)], [])
    stranger.sends("a field of 2 MB", (413,), "POST", "/step/records/do", body, Content_Type=kind)
    stranger.sends("more than 1 GiB, as it says", (413,), "POST", "/step/records/do", b"x", Content_Length=str(3 << 30), Content_Type=kind)
    for number, bad in enumerate((b"", b"--a-line", b"\0" * 100, b"--a-line-that-no-file-has\r\n" * 2000, b"--a-line-that-no-file-has--\r\n")):
        stranger.sends(f"a body that is none, {number}", (403, 400, 413), "POST", "/step/records/do", bad, Content_Type=kind)
    for length in ("-1", "x", "1e3", "99999999999999999999"):
        stranger.sends(f"Content-Length {length}", (400, 413, 403, 0), "POST", "/stop", b"x", Content_Length=length)
    for many in (["X-A" * 9_000], ["y" * 20_000]):
        stranger.sends("headers that are too long", (431,), "GET", "/", X_Long=many[0])
    stranger.see_unchanged("bodies")


def texts(stranger, visitor, tried):
    """Scripts in what is typed, and malformed files, at the steps that can be done."""
    kind = "multipart/form-data; boundary=a-line-that-no-file-has"
    page = visitor.go("/step/records")
    known = [("token", page.hidden("token")), ("version", page.hidden("version"))]
    for number, data in enumerate((SCRIPT.encode(), b"", b"\0" * 1000, f"1\nContest,{SCRIPT},2,a,b\n{SCRIPT},c_1,a\n".encode(), b"1\nContest,x,99,a\n", b"\xff" * 999)):
        body, _ = multipart([*known, ("way", "raire")], [("ballots", data)])
        answer = visitor.follow(visitor.ask("POST", "/step/records/do", body, Content_Type=kind))
        tried.asked += 1
        is_shown = SCRIPT not in answer.text and "Traceback" not in answer.text
        tried.see(f"a ballot file that is none, {number}", is_shown and ("Refused" in answer.text or number == 3), answer.words()[:300])
        if number == 3 and "Undo this step" in answer.text:
            visitor.page = answer
            visitor.post("/step/records/back")
            known = [("token", page.hidden("token")), ("version", visitor.go("/step/records").hidden("version"))]
    for name in ("way", "format", "overvotes", "skips"):
        body, _ = multipart([*known, (name, SCRIPT), *EXPORT], [("exports", b"id,1st\n")])
        stranger.sends(f"{name} that is none", (400,), "POST", "/step/records/do", body, Content_Type=kind)
    for name in ("title", "word", "contest", "without", "sheet", "id", "cards", "ranks"):
        body, _ = multipart([*known, (name, SCRIPT), *EXPORT], [("exports", b"id,1st\nb_1,Ash\n")])
        answer = visitor.follow(visitor.ask("POST", "/step/records/do", body, Content_Type=kind))
        tried.asked += 1
        tried.see(f"{name} with a script", answer.status == 200 and SCRIPT not in answer.text and "Traceback" not in answer.text, answer.words()[:300])
        if "Undo this step" in answer.text:
            visitor.page = answer
            visitor.post("/step/records/back")
            known = [("token", page.hidden("token")), ("version", visitor.go("/step/records").hidden("version"))]


def silence(tried, port):
    """Connections that say nothing, or say it slowly, or ask for nothing: others are served meanwhile and after."""
    held = []
    for number in range(2_000):
        try:
            place = socket.create_connection((HOST, port), timeout=0.2)
            place.sendall([b"", b"GET / HT", b"POST /stop HTTP/1.1\r\nContent-Length: 99\r\n"][number % 3])
            held.append(place)
        except OSError:
            pass
        tried.asked += 1
    for place in held:
        place.close()
    tried.see("thousands of connections are taken or put off", len(held) > 300, len(held))


def served(tried, visitor, what):
    began = time.monotonic()
    while time.monotonic() - began < 90:
        try:
            if visitor.ask("GET", "/typed").status == 200:
                return tried.see(f"{what}: the desk serves on", True)
        except OSError:
            time.sleep(1)
    tried.see(f"{what}: the desk serves on", False)


def hostile(tried, place):
    [port] = free_ports(1)
    path = os.path.join(place, "inside", "audit")
    os.makedirs(os.path.dirname(path))
    with open(os.path.join(place, "inside", "beside.txt"), "w") as file:
        file.write("nobody's business")
    with Desk(path, port) as desk:
        visitor = Visitor(desk)
        inside, before = Stranger(tried, visitor, os.path.join(place, "inside")), commands_run(desk)
        strangers(inside, port)
        forms(inside, visitor)
        bodies(inside, visitor)
        tried.see("no command was run", commands_run(desk) == before)
        texts(inside, visitor, tried)
        silence(tried, port)
        served(tried, visitor, "after thousands of connections")
        tried.see("a command that was run would be seen", commands_run(desk) != before)
        tried.see("the folder is empty", sorted(os.listdir(path)) == ["commands.txt"], os.listdir(path))


# ---- two tabs, and the back button

def tabs(tried, place):
    """Two tabs of one browser, at each step of the village: what the second one sends is old and is refused; the files are those of one tab."""
    [port] = free_ports(1)
    walk, path = WALKS["village"](), os.path.join(place, "tabs")
    with Desk(path, port) as desk:
        first = Visitor(desk)
        second = Visitor.__new__(Visitor)
        second.port, second.cookie, second.page = first.port, first.cookie, None
        for step, fields, files in walk.steps():
            if step.startswith("read"):
                read_in_two_tabs(tried, first, second, walk)
            token = second.go(f"/step/{step}").hidden("token")
            page = first.do(step, fields, files)
            tried.see(f"{step} is done in the first tab", 'class="typed"' in page.text, page.words()[:300])
            before = state_of(path)
            old = second.post(f"/step/{step}/do", fields, files)
            tried.see(f"{step} from an old page is refused", old.status == 409 and "gone on since" in old.text, (old.status, old.words()[:200]))
            again = first.ask("POST", f"/step/{step}/do", multipart([("token", token), ("version", state_version(path)), *fields.items()], files)[0], Content_Type="multipart/form-data; boundary=a-line-that-no-file-has")
            is_replaced = step in ("plan", "end") and again.status == 303
            tried.see(f"{step} that is done can't be done again", again.status == 409 or is_replaced, again.status)
            first.follow(again)
            tried.see(f"{step}: no file is lost or changed", state_of(path) == before, sorted(set(state_of(path)) ^ set(before)))
        tried.see("terms can't be taken back", first.ask("POST", "/step/terms/back", form(token=token, version=state_version(path)), **URLENCODED).status == 409)


def read_in_two_tabs(tried, first, second, walk):
    """A card that both tabs show: its second reading is refused, and the first one stays."""
    first.go("/read/1/A")
    first.post("/read/1/A/begin", {"person": "MK"})
    page, other = first.go("/read/1/A"), second.go("/read/1/A")
    card = page.hidden("card")
    take(first, walk, 1, "A", page)
    old = second.post("/read/1/A/take", {"card": card, "was": other.hidden("was"), "missing": "yes"})
    tried.see("a card from an old page is refused", old.status == 400 and "was saved since this page was loaded" in old.text, (old.status, old.words()[:200]))
    same = first.go("/read/1/B")
    tried.see("two readers have two names", "other reader" in first.post("/read/1/B/begin", {"person": "mk"}).text, same.words()[:200])
    read_cards(first, walk, 1)


# ---- disk and permission

def full_disk(tried, place):
    """A disk of 120 KB that fills up during the town's audit. The desk says so; once there is room the audit continues, and ends with README's bytes."""
    [port] = free_ports(1)
    path, walk = os.path.join(place, "small"), WALKS["town"]()
    os.mkdir(path)
    mounted = f"mount -t tmpfs -o size=120k none {shlex.quote(path)} && exec {shlex.quote(RAIRE)} desk {shlex.quote(path)} --port {port}"
    desk = Desk.__new__(Desk)
    desk.begin(["unshare", "--user", "--map-root-user", "--mount", "sh", "-c", mounted], path, port)
    with desk:
        tried.see("a desk on a small disk begins", desk.address is not None, desk.told)
        visitor = Visitor(desk)
        page = visitor.do("records", {"way": "raire"}, [("ballots", b"1\nContest,x,2,a,b\n" + b"x,a_1,a,b\n" * 30_000)])
        tried.see("a file that has no room is told", page.status == 507 or "No space left" in page.text, (page.status, page.words()[:300]))
        try:
            go_through(visitor, walk)
            fault = ""
        except AssertionError as told:
            fault = str(told)
        tried.see("a disk that is full is told", "No space left" in fault or "status 8" in fault, fault[:600])
        told = visitor.go("/typed").words()
        tried.see("nothing is lost", "Each file has the bytes that are recorded" in told, told[:300])
        inside = ["nsenter", f"--target={desk.process.pid}", "--user", "--mount", "--preserve-credentials"]
        subprocess.run([*inside, "mount", "-o", "remount,size=8m", "none", path], check=True)
        go_through(visitor, walk)
        made = visitor.ask("GET", "/file/round2.json").body
        tried.see("the audit ends with README's bytes", made == read(walk.file("session.json")))


def without_permission(tried, place):
    """A folder that nobody may write: reported at the start, or at a step if the permission is removed later."""
    [port] = free_ports(1)
    path = os.path.join(place, "closed")
    os.mkdir(path)
    os.chmod(place, 0o755)
    somebody = {"user": 65_534, "group": 65_534} if os.getuid() == 0 else {}
    os.chmod(path, 0o555)
    with Desk(path, port, **somebody) as desk:
        tried.see("a folder without permission is told", desk.process.wait(60) == 7 and "Permission denied" in desk.told, desk.told)
    os.chmod(path, 0o777)
    with Desk(path, port, **somebody) as desk:
        visitor = Visitor(desk)
        go_through(visitor, WALKS["village"](), until="cards")
        os.chmod(path, 0o555)
        before = state_of(path)
        page = visitor.do("cards", {"cast": "60"}, [("manifest", WALKS["village"]().data("manifest.csv"))])
        tried.see("a permission that goes is told", "Permission denied" in page.text and state_of(path) == before, (page.status, page.words()[:300]))
        os.chmod(path, 0o777)
        go_through(visitor, WALKS["village"](), until="plan")
        tried.see("the audit goes on with the permission", "assertions.json" in os.listdir(path))


def two_desks(tried, place):
    ports = free_ports(2)
    path = os.path.join(place, "one")
    with Desk(path, ports[0]) as first:
        with Desk(path, ports[1]) as second:
            tried.see("a second desk is refused", second.process.wait(60) == 7 and "another desk has this folder open" in second.told, second.told)
        with Desk(os.path.join(place, "two"), ports[0]) as taken:
            tried.see("a port that is taken is told", taken.process.wait(60) == 7 and "--port gives another port" in taken.told, taken.told)
        tried.see("the first one goes on", Visitor(first).page.status == 200)
    with Desk(place, ports[1]) as other:
        tried.see("a folder that isn't a desk's is refused", other.process.wait(60) == 7 and "give an empty folder" in other.told, other.told)


def stopped(tried, place):
    """A command that is stopped: its process is gone, and the folder is as before."""
    [port] = free_ports(1)
    path = os.path.join(place, "stopped")
    with Desk(path, port) as desk:
        visitor = Visitor(desk)
        visitor.do("records", {"way": "raire"}, [("ballots", long_search())])
        visitor.do("contest", {"audit": "poll"})
        visitor.do("cards", {"cast": "2000"}, [("manifest", b"batch,cards\nb,2000\n")])
        before = state_of(path)
        page = visitor.go("/step/assertions")
        body, kind = multipart([("token", page.hidden("token")), ("version", page.hidden("version")), ("budget", "--sets=1048576")], [])
        answer = visitor.ask("POST", "/step/assertions/do", body, Content_Type=kind)
        tried.see("a long search shows how far it is", answer.headers.get("Location") == "/running", answer.status)
        shown = visitor.ask("GET", "/running")
        tried.see("with its command and its time", "raire search ballots.raire" in shown.text and "seconds so far" in shown.text, shown.words()[:300])
        busy = visitor.ask("POST", "/step/assertions/do", body, Content_Type=kind)
        tried.see("meanwhile no other command is run", busy.status == 409, busy.status)
        visitor.page = shown
        page = visitor.post("/stop")
        tried.see("it is stopped", "Stopped: nothing was changed" in page.words(), page.words()[:400])
        tried.see("the folder is as before", state_of(path) == before)
        left = subprocess.run(["ps", "-eo", "args"], capture_output=True, text=True).stdout
        tried.see("its process is gone", not re.search(r"raire search ballots\.raire.*1048576", left))


def long_search():
    """A contest of 26 nearly equal candidates, whose search takes minutes."""
    chance, names = random.Random(7), [f"c{number}" for number in range(26)]
    lines = [f"x,b_{ballot},{','.join(chance.sample(names, len(names)))}" for ballot in range(1, 2_001)]
    return "\n".join(["1", f"Contest,x,26,{','.join(names)}", *lines, ""]).encode()


def main():
    tried = Tried()
    with tempfile.TemporaryDirectory() as place:
        for test in (hostile, tabs, full_disk, without_permission, two_desks, stopped):
            own = os.path.join(place, test.__name__)
            os.mkdir(own)
            os.chmod(place, 0o755)
            test(tried, own)
    tried.see("200 hostile requests at least", tried.asked >= 200, tried.asked)
    print(f"{tried.asked} hostile requests were sent")
    print(f"{tried.count - tried.failed} things of a desk under attack as they should be, {tried.failed} not")
    sys.exit(1 if tried.failed else 0)


if __name__ == "__main__":
    main()
