#!/usr/bin/env python3
"""Goes through audits at ./raire desk in a browser, and looks at its pages.

acceptance/desk_page.py PROGRAM [FOLDER] does the town and the county by clicks, the town again by keyboard only, the village with scripts switched off, and
the village again in two tabs at once, with the back button. The files must be those of README's commands. Every page is laid out at 390, 1280 and 1920
pixels, dark and as in print (look.js): nothing may overlap or be cut off, and contrast, names and what a keyboard reaches must be right. If there is a
FOLDER, the pictures are kept in it. The last line says how many checks passed. PROGRAM is the one of ./raire.
"""
import base64
import json
import os
import subprocess
import sys
import tempfile
import time

import browser
from desk_shown import files_of, is_same
from desk_visit import Desk, free_ports, HOST, RAIRE, read, TOP
from desk_walks import READERS, WALKS

LOOKS = {
    "narrow": (390, "screen", False), "wide": (1280, "screen", False), "widest": (1920, "screen", False), "dark": (1280, "screen", True),
    "print": (794, "print", False),
}
ENDED = "document.readyState === 'complete' && !location.pathname.startsWith('/running')"
PATIENCE = 300
MOST_PAGES_BACK = 3
FILES = {"ballots": "ballots.raire", "manifest": "manifest.csv", "counted": "counted.raire"}


class Tried:
    def __init__(self):
        self.count, self.wrong = 0, []

    def see(self, shows, holds, told=""):
        self.count += 1
        if not holds:
            self.wrong.append(f"{shows}: not so {told}")


class Clerk:
    """A person at a browser. Each method that leads to another page waits until that page is there."""

    def __init__(self, opened, desk, tried, name, keep=None):
        self.opened, self.tried, self.name, self.keep, self.looked = opened, tried, name, keep, set()
        self.origin = f"http://{HOST}:{desk.port}"
        self.opened.ask("Page.navigate", url=desk.address)
        self.wait("location.pathname.startsWith('/step/')")

    def value(self, script):
        return self.opened.value(script)

    def wait(self, script):
        end = time.monotonic() + PATIENCE
        while time.monotonic() < end:
            try:
                if self.value(f"Boolean({ENDED} && ({script}))"):
                    return
            except RuntimeError:
                pass  # there is none between two pages
            time.sleep(0.02)
        raise TimeoutError(f"{script} at {self.value('location.href')}: {self.value('document.body.innerText')[:600]}")

    def leave(self, how):
        """Does what leads to another page, and waits for it."""
        self.value("window.isOld = true")
        how()
        self.wait("!window.isOld")

    def go(self, path):
        self.leave(lambda: self.opened.ask("Page.navigate", url=f"{self.origin}{path}"))

    def path(self):
        return self.value("location.pathname")

    def text(self):
        return self.value("document.querySelector('main').innerText")

    def click(self, selector):
        self.opened.click(selector)

    def follow(self, selector):
        self.leave(lambda: self.click(selector))

    def link(self, words):
        """Clicks on the link with these words."""
        found = f"[...document.querySelectorAll('main a')].find((a) => a.textContent.trim() === {json.dumps(words)})"
        self.value(f"{found}.id = 'the-link'")
        self.follow("#the-link")

    def type(self, text):
        self.opened.ask("Input.insertText", text=text)

    def fill(self, name, text):
        """Replaces the text of a field."""
        self.click(f"#{name}")
        self.value(f"document.getElementById({json.dumps(name)}).select()")
        self.type(text)

    def give(self, name, path):
        """Chooses a file, as the system's window would."""
        node = self.opened.ask("Runtime.evaluate", expression=f"document.getElementById({json.dumps(name)})")["result"]["objectId"]
        self.opened.ask("DOM.setFileInputFiles", files=[path], objectId=node)

    def see_step(self, step):
        is_done = self.path() == f"/step/{step}" and self.value("document.querySelector('ul.typed') !== null")
        self.tried.see(f"{step} is done", is_done, (self.path(), self.text()[:500]))

    # ---- looks

    def look(self, name):
        """Lays this page out in each way, once."""
        if self.keep is None or name in self.looked:
            return
        self.looked.add(name)
        for shown, (width, medium, is_dark) in LOOKS.items():
            self.opened.look(width, 1000, medium, is_dark)
            self.value(read(os.path.join(TOP, "acceptance", "look.js"), "r"))
            laid = json.loads(self.value("document.getElementById('found').textContent"))
            self.value("document.getElementById('found').remove()")
            wrong = [found for found in laid["found"] if not found.startswith("something from elsewhere")]
            is_right_ground = (sum(laid["ground"][:3]) < 3 * 128) == is_dark
            self.tried.see(f"{name} of the {self.name} looks right, {shown}", not wrong and laid["texts"] > 1 and is_right_ground, wrong[:6])
            names = self.value(UNNAMED)
            self.tried.see(f"{name} of the {self.name}: each field and button has a name, and there is one h1", not names, names)
            if self.keep:
                with open(os.path.join(self.keep, f"{self.name}_{name}_{shown}.png"), "wb") as file:
                    file.write(base64.b64decode(self.opened.picture()))
        self.opened.look(1280, 1000)


# What is wrong with names, headings and the document, which look.js doesn't check.
UNNAMED = """(() => {
    const named = (node) => node.labels?.length || node.getAttribute("aria-label") || (node.matches("button, a") && node.textContent.trim());
    const shown = [...document.querySelectorAll("input:not([type=hidden]), select, button, a")];
    const found = shown.filter((node) => node.checkVisibility() && !named(node)).map((node) => node.outerHTML.slice(0, 80));
    if (document.querySelectorAll("h1").length !== 1) found.push("not one h1");
    if (!document.documentElement.lang || !document.title) found.push("no language or title");
    const ids = [...document.querySelectorAll("[id]")].map((node) => node.id);
    if (new Set(ids).size < ids.length) found.push("an id stands twice: " + ids.filter((id, i) => ids.indexOf(id) < i));
    if ([...document.querySelectorAll("[style], style, script:not([src])")].length) found.push("a style or a script within the page");
    return found;
})()"""


# ---- by clicks

def by_clicks(clerk, walk):
    for step, fields, files in walk.steps():
        if clerk.path() != f"/step/{step}":
            clerk.follow(f"nav a[href='/step/{step}']")
        clerk.look(f"{step.rstrip('12')}_before")
        if step.startswith("read"):
            for reader in READERS:
                read_by_clicks(clerk, walk, int(step[4:]), reader)
        fill_in(clerk, walk, fields, files)
        clerk.follow("main .buttons button")
        if has_preview(step):
            clerk.look(f"{step.rstrip('12')}_preview")
            clerk.follow("main .buttons button")
        clerk.see_step(step)
        clerk.look(step.rstrip("12"))


def has_preview(step):
    """Whether what is typed at this step is shown again before it is final."""
    return step.startswith(("terms", "seed", "fetch"))


def fill_in(clerk, walk, fields, files):
    for name, _ in files:
        clerk.give(name, walk.file(FILES[name]))
    for name, value in fields.items():
        if name in ("audit", "budget", "way"):
            clerk.click(f"label[for='{name}-{value or 'default'}']")
        else:
            clerk.fill(name, str(value))


def read_by_clicks(clerk, walk, number, reader, goes_back=False):
    clerk.follow(f"a[href='/read/{number}/{reader}']")
    clerk.click("#person")
    clerk.type(READERS[reader])
    clerk.follow(".buttons button")
    while clerk.path().startswith("/read/"):
        clerk.look("card")
        card = clerk.value("document.querySelector('input[name=card]').value")
        reading = walk.seen[card]
        if None in reading.values():
            clerk.follow("button.missing")
            continue
        for contest, title, names in clerk.value(CONTESTS):
            ranked = reading[title] if title in reading else reading[None]
            for rank, name in enumerate(ranked, 1):
                clerk.click(f"input[name='rank_{contest}_{rank}'][value='{names.index(name) + 1}']")
            if not ranked:
                clerk.click(f"input[name='way_{contest}'][value='nobody']")
        clerk.follow("button.take")
        if goes_back and clerk.path().startswith("/read/"):
            see_cards_apart(clerk, card)
            goes_back = False


def see_cards_apart(clerk, card):
    """Goes back to a card that was read, and on to the next one. Each has its own marks, and not those that the browser remembers from another card."""
    following, own = clerk.value(CARD), f"{clerk.path()}?card={card}"
    clerk.opened.go_back()
    clerk.wait("document.querySelector('form.entry') !== null")
    shown = clerk.value(CARD)
    clerk.tried.see("a card that is gone back to is itself, and read", shown[0] == card and len(shown[1]) > 0, shown)
    clerk.go(own)
    clerk.tried.see("with the marks that were saved", shown == clerk.value(CARD), (shown, clerk.value(CARD)))
    clerk.go(clerk.path())
    clerk.tried.see("the next card has no marks", clerk.value(CARD) == following and not following[1], (following, clerk.value(CARD)))


CARD = """[document.querySelector("input[name=card]").value,
    [...document.querySelectorAll("form.entry tr:not(.none) input:checked")].map((each) => each.name + " " + each.value)]"""
CONTESTS = """[...document.querySelectorAll("[data-contest]")].map((each) => [each.dataset.contest, each.querySelector("legend").textContent,
    [...each.querySelectorAll("tbody tr:not(.none) th")].map((th) => th.lastChild.textContent.trim())])"""


# ---- by keyboard only

def tab_to(clerk, selector):
    """Presses the tab key until an element has the focus."""
    for _ in range(400):
        if clerk.value(f"document.activeElement.matches({json.dumps(selector)})"):
            is_seen = clerk.value("getComputedStyle(document.activeElement).outlineStyle !== 'none'")
            clerk.tried.see(f"the keyboard is seen at {selector}", is_seen)
            return
        clerk.opened.press("Tab")
    raise TimeoutError(f"no keyboard reaches {selector} at {clerk.path()}")


def enter(clerk, selector):
    tab_to(clerk, selector)
    clerk.leave(lambda: clerk.opened.press("Enter"))


def by_keyboard(clerk, walk):
    """The town by keyboard only, except that the window that chooses a file is the system's own."""
    for step, fields, files in walk.steps():
        if clerk.path() != f"/step/{step}":
            enter(clerk, f".next a[href='/step/{step}']")
        if step.startswith("read"):
            for reader in READERS:
                read_by_keyboard(clerk, walk, int(step[4:]), reader)
        for name, _ in files:
            tab_to(clerk, f"#{name}")
            clerk.give(name, walk.file(FILES[name]))
        for name, value in fields.items():
            if name not in ("audit", "budget", "way"):  # these are already set as the town has them
                tab_to(clerk, f"#{name}")
                clerk.opened.ask("Input.dispatchKeyEvent", type="rawKeyDown", key="a", windowsVirtualKeyCode=65, modifiers=2, commands=["selectAll"])
                clerk.type(str(value))
        enter(clerk, "main .buttons button")
        if has_preview(step):
            enter(clerk, "main .buttons button")
        clerk.see_step(step)


def read_by_keyboard(clerk, walk, number, reader):
    enter(clerk, f"a[href='/read/{number}/{reader}']")
    clerk.wait("document.activeElement.matches('input')")  # this field has the focus when the page opens
    clerk.type(READERS[reader])
    clerk.leave(lambda: clerk.opened.press("Enter"))
    while clerk.path().startswith("/read/"):
        card = clerk.value("document.querySelector('input[name=card]').value")
        ranked = walk.seen[card][None]
        if ranked is None:
            clerk.leave(lambda: clerk.opened.press("m"))
            continue
        names = clerk.value(CONTESTS)[0][2]
        clerk.opened.press(*([str(names.index(name) + 1) for name in ranked] or ["n"]))
        clerk.leave(lambda: clerk.opened.press("Enter"))


# ---- two tabs, and the back button

OUTDATED = "gone on since this page was made"
REPLACED = ("plan", "end")  # steps that may be done again: the page that the browser reloads when it goes back isn't old


def by_two_tabs(clerk, walk, path):
    """Each step is done in one tab while the other still shows it undone; then the first tab goes back. What old pages send changes no file."""
    tabs = [clerk.opened.session, clerk.opened.further_page()]
    for step, fields, files in walk.steps():
        clerk.opened.turn_to(tabs[0])
        if step.startswith("read"):
            clerk.go(f"/step/{step}")
            for reader in READERS:
                read_by_clicks(clerk, walk, int(step[4:]), reader, goes_back=True)
        for tab in reversed(tabs):
            clerk.opened.turn_to(tab)
            clerk.go(f"/step/{step}")
            fill_in(clerk, walk, fields, files)
        clerk.follow("main .buttons button")
        if has_preview(step):
            clerk.follow("main .buttons button")
        clerk.see_step(step)
        before = files_in(path)
        clerk.opened.turn_to(tabs[1])
        see_outdated(clerk, f"{step} of the other tab")
        clerk.opened.turn_to(tabs[0])
        pages = 0
        while pages < MOST_PAGES_BACK and clerk.opened.go_back():
            pages += 1
            clerk.wait("document.body !== null")
            is_page = clerk.value("location.protocol") != "chrome-error:"  # such a page asks whether to send a form again
            clerk.tried.see(f"{step}: there is a page {pages} pages back", is_page, clerk.value("document.body.innerText")[:300])
            if step not in REPLACED and clerk.value("document.querySelector(\"main form[action$='/do'] button, main form[action$='/preview'] button\") !== null"):
                see_outdated(clerk, f"{step}, {pages} pages back")
        after = files_in(path)
        clerk.tried.see(f"{step}: no file is lost or changed by two tabs and {pages} pages back", after == before, sorted(set(after) ^ set(before)))


def see_outdated(clerk, what):
    """Presses the button of an old page."""
    clerk.click("main .buttons button")
    try:
        clerk.wait(f"document.body.innerText.includes({json.dumps(OUTDATED)})")
        clerk.tried.see(f"{what} is refused", True)
    except TimeoutError as fault:
        clerk.tried.see(f"{what} is refused", False, fault)


def files_in(path):
    return {name: read(os.path.join(path, name)) for name in os.listdir(path) if os.path.isfile(os.path.join(path, name))}


# ---- other things that a browser shows

def refusals(clerk, place):
    """A refused file stays on the page, with its record and what is nearly right."""
    path = os.path.join(place, "bad.raire")
    with open(path, "w") as file:
        file.write("1\nContest,9,2,Ann,Ben\n9,b_1,Ben,ANN\n")
    clerk.give("ballots", path)
    clerk.follow("main .buttons button")
    said = clerk.text()
    is_told = "B8 at 3" in said and '"ANN" isn\'t a candidate' in said and "nothing was changed" in said
    clerk.tried.see("a refused file is told with its record", is_told, said[:600])
    clerk.look("refused")
    clerk.leave(clerk.opened.reload)
    clerk.tried.see("and is told after a reload", "B8 at 3" in clerk.text(), clerk.text()[:300])


def audit(name, how, place, port, keep):
    """Goes through one audit in one browser, and returns what was seen."""
    tried, walk = Tried(), WALKS[name]()
    path = os.path.join(place, f"{name}_{how}")
    try:
        with Desk(path, port) as desk, browser.Browser(os.path.join(place, f"profile_{name}_{how}"), place) as opened:
            opened.look(1280, 1000)
            clerk = Clerk(opened, desk, tried, name, keep)
            if how == "clicks":
                refusals(clerk, place)
                by_clicks(clerk, walk)
                clerk.follow("a[href='/typed']")
                clerk.look("typed")
            elif how == "keyboard":
                by_keyboard(clerk, walk)
            elif how == "two tabs":
                by_two_tabs(clerk, walk, path)
            else:
                opened.ask("Emulation.setScriptExecutionDisabled", value=True)
                by_clicks(clerk, walk)
    except (TimeoutError, RuntimeError, OSError, EOFError, TypeError) as fault:
        tried.see(f"the {name} by {how} goes to its end", False, f"{type(fault).__name__}: {fault}")
    see_files(tried, name, how, path)
    return tried


def see_files(tried, name, how, path):
    there = files_in(path)
    for what, file, data in files_of(name, os.path.abspath(sys.argv[3])):
        tried.see(f"{file} of the {name} by {how} is {what} of README and docs", is_same(what, data, there.get(file)))
    status = subprocess.run([RAIRE, "desk", "--read", path], capture_output=True, text=True)
    tried.see(f"the {name} by {how} is the same when it is run again", status.returncode == 0, status.stdout[-400:])


def begun(*way):
    """Runs one audit in a process of its own, since the shell that starts a browser knows only small file descriptors."""
    return subprocess.Popen([sys.executable, __file__, "--way", json.dumps(way), sys.argv[1]], stdout=subprocess.PIPE, text=True)


def main():
    if sys.argv[1] == "--way":
        tried = audit(*json.loads(sys.argv[2]))
        print(json.dumps([tried.count, tried.wrong]))
        return
    keep = os.path.abspath(sys.argv[2]) if len(sys.argv) > 2 else ""
    if keep:
        os.makedirs(keep, exist_ok=True)
    with tempfile.TemporaryDirectory() as place:
        ways = [
            ("town", "clicks", keep), ("county", "clicks", keep), ("town", "keyboard", None), ("village", "clicks without scripts", None), ("village", "two tabs", None),
        ]
        processes = [begun(name, how, place, port, keep) for (name, how, keep), port in zip(ways, free_ports(len(ways)))]
        ran = [json.loads(process.communicate()[0]) for process in processes]
    count, wrong = sum(each for each, _ in ran), [told for _, of_one in ran for told in of_one]
    print(*[f"./raire desk: {told}" for told in wrong], sep="\n", end="\n" if wrong else "")
    print(f"{count - len(wrong)} things of the desk in a browser as they should be, {len(wrong)} not")
    sys.exit(1 if wrong else 0)


if __name__ == "__main__":
    main()
