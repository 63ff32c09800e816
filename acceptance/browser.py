"""A browser that is driven over the DevTools protocol, through two pipes. It is in the package chromium-headless-shell."""
import json
import os
import shutil
import subprocess
import time

NAMES = ("chromium-headless-shell", "chromium", "google-chrome")
KEYS = {
    "Enter": (13, "\r"), " ": (32, " "), "Tab": (9, ""), "Backspace": (8, ""), "PageUp": (33, ""), "PageDown": (34, ""),
    "ArrowLeft": (37, ""), "ArrowUp": (38, ""), "ArrowRight": (39, ""), "ArrowDown": (40, ""),
}
PATIENCE = 10  # the maximum number of seconds to wait for anything


def found():
    return next(filter(None, map(shutil.which, NAMES)), None)


class Browser:
    """A browser with one page open; it keeps its storage in a folder."""

    def __init__(self, folder, downloads):
        to_it, to_end = os.pipe()
        from_end, from_it = os.pipe()
        words = ["--no-sandbox", "--disable-gpu", "--hide-scrollbars", "--headless", "--remote-debugging-pipe", f"--user-data-dir={folder}"]
        started = ["sh", "-c", f'exec "$@" 3<&{to_it} 4>&{from_it}', "sh", found(), *words, "about:blank"]
        self.process = subprocess.Popen(started, pass_fds=(to_it, from_it), stdout=subprocess.DEVNULL, stderr=subprocess.DEVNULL)
        os.close(to_it)
        os.close(from_it)
        self.words, self.answers = os.fdopen(to_end, "wb", buffering=0), os.fdopen(from_end, "rb")
        self.read, self.count, self.session = b"", 0, None
        target = next(each for each in self.ask("Target.getTargets")["targetInfos"] if each["type"] == "page")
        self.session = self.ask("Target.attachToTarget", targetId=target["targetId"], flatten=True)["sessionId"]
        self.ask("Page.enable")
        self.ask("Browser.setDownloadBehavior", is_of_page=False, behavior="allow", downloadPath=downloads)

    def further_page(self):
        """Opens one more page of this browser, in a tab of its own, and returns its session."""
        target = self.ask("Target.createTarget", is_of_page=False, url="about:blank")["targetId"]
        return self.ask("Target.attachToTarget", is_of_page=False, targetId=target, flatten=True)["sessionId"]

    def turn_to(self, session):
        """Switches to the page of a session."""
        self.session = session
        self.ask("Page.enable")
        self.ask("Page.bringToFront")

    def go_back(self):
        """Presses the back button, and returns whether there was a page to go back to."""
        history = self.patiently("Page.getNavigationHistory")
        at = history["currentIndex"] - 1
        if at < 0:
            return False
        self.ask("Page.navigateToHistoryEntry", entryId=history["entries"][at]["id"])
        end = time.monotonic() + PATIENCE
        while time.monotonic() < end and self.patiently("Page.getNavigationHistory")["currentIndex"] != at:
            time.sleep(0.02)
        return True

    def patiently(self, method, **given):
        """Does what `ask` does, even while one page replaces another."""
        end = time.monotonic() + PATIENCE
        while True:
            try:
                return self.ask(method, **given)
            except RuntimeError:
                if time.monotonic() > end:
                    raise
                time.sleep(0.02)

    def __enter__(self):
        return self

    def __exit__(self, *_):
        self.ask("Browser.close", is_of_page=False)
        self.process.wait(PATIENCE)

    def ask(self, method, is_of_page=True, **given):
        """The result of a method of the protocol. Anything else that the browser sends meanwhile is dropped."""
        self.count += 1
        message = {"id": self.count, "method": method, "params": given}
        if is_of_page and self.session:
            message["sessionId"] = self.session
        self.words.write(json.dumps(message).encode() + b"\0")
        while True:
            answer = self.answer()
            if answer.get("id") == self.count:
                if "error" in answer:
                    raise RuntimeError(f"{method}: {answer['error']}")
                return answer["result"]

    def answer(self):
        while b"\0" not in self.read:
            piece = self.answers.read1(65_536)
            if not piece:
                raise EOFError("the browser ended")
            self.read += piece
        one, _, self.read = self.read.partition(b"\0")
        return json.loads(one)

    def value(self, script):
        """The value of a script, run in the page."""
        result = self.ask("Runtime.evaluate", expression=script, returnByValue=True)
        if "exceptionDetails" in result:
            raise RuntimeError(f"{script}: {result['exceptionDetails']}")
        return result["result"].get("value")

    def wait(self, script):
        """Waits until the value of a script is true."""
        end = time.monotonic() + PATIENCE
        while time.monotonic() < end:
            if self.value(script):
                return True
            time.sleep(0.02)
        return False

    def open(self, path):
        """Opens a file, and waits for the new page even if it has the same path as the old one."""
        self.value("window.isOld = true")
        self.ask("Page.navigate", url=f"file://{path}")
        self.wait(f"document.readyState === 'complete' && !window.isOld && location.pathname === {json.dumps(path)}")

    def reload(self):
        self.value("window.isOld = true")
        self.ask("Page.reload")
        self.wait("document.readyState === 'complete' && !window.isOld")

    def press(self, *keys):
        """Types keys, each given by its name or its letter."""
        for key in keys:
            code, text = KEYS[key] if key in KEYS else (ord(key.upper()), key)
            told = {"key": key, "windowsVirtualKeyCode": code}
            self.ask("Input.dispatchKeyEvent", type="keyDown" if text else "rawKeyDown", **told, **({"text": text} if text else {}))
            self.ask("Input.dispatchKeyEvent", type="keyUp", **told)

    def click(self, selector):
        """Clicks in the middle of an element."""
        self.value(f"document.querySelector({json.dumps(selector)}).scrollIntoView({{block: 'center'}})")
        x, y = self.value(f"(({{x, y, width, height}}) => [x + width / 2, y + height / 2])(document.querySelector({json.dumps(selector)}).getBoundingClientRect())")
        for kind in ("mousePressed", "mouseReleased"):
            self.ask("Input.dispatchMouseEvent", type=kind, x=x, y=y, button="left", clickCount=1)

    def look(self, width, height, medium="screen", is_dark=False):
        """Lays the page out in a window of this size, or as in print."""
        self.ask("Emulation.setDeviceMetricsOverride", width=width, height=height, deviceScaleFactor=1, mobile=False)
        self.ask("Emulation.setEmulatedMedia", media=medium, features=[{"name": "prefers-color-scheme", "value": "dark" if is_dark else "light"}])

    def picture(self):
        return self.ask("Page.captureScreenshot", format="png", captureBeyondViewport=True)["data"]
