"""A desk that a test starts, and a visitor who goes through its pages without a browser."""
import ctypes
import html
import http.client
import os
import re
import select
import signal
import socket
import subprocess
import time
import urllib.parse

TOP = os.path.dirname(os.path.dirname(os.path.abspath(__file__)))
RAIRE = os.path.join(TOP, "raire")
PATIENCE = 600  # the maximum number of seconds to wait for anything
HOST = "127.0.0.1"
PR_SET_PDEATHSIG = 1


def read(path, mode="rb"):
    with open(path, mode) as file:
        return file.read()


def end_with_parent():
    """Has the system end this process when the test that started it ends, however that happens."""
    ctypes.CDLL(None).prctl(PR_SET_PDEATHSIG, signal.SIGKILL)


class Desk:
    """A process of ./raire desk."""

    def __init__(self, folder, port, **given):
        self.begin([RAIRE, "desk", folder, "--port", str(port)], folder, port, **given)

    def begin(self, words, folder, port, **given):
        self.port, self.folder = port, folder
        self.process = subprocess.Popen(
            words, stdin=subprocess.DEVNULL, stdout=subprocess.PIPE, stderr=subprocess.STDOUT, start_new_session=True, preexec_fn=end_with_parent, **given,
        )
        self.told = self.printed()
        found = re.search(r"http://\S+", self.told)
        self.address = found[0] if found else None

    def printed(self):
        """What it prints, up to its last line or its end."""
        text, end = b"", time.monotonic() + PATIENCE
        while b"Ctrl-C" not in text and time.monotonic() < end:
            if select.select([self.process.stdout], [], [], 0.2)[0]:
                piece = os.read(self.process.stdout.fileno(), 4096)
                if not piece:
                    break
                text += piece
        return text.decode()

    def end(self, number=signal.SIGTERM):
        """Ends the desk and its commands: the process group that was started here."""
        try:
            os.killpg(self.process.pid, number)
        except ProcessLookupError:
            pass
        status = self.process.wait(PATIENCE)
        self.process.stdout.close()
        return status

    def __enter__(self):
        return self

    def __exit__(self, *_):
        self.end()


class Answer:
    def __init__(self, status, headers, body, path):
        self.status, self.headers, self.body, self.path = status, headers, body, path
        self.text = body.decode(errors="replace")

    def hidden(self, name):
        found = re.search(rf'name="{name}" value="([^"]*)"', self.text)
        return html.unescape(found[1]) if found else ""

    def words(self):
        """The words of the page, without its markup."""
        return " ".join(html.unescape(re.sub("<[^>]*>", " ", self.text)).split())


class Visitor:
    """Someone who has opened the desk's address, and follows where its pages lead."""

    def __init__(self, desk):
        self.port, self.folder, self.cookie, self.page = desk.port, desk.folder, None, None
        self.page = self.follow(self.ask("GET", desk.address.partition(str(desk.port))[2]))

    def ask(self, method, path, body=None, **headers):
        """Sends one request, and returns its answer."""
        connection = http.client.HTTPConnection(HOST, self.port, timeout=PATIENCE)
        given = {"Cookie": self.cookie} if self.cookie else {}
        if method == "POST":
            given["Origin"] = f"http://{HOST}:{self.port}"
        given.update({name.replace("_", "-"): value for name, value in headers.items()})
        try:
            connection.request(method, path, body, {name: value for name, value in given.items() if value is not None})
            answer = connection.getresponse()
            found = Answer(answer.status, answer.headers, answer.read(), path)
        finally:
            connection.close()
        if answer.headers.get("Set-Cookie"):
            self.cookie = answer.headers["Set-Cookie"].partition(";")[0]
        return found

    def follow(self, answer):
        """Follows redirections until there is a page that isn't that of a running command."""
        end = time.monotonic() + PATIENCE
        while time.monotonic() < end:
            if answer.status == 303:
                answer = self.ask("GET", answer.headers["Location"])
            elif answer.path == "/running":
                time.sleep(0.05)
                answer = self.ask("GET", "/running")
            else:
                return answer
        raise TimeoutError("a command runs and runs")

    def go(self, path):
        self.page = self.follow(self.ask("GET", path))
        return self.page

    def post(self, path, fields=(), files=(), version=None):
        """Fills in a form of the page that was last loaded, and presses its button."""
        own = fields.items() if isinstance(fields, dict) else fields
        values = [("token", self.page.hidden("token")), ("version", version or self.page.hidden("version")), *own]
        body, kind = multipart(values, files)
        self.page = self.follow(self.ask("POST", path, body, Content_Type=kind))
        return self.page

    def do(self, step, fields=(), files=()):
        self.go(f"/step/{step}")
        return self.post(f"/step/{step}/do", fields, files)


def multipart(values, files):
    mark = "a-line-that-no-file-has"
    parts = [f'--{mark}\r\nContent-Disposition: form-data; name="{name}"\r\n\r\n{value}\r\n'.encode() for name, value in values]
    for name, data in files:
        parts += [f'--{mark}\r\nContent-Disposition: form-data; name="{name}"; filename="a file"\r\n\r\n'.encode(), data, b"\r\n"]
    return b"".join(parts) + f"--{mark}--\r\n".encode(), f"multipart/form-data; boundary={mark}"


def form(**values):
    return urllib.parse.urlencode(values)


def free_ports(count):
    """Ports that nothing listens on."""
    places = [socket.socket() for _ in range(count)]
    for place in places:
        place.bind((HOST, 0))
    found = [place.getsockname()[1] for place in places]
    for place in places:
        place.close()
    return found
