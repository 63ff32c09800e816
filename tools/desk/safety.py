"""Decides which requests are answered: those from this machine's own browser, with the key that was printed. Everything else gets a plain refusal."""
import hmac
import secrets
import urllib.parse

from flask import abort, g, redirect, request
from werkzeug.http import parse_cookie

KEY_BYTES = 24
METHODS, SAME_SITE = ("GET", "HEAD", "POST"), ("same-origin", "none")
HEADERS = {
    "Content-Security-Policy": "default-src 'none'; style-src 'self'; script-src 'self'; img-src 'self'; connect-src 'self'; "
                               "form-action 'self'; base-uri 'none'; frame-ancestors 'none'",
    "X-Content-Type-Options": "nosniff",
    "X-Frame-Options": "DENY",
    "Referrer-Policy": "same-origin",  # with less, a browser says that its own forms come from nowhere
    "Cross-Origin-Opener-Policy": "same-origin",
    "Cross-Origin-Resource-Policy": "same-origin",
    "Cache-Control": "no-store",
}
PAGE_OF_A_FILE = "default-src 'none'; style-src 'unsafe-inline'; sandbox"  # for pages that the tools make, which have no script to run


def is_same(one, other):
    return hmac.compare_digest(one.encode(errors="replace"), other.encode())


class Guard:
    """The address, the keys, and what each request must have."""

    def __init__(self, host, port):
        self.host, self.origin = f"{host}:{port}", f"http://{host}:{port}"
        self.cookie_name = f"desk-{port}"  # browsers don't distinguish ports in cookies
        self.first_key, self.cookie, self.token = (secrets.token_urlsafe(KEY_BYTES) for _ in range(3))

    def address(self):
        return f"{self.origin}/?key={self.first_key}"

    def refusal(self, method, path, query, header):
        """The status with which a request is refused by its headers alone; 0 if it isn't."""
        if header("Host") != self.host:
            return 421
        if method not in METHODS:
            return 405
        is_own = header("Origin") == self.origin or (header("Origin") is None and method != "POST")
        if not is_own or (header("Sec-Fetch-Site") or "none") not in SAME_SITE:
            return 403
        return 0 if self.has_cookie(header("Cookie") or "") or self.has_first_key(method, path, query) else 401

    def has_cookie(self, text):
        return is_same(parse_cookie(text).get(self.cookie_name, ""), self.cookie)

    def has_first_key(self, method, path, query):
        key = dict(urllib.parse.parse_qsl(query)).get("key", "")
        return method == "GET" and path == "/" and self.first_key is not None and is_same(key, self.first_key)

    def judge(self):
        """The same for a request that has come in, and the answer to the first address: a cookie. After that, the key in the address is used up."""
        query = request.query_string.decode("latin-1")
        status = self.refusal(request.method, request.path, query, request.headers.get)
        if status:
            abort(status)
        if self.has_cookie(request.headers.get("Cookie", "")):
            return None
        self.first_key = None
        answer = redirect("/", 303)
        answer.set_cookie(self.cookie_name, self.cookie, httponly=True, samesite="Strict", path="/")
        return answer

    def judge_token(self):
        """Checks that a form has the token of its page."""
        if not is_same(request.form.get("token", ""), self.token):
            abort(403)

    def guard(self, answer):
        for name, value in HEADERS.items():
            answer.headers.setdefault(name, value)
        if g.get("is_made_page"):
            answer.headers["Content-Security-Policy"] = PAGE_OF_A_FILE
        return answer
