"""The server at 127.0.0.1. A request without the key is refused at the door, before any of its body is taken."""
import logging
import tempfile

import waitress
from waitress.channel import HTTPChannel
from waitress.parser import HTTPRequestParser
from waitress.utilities import Error

from replies import REPLIES

THREADS, MOST_CONNECTIONS = 8, 500
SILENCE, LOOK = 20, 5  # seconds after which a silent connection is closed, and seconds between checks for that
MOST_HEADER_BYTES = 16_384
FULL = 507


class Refusal(Error):
    """A plain answer, of waitress's kind."""

    def __init__(self, status, text):
        super().__init__(text)
        self.code, self.reason = status, "Not answered"

    def to_response(self):
        return f"{self.code} {self.reason}", [("Content-Type", "text/plain; charset=utf-8")], f"{self.body}\n".encode()


def door(guard):
    """A request parser that refuses what the guard refuses, at the end of the headers."""
    class Door(HTTPRequestParser):
        def parse_header(self, header_plus):
            super().parse_header(header_plus)
            status = guard.refusal(self.command, self.path, self.query, lambda name: self.headers.get(name.upper().replace("-", "_")))
            if status and self.error is None:
                self.error, self.body_rcv, self.expect_continue = Refusal(status, REPLIES[status]), None, False

        def received(self, data):
            try:
                return super().received(data)
            except OSError as fault:  # there is no room for the upload to wait in
                self.error, self.completed = Refusal(FULL, f"{fault.strerror}: nothing was changed."), True
                return len(data)

    return Door


def made(app, guard, host, port, most_body_bytes, folder):
    """Makes the server. An upload waits in an unnamed file on the disk where it will be kept."""
    tempfile.tempdir = folder
    logging.getLogger("waitress.queue").setLevel(logging.ERROR)
    server = waitress.create_server(
        app, host=host, port=port, threads=THREADS, connection_limit=MOST_CONNECTIONS, channel_timeout=SILENCE, cleanup_interval=LOOK,
        max_request_header_size=MOST_HEADER_BYTES, max_request_body_size=most_body_bytes, ident=None, clear_untrusted_proxy_headers=True,
    )
    server.channel_class = type("Channel", (HTTPChannel,), {"parser_class": door(guard)})
    return server
