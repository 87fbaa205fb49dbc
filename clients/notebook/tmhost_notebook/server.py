"""The server of the page: 127.0.0.1 alone, for those who have the address with its token.

The address that is printed has a token. Who opens it gets a cookie, and is led to the page, whose own address has nothing secret in it. The
cookie goes to that path alone, which can't be guessed: a browser sends cookies to each port of a machine, so another server on it could
ask for it else. A page of another origin can neither read nor ask anything: `Host`, `Origin` and `Sec-Fetch-Site` are looked at.
"""

import contextlib
import dataclasses
import hmac
import html
import http.server
import json
import os
import socket
import sys
import urllib.parse
from typing import Any, Dict, Optional, Tuple, Union

from . import address, asked, calls
from .address import Address
from .book import Book
from .exported import FORMATS, NotExported, exported
from .files import Files
from .folder import NotDone
from .shelf import Alone, Shelf
from .suggested import suggestions

ADDRESS = "127.0.0.1"
LONGEST = 67_108_864  # bytes of a request; an input has 4,095, and 10,000 may be pasted at once
IDLE = 30  # seconds that a connection may be silent in the middle of a request
SAFE = {
    "Content-Security-Policy": "default-src 'none'; script-src 'self'; worker-src 'self'; style-src 'self'; connect-src 'self'; "
    "font-src 'self'; img-src 'self' data:; base-uri 'none'; form-action 'none'; frame-ancestors 'none'; "
    "require-trusted-types-for 'script'; trusted-types setter",
    "X-Content-Type-Options": "nosniff",
    "X-Frame-Options": "DENY",
    "Referrer-Policy": "no-referrer",
    "Cache-Control": "no-store",
    "Cross-Origin-Resource-Policy": "same-origin",
    "Cross-Origin-Opener-Policy": "same-origin",
    "Permissions-Policy": "camera=(), microphone=(), geolocation=(), clipboard-read=()",
}
COOKIE = "tmhost"
EXPORT = "export/"
LIST = "folder.html"
OVER = b"event: over\ndata: {}\n\n"  # the worksheet was closed by a user, so that its page looks for it no more
JSON = "application/json"
TEXT = "text/plain; charset=utf-8"
REFUSED = b"Refused. Open the address that tmhost-notebook printed.\n"
# A redirect of the server would count as one of the page that led here, to which a browser sends no cookie that is strict.
LEADING = (
    '<!doctype html><html lang="en"><meta charset="utf-8"><meta http-equiv="refresh" content="0;url={0}"><link rel="icon" href="{0}icon.svg">'
    '<title>tmhost</title><a href="{0}">The worksheet</a>'
)


class Server(http.server.ThreadingHTTPServer):
    daemon_threads = True
    request_queue_size = 64

    def __init__(self, place: Union[Alone, Shelf], own: Address, files: Files) -> None:
        super().__init__((ADDRESS, own.port), Handler)
        self.place, self.files = place, files
        self.own = dataclasses.replace(own, port=self.server_port)
        self.token, self.cookie, self.path = own.token, own.cookie, own.path
        self.host = f"{ADDRESS}:{self.server_port}"

    @property
    def address(self) -> str:
        """The address to open, which has the token."""
        return f"http://{self.host}/?token={self.token}"

    def handle_error(self, request: Any, client_address: Any) -> None:
        """A page that has gone is no error."""
        if not isinstance(sys.exc_info()[1], (ConnectionError, socket.timeout)):
            super().handle_error(request, client_address)


def served(place: Union[Alone, Shelf], port: int, files: Files) -> Server:
    """The server, at the address that it had before where that is free; `port` is 0 where none is wanted."""
    kept = address.read(place.path)
    server = None
    if kept is not None and port in (0, kept.port):
        with contextlib.suppress(OSError):
            server = Server(place, kept, files)
    if server is None:
        server = Server(place, Address(port), files)
    address.keep(place.path, server.own)
    return server


class Handler(http.server.BaseHTTPRequestHandler):
    protocol_version = "HTTP/1.1"
    server_version = "tmhost-notebook"
    sys_version = ""
    timeout = IDLE
    disable_nagle_algorithm = True  # else a browser gets a reply's body, and each event that follows another at once, 40 ms late
    server: Server

    def log_message(self, *words: Any) -> None:
        """Nothing: an address has the token."""

    # ---- who asks

    def setup(self) -> None:
        super().setup()
        self.is_ours = address.is_of_this_user(self.connection)

    def is_for_us(self) -> bool:
        """Whether a process of this user asks, and names this server, and not another one's name that leads here."""
        return self.is_ours and self.headers.get_all("Host") == [self.server.host]

    def has_cookie(self) -> bool:
        """Whether the cookie is ours. Other servers on this machine may have set others beside it."""
        pairs = [pair.strip().partition("=") for pair in self.headers.get("Cookie", "").split(";")]
        return any(name == COOKIE and is_same(value, self.server.cookie) for name, _, value in pairs)

    def is_from_our_page(self) -> bool:
        """Whether a page of ours asks, or the user by the address. An old browser doesn't say where it comes from; the cookie is strict
        there, too."""
        if self.headers.get("Origin", self.own_origin) != self.own_origin:
            return False
        return self.headers.get("Sec-Fetch-Site", "none") in ("none", "same-origin")

    @property
    def own_origin(self) -> str:
        return f"http://{self.server.host}"

    def name_asked(self) -> Optional[str]:
        """What stands after the page's path; None where the request isn't from a page of ours."""
        path = urllib.parse.unquote(urllib.parse.urlsplit(self.path).path)
        own = f"/{self.server.path}/"
        if not (self.is_for_us() and self.has_cookie() and self.is_from_our_page() and path.startswith(own)):
            return None
        return path[len(own) :]

    # ---- answers

    def answer(self, status: int, body: bytes, kind: str, further: Tuple[Tuple[str, str], ...] = ()) -> None:
        self.send_response(status)
        for name, value in (*SAFE.items(), *further, ("Content-Type", kind), ("Content-Length", str(len(body)))):
            self.send_header(name, value)
        self.end_headers()
        self.wfile.write(body)

    def refuse(self) -> None:
        self.close_connection = True
        self.answer(403, REFUSED, TEXT)

    def do_GET(self) -> None:
        name = self.name_asked()
        if name is None:
            self.lead_in()
            return
        sheet, rest = self.server.place.split(name)
        if sheet is None:
            self.give_file(rest or LIST)
            return
        try:
            self.give(sheet, rest)
        except NotDone as error:
            self.answer(409, f"{error}\n".encode(), TEXT)

    def give(self, sheet: str, name: str) -> None:
        """What is asked of a worksheet. Raises NotDone."""
        if name == "events":
            self.tell_events(sheet)
        elif name == "suggestions":
            self.answer(200, json.dumps(suggestions()).encode(), JSON)
        elif name.startswith(EXPORT) and name[len(EXPORT) :] in FORMATS:
            self.export(self.server.place.opened(sheet, is_asked=False), name[len(EXPORT) :])
        else:
            if not name:
                self.server.place.opened(sheet, is_asked=True)
            self.give_file(name)

    def give_file(self, name: str) -> None:
        found = self.server.files.read(name)
        self.answer(404, b"There is no such file.\n", TEXT) if found is None else self.answer(200, *found)

    def export(self, book: Book, name: str) -> None:
        """A file with the worksheet, to be kept."""
        end, kind = FORMATS[name]
        try:
            data = exported(book.path, book.program, name, book.prose)
        except NotExported as error:
            self.answer(409, f"{error}\n".encode(), TEXT)
            return
        file = urllib.parse.quote(os.path.basename(book.path) + end, safe="")
        self.answer(200, data, kind, (("Content-Disposition", f"attachment; filename*=UTF-8''{file}"),))

    def lead_in(self) -> None:
        """The address with the token gives the cookie."""
        parts = urllib.parse.urlsplit(self.path)
        given = urllib.parse.parse_qs(parts.query).get("token", [""])
        if not self.is_for_us() or parts.path != "/" or len(given) != 1 or not is_same(given[0], self.server.token):
            self.refuse()
            return
        path = f"/{self.server.path}/"
        cookie = f"{COOKIE}={self.server.cookie}; Path={path}; HttpOnly; SameSite=Strict"
        self.answer(200, LEADING.format(html.escape(path)).encode(), "text/html; charset=utf-8", (("Set-Cookie", cookie),))

    def do_POST(self) -> None:
        length = self.headers.get("Content-Length", "")
        is_fit = length.isascii() and length.isdigit() and int(length) <= LONGEST and self.headers.get("Content-Type") == JSON
        name = self.name_asked()
        sheet, rest = (None, None) if name is None else self.server.place.split(name)
        if rest != "call" or not is_fit or self.headers.get("Origin") is None:
            self.refuse()
            return
        status, reported = self.done(sheet, self.rfile.read(int(length)))
        self.answer(status, json.dumps(reported).encode(), JSON)

    def done(self, sheet: Optional[str], body: bytes) -> Tuple[int, Dict[str, Any]]:
        """Does a call of a worksheet's page, or, where there is none, of the list's."""
        place = self.server.place
        try:
            reported = json.loads(body)
            return 200, place.do(reported) if sheet is None else calls.do(place.opened(sheet, is_asked=False), reported)
        except NotDone as error:
            return 200, {"refused": "NotDone", "says": str(error)}
        except asked.NotDone as error:
            return 400 if error.name == "NotUnderstood" else 200, {"refused": error.name, "says": error.says}
        except (ValueError, RecursionError):
            return 400, {"refused": "NotUnderstood", "says": "that is no JSON"}

    # ---- events

    def tell_events(self, sheet: str) -> None:
        """Tells a page what the worksheet is, and then each change, until the page is closed, or the worksheet."""
        self.close_connection = True
        self.send_response(200)
        for name, value in (*SAFE.items(), ("Content-Type", "text/event-stream"), ("Connection", "close")):
            self.send_header(name, value)
        self.end_headers()
        try:
            book = self.server.place.opened(sheet, is_asked=False)
        except NotDone:
            self.wfile.write(OVER)
            return
        watcher = book.watch()
        try:
            while (message := book.next_message(watcher)) is not None:
                data = b"data: " + json.dumps(message).encode() if message else b": here"
                self.wfile.write(data + b"\n\n")
            self.wfile.write(OVER if book.is_of_folder else b"")
        except OSError:
            pass  # the page was closed
        finally:
            book.unwatch(watcher)


def is_same(given: str, secret: str) -> bool:
    return hmac.compare_digest(given.encode("utf-8", "surrogateescape"), secret.encode())
