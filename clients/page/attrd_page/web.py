"""The page over HTTP, at 127.0.0.1 alone: a stream of events for each window, and a POST for each thing that it does.

No address without the token is answered.
"""
from __future__ import annotations

import asyncio
import hmac
import json
import re
import secrets
from contextlib import suppress
from pathlib import Path as FilePath
from typing import Callable, Dict, List, NamedTuple, Optional, Set, Tuple

from attrd import AttrdError

from .page import Page
from .views import Json
from .window import Window

HOST = "127.0.0.1"
STATIC = FilePath(__file__).resolve().parent / "static"
FILES = {"": ("page.html", "text/html"), "page.css": ("page.css", "text/css"), "page.js": ("page.js", "text/javascript")}
LONGEST_HEAD, LONGEST_MESSAGE = 1 << 14, 1 << 20
HEAD_SECONDS = 10.0
# A window that takes nothing while so many bytes wait for it is let go of.
MOST_WAITING = 1 << 26
# A browser opens at most six connections to one address: each window holds one of them, and one is wanted for what windows do.
MOST_WINDOWS = 5
FULL = f"A browser can hold {MOST_WINDOWS} windows of this page open, and this one has so many. Close one of them, and load this one again."
_LENGTH = re.compile("[0-9]{1,18}")
_BROWSER = re.compile(r"(?:\A|;)\s*attrd=([\w-]+)")
POLICY = "default-src 'none'; script-src 'self'; style-src 'self'; connect-src 'self'; img-src data:; base-uri 'none'; form-action 'none'"
STATUS = {200: "OK", 204: "No Content", 400: "Bad Request", 403: "Forbidden", 404: "Not Found", 405: "Method Not Allowed",
          410: "Gone", 413: "Content Too Large"}


class Request(NamedTuple):
    """The head of a request: header names are in lower case."""

    method: str
    target: str
    headers: Dict[str, str]


def read_head(head: bytes) -> Optional[Request]:
    """The request of a head, or None where it is none."""
    first, *lines = head.decode("latin-1").split("\r\n")
    words = first.split(" ")
    if len(words) != 3 or not words[2].startswith("HTTP/1."):
        return None
    headers = {}
    for line in lines:
        name, colon, value = line.partition(":")
        if colon:
            headers[name.strip().lower()] = value.strip()
    return Request(words[0], words[1], headers)


def response(status: int, kind: str, content: bytes, *more: str) -> bytes:
    """A whole response, with these lines in its head, behind which the connection is closed."""
    return response_head(status, kind, [f"Content-Length: {len(content)}", *more]) + content


def response_head(status: int, kind: str, more: List[str]) -> bytes:
    """The head of a response, with these lines too."""
    head = [f"HTTP/1.1 {status} {STATUS[status]}", f"Content-Type: {kind}; charset=utf-8", *more, f"Content-Security-Policy: {POLICY}", "Referrer-Policy: no-referrer", "X-Content-Type-Options: nosniff",
            "X-Frame-Options: DENY", "Cache-Control: no-store", "Connection: close", "", ""]
    return "\r\n".join(head).encode("latin-1")


def browser_of(request: Request) -> Optional[str]:
    """What this page has called the browser that asks; None of one that it hasn't seen."""
    found = _BROWSER.search(request.headers.get("cookie", ""))
    return None if found is None else found[1]


def event(message: Json) -> bytes:
    """A message as an event of a stream."""
    return b"data: " + json.dumps(message, ensure_ascii=False, separators=(",", ":")).encode("utf-8", "replace") + b"\n\n"


class Web:
    """Serves a page. `address` is where a browser finds it; `take` has another page in its place, in all windows that are open."""

    def __init__(self, page: Page) -> None:
        self.page = page
        self._tells: Dict[str, Callable[[Json], None]] = {}
        self._windows: Dict[str, Window] = {}
        self._held: Dict[str, int] = {}
        self.token = secrets.token_urlsafe(16)
        self.port = 0
        self._server: Optional[asyncio.AbstractServer] = None
        self._tasks: Set[asyncio.Task[None]] = set()

    @property
    def address(self) -> str:
        return f"http://{HOST}:{self.port}/{self.token}/"

    async def begin(self, port: int = 0) -> None:
        """Listens at a port, a random one where 0 is given. Raises AttrdError."""
        try:
            self._server = await asyncio.start_server(self._serve, HOST, port, backlog=256)
        except (OSError, OverflowError) as fault:
            raise AttrdError(f"{HOST}:{port}: no page can be served: {getattr(fault, 'strerror', None) or fault}") from None
        self.port = self._server.sockets[0].getsockname()[1]

    async def close(self) -> None:
        """Listens no more, and closes all windows."""
        if self._server is not None:
            self._server.close()
        for task in list(self._tasks):
            task.cancel()
        await asyncio.gather(*self._tasks, return_exceptions=True)

    async def _serve(self, reader: asyncio.StreamReader, writer: asyncio.StreamWriter) -> None:
        task = asyncio.current_task()
        assert task is not None
        self._tasks.add(task)
        try:
            await self._answer(reader, writer)
        except (OSError, asyncio.IncompleteReadError, asyncio.LimitOverrunError, asyncio.TimeoutError, asyncio.CancelledError):
            pass
        finally:
            self._tasks.discard(task)
            writer.close()

    def take(self, page: Page) -> None:
        """Has all windows show this page from now on. The windows of the one before are gone with it."""
        self.page = page
        for key, tell in self._tells.items():
            self._windows[key] = page.window(tell)

    async def _answer(self, reader: asyncio.StreamReader, writer: asyncio.StreamWriter) -> None:
        head = await asyncio.wait_for(reader.readuntil(b"\r\n\r\n"), HEAD_SECONDS)
        request = read_head(head[:-4]) if len(head) <= LONGEST_HEAD else None
        status, name = self._resource(request)
        if request is not None and status == 200 and name == "events":
            await self._stream(browser_of(request), reader, writer)
            return
        if request is not None and status == 200 and request.method == "POST":
            status = await self._do(request, name[len("do/"):], reader)
        if status != 200:
            writer.write(response(status, "text/plain", STATUS[status].encode("ascii") if status != 204 else b""))
        else:
            file, kind = FILES[name]
            is_known = request is not None and browser_of(request) is not None
            cookie = [] if is_known else [f"Set-Cookie: attrd={secrets.token_urlsafe(16)}; Path=/; SameSite=Strict; HttpOnly"]
            writer.write(response(200, kind, (STATIC / file).read_bytes(), *(cookie if not name else [])))
        await writer.drain()

    def _resource(self, request: Optional[Request]) -> Tuple[int, str]:
        """The status, and the name of what is asked for."""
        if request is None:
            return 400, ""
        homes = (f"{HOST}:{self.port}", f"localhost:{self.port}")
        origin = request.headers.get("origin")
        if request.headers.get("host") not in homes or (origin is not None and origin not in [f"http://{it}" for it in homes]):
            return 403, ""
        _, token, name = (request.target.split("?")[0].split("/", 2) + ["", ""])[:3]
        if not hmac.compare_digest(token.encode("latin-1", "replace"), self.token.encode("ascii")):
            return 403, ""
        if request.method != ("POST" if name.startswith("do/") else "GET"):
            return 405, ""
        return (200, name) if name in FILES or name == "events" or name.startswith("do/") else (404, "")

    async def _stream(self, browser: Optional[str], reader: asyncio.StreamReader, writer: asyncio.StreamWriter) -> None:
        """A window, where its browser hasn't as many as it can hold: else that is told, since no window of it could do anything more."""
        writer.write(response_head(200, "text/event-stream", []))
        if browser is not None and self._held.get(browser, 0) >= MOST_WINDOWS:
            writer.write(event({"kind": "full", "text": FULL}))
            await writer.drain()
            return
        if browser is not None:
            self._held[browser] = self._held.get(browser, 0) + 1
        try:
            await self._events(reader, writer)
        finally:
            if browser is not None:
                self._held[browser] -= 1

    async def _events(self, reader: asyncio.StreamReader, writer: asyncio.StreamWriter) -> None:
        """A window: what it is told, until the browser closes it."""

        def tell(message: Json) -> None:
            if writer.transport.get_write_buffer_size() > MOST_WAITING:
                writer.transport.abort()
            elif not writer.is_closing():
                writer.write(event(message))
        key = secrets.token_urlsafe(16)
        tell({"kind": "window", "key": key})
        self._tells[key] = tell
        try:
            self._windows[key] = self.page.window(tell)
            while await reader.read(1):
                pass
        finally:
            del self._tells[key]
            window = self._windows.pop(key, None)
            if window is not None:
                window.page.close(window)

    async def _do(self, request: Request, key: str, reader: asyncio.StreamReader) -> int:
        """Has a window do what it asks for; the status. It is answered when that is done: so the next thing comes behind it."""
        length = request.headers.get("content-length", "")
        if not _LENGTH.fullmatch(length):
            return 400
        if int(length) > LONGEST_MESSAGE:
            return 413
        content = await asyncio.wait_for(reader.readexactly(int(length)), HEAD_SECONDS)
        window = self._windows.get(key)
        if window is None:
            return 410
        try:
            message = json.loads(content)
        except (ValueError, RecursionError):
            message = None
        if isinstance(message, dict):
            with suppress(AttrdError):
                await window.do(message)
        else:
            window.tell({"kind": "refused", "text": "a message is no object of JSON"})
        return 204
