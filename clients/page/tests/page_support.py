"""What the tests share: the tutorial's language, a page that is served, and clients of the hub's socket."""
from __future__ import annotations

import os
import re
import socket
import subprocess
import sys
import tempfile
import time
from pathlib import Path
from typing import Any, Callable, List

from websocket import TEXT, Inbox, accept_key, frame, new_key

CLONE = Path(__file__).resolve().parents[3]
PYTHONPATH = [str(CLONE / "clients" / it) for it in ("python", "hub", "page", "lsp")]
sys.path[:0] = [it for it in PYTHONPATH if it not in sys.path]

TUTORIAL = (CLONE / "docs" / "TUTORIAL.md").read_text("utf-8")
FILES = ["small.ast", "tree.txt", "kinds.jrag", "names.jrag", "types.jrag", "errors.jrag"]
# How long a test waits before it fails: long, since the machine may have other work.
SECONDS = 120.0
EXTRA = """aspect Extra {
  syn int Program.around() = around();
  syn int Program.oneOf(Kind k) = k == null ? 0 : 1;
  syn String Program.firstName() = kindNamed("").getID();
}
"""


def program() -> str:
    """The program `attrd`: that of the variable ATTRD, or else ./attrd of the clone."""
    return os.environ.get("ATTRD") or str(CLONE / "attrd")


def write_files(folder: Path) -> List[str]:
    """Writes the last state of the tutorial's files and an aspect with a cycle and a fault; their paths."""
    paths = []
    for name in FILES:
        text = re.findall(rf"^```file {re.escape(name)}\n(.*?)^```$", TUTORIAL, re.M | re.S)[-1]
        (folder / name).write_text(text, "utf-8")
        paths.append(str(folder / name))
    (folder / "extra.jrag").write_text(EXTRA, "utf-8")
    return [*paths, str(folder / "extra.jrag")]


def until(is_so: Callable[[], Any], what: str, seconds: float = SECONDS) -> Any:
    """Waits until something is so, and returns it. Raises AssertionError with its name where it doesn't come."""
    end = time.monotonic() + seconds
    while time.monotonic() < end:
        found = is_so()
        if found:
            return found
        time.sleep(0.02)
    raise AssertionError(f"in {seconds} s it did not come: {what}")


class Lines:
    """A client of a socket that speaks the server's protocol."""

    def __init__(self, path: str) -> None:
        self.stream = socket.socket(socket.AF_UNIX, socket.SOCK_STREAM)
        self.stream.settimeout(SECONDS)
        self.stream.connect(path)
        self.rest = b""

    def send(self, *lines: str) -> None:
        """Sends these lines."""
        self.stream.sendall("".join(f"{it}\n" for it in lines).encode("utf-8"))

    def reply(self) -> str:
        """The next reply."""
        while b"\n" not in self.rest:
            data = self.stream.recv(1 << 16)
            if not data:
                raise EOFError(self.rest)
            self.rest += data
        line, _, self.rest = self.rest.partition(b"\n")
        return line.decode("utf-8")

    def ask(self, line: str) -> str:
        """The reply to a line."""
        self.send(line)
        return self.reply()

    def close(self) -> None:
        """Leaves."""
        self.stream.close()


class Served:
    """The page and the hub in a process of their own, over the tutorial's files or others."""

    def __init__(self, *words: str, files: Callable[[Path], List[str]] = write_files) -> None:
        self._folder = tempfile.TemporaryDirectory(prefix="attrd-page-test-")
        self.folder = Path(self._folder.name)
        self.socket = str(self.folder / "hub.sock")
        self.errors = tempfile.TemporaryFile()
        given = ["--program", program(), "--no-browser", "--listen", self.socket, *words, *files(self.folder)]
        self.process = subprocess.Popen(
            [sys.executable, "-m", "attrd_page", *given], stdout=subprocess.PIPE, stderr=self.errors, text=True,
            env={**os.environ, "PYTHONPATH": os.pathsep.join(PYTHONPATH)})
        self.address = self._address()

    def _address(self) -> str:
        assert self.process.stdout is not None
        line = self.process.stdout.readline()
        if not line.startswith("page: "):
            status = self.process.wait(timeout=SECONDS)
            self.errors.seek(0)
            raise AssertionError(f"the page has ended with status {status}: {self.errors.read().decode()}")
        return line[len("page: "):].strip()

    @property
    def port(self) -> int:
        return int(self.address.split(":")[2].split("/")[0])

    def client(self) -> Lines:
        """A client of the hub's socket."""
        return Lines(self.socket)

    def close(self) -> str:
        """Ends it by a signal; what it told on standard output at the end."""
        self.process.terminate()
        try:
            told, _ = self.process.communicate(timeout=SECONDS)
        finally:
            self.process.kill()
            self.process.wait()
            self.errors.close()
            self._folder.cleanup()
        return told


class Wire:
    """A WebSocket by hand, as Chromium wants it of who drives it."""

    def __init__(self, host: str, port: int, path: str) -> None:
        key = new_key()
        self.stream = socket.create_connection((host, port), timeout=SECONDS)
        head = [f"GET {path} HTTP/1.1", f"Host: {host}:{port}", "Upgrade: websocket", "Connection: Upgrade",
                f"Sec-WebSocket-Key: {key}", "Sec-WebSocket-Version: 13", "", ""]
        self.stream.sendall("\r\n".join(head).encode("ascii"))
        answer = b""
        while b"\r\n\r\n" not in answer:
            data = self.stream.recv(1 << 16)
            if not data:
                break
            answer += data
        self.head, _, rest = answer.partition(b"\r\n\r\n")
        self.is_open = self.head.startswith(b"HTTP/1.1 101") and accept_key(key).encode("ascii") in self.head
        self.inbox = Inbox(wants_mask=False)
        self.messages: List[bytes] = []
        if self.is_open:
            self._take(rest)

    def _take(self, data: bytes) -> None:
        self.messages += [content for _, content in self.inbox.feed(data)]

    def send(self, text: str) -> None:
        """Sends a message."""
        self.stream.sendall(frame(TEXT, text.encode("utf-8"), is_client=True))

    def next(self) -> bytes:
        """The next message."""
        while not self.messages:
            data = self.stream.recv(1 << 18)
            if not data:
                raise EOFError("the WebSocket has ended")
            self._take(data)
        return self.messages.pop(0)

    def close(self) -> None:
        """Ends it."""
        self.stream.close()
