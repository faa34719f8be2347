"""What the tests share: where the program and the pages are, programs of any size, and an editor that speaks the protocol."""
from __future__ import annotations

import json
import os
import re
import select
import subprocess
import sys
import tempfile
import time
from pathlib import Path
from typing import Any, Dict, List, Optional, Tuple

CLONE = Path(__file__).resolve().parents[3]
LSP = CLONE / "clients" / "lsp"
PYTHONPATH = [str(CLONE / "clients" / "python"), str(LSP)]
sys.path[:0] = [it for it in (*PYTHONPATH, str(LSP / "sample")) if it not in sys.path]

from attrd_lsp.reading import Reader  # noqa: E402
from attrd_lsp.rpc import Inbox, message_of  # noqa: E402
from attrd_lsp.small.language import tutorials  # noqa: E402
from attrd_lsp.source import Source  # noqa: E402

# How long an answer may take on a machine that is busy.
SECONDS = 120.0
TUTORIAL = (CLONE / "docs" / "TUTORIAL.md").read_text("utf-8")


def program() -> str:
    """The program `attrd`: that of the variable ATTRD, or else ./attrd of the clone."""
    return os.environ.get("ATTRD") or str(CLONE / "attrd")


def tutorial_file(name: str) -> str:
    """The last state of a file of the tutorial."""
    return re.findall(rf"^```file {re.escape(name)}\n(.*?)^```$", TUTORIAL, re.M | re.S)[-1]


# The tutorial's program, as the tutorial shows it.
SMALL = re.search(r"^```text\n(class Point.*?)^```$", TUTORIAL, re.M | re.S)[1]  # type: ignore[index]


SAMPLE = LSP / "sample"
# The name of the file of `read_source`.
FILE = "circle.small"


def read_source(text: str, old: Optional[Source] = None) -> Source:
    """A file of the tutorial's language with that text, which was `old` before."""
    return (old or Source(Reader(tutorials()), {})).with_file(FILE, text)


# How many nodes a class of a large program has.
CLASS_NODES = 81


def large_program(nodes: int) -> str:
    """A program without errors of about so many nodes."""
    return "".join(large_class(number) for number in range(max(1, nodes // CLASS_NODES)))


def large_class(number: int) -> str:
    """A class of 81 nodes, with the class before it above it, but for each tenth."""
    above = f" extends C{number - 1}" if number % 10 else ""
    blocks = "".join(f"    {{ t{it} = a{number} + b{number}; u{it} = t{it} < {it}; show u{it}; show t{it}; }}\n" for it in range(5))
    fields = f"  int a{number}; int b{number}; C{number} me{number};\n"
    return f"class C{number}{above} {{\n{fields}  {{\n{blocks}    s = me{number}.a{number} + 1;\n    show s;\n  }}\n}}\n"


def children(process: int) -> List[int]:
    """The processes that this one has started."""
    return [int(it) for it in Path(f"/proc/{process}/task/{process}/children").read_text().split()]


class Ended(Exception):
    """The server has ended, or doesn't answer in time."""


class Client:
    """An editor that speaks the protocol with a language server of its own: that of the tutorial's language, or another script."""

    def __init__(
        self, *words: str, attrd: Optional[str] = None, environment: Optional[Dict[str, str]] = None, script: Optional[Path] = None
    ) -> None:
        server = ["-m", "attrd_lsp"] if script is None else [str(script)]
        command = [sys.executable, *server, "--program", attrd or program(), *words]
        given = {**os.environ, "PYTHONPATH": os.pathsep.join(PYTHONPATH), **(environment or {})}
        self.errors = tempfile.TemporaryFile()
        self.process = subprocess.Popen(command, stdin=subprocess.PIPE, stdout=subprocess.PIPE, stderr=self.errors, env=given)
        self.inbox = Inbox(self.process.stdout.fileno())
        self.count = 0
        self.notes: List[Dict[str, Any]] = []
        self.answers: Dict[Any, Dict[str, Any]] = {}

    def __enter__(self) -> Client:
        self.capabilities = self.ask("initialize", {})["capabilities"]
        self.notify("initialized", {})
        return self

    def __exit__(self, *_: object) -> None:
        self.close()

    def write(self, *messages: Dict[str, Any]) -> None:
        """Sends these messages in one piece."""
        contents = [json.dumps({"jsonrpc": "2.0", **it}).encode() for it in messages]
        self.raw(b"".join(b"Content-Length: %d\r\n\r\n%b" % (len(it), it) for it in contents))

    def raw(self, data: bytes) -> None:
        """Sends these bytes."""
        self.process.stdin.write(data)
        self.process.stdin.flush()

    def notify(self, method: str, params: Any) -> None:
        """Sends a notification."""
        self.write({"method": method, "params": params})

    def begun(self, method: str, params: Any) -> Dict[str, Any]:
        """A request with a number of its own, which isn't sent yet."""
        self.count += 1
        return {"id": self.count, "method": method, "params": params}

    def ask(self, method: str, params: Any) -> Any:
        """The result of a request, or its error."""
        request = self.begun(method, params)
        self.write(request)
        return self.answer(request["id"])

    def answer(self, number: Any) -> Any:
        """The result of the request of that number, or its error."""
        while number not in self.answers:
            self.take()
        message = self.answers.pop(number)
        return message["error"] if "error" in message else message["result"]

    def note(self, method: str) -> Any:
        """What the next notification of this kind tells; others before it are passed over."""
        while True:
            while not self.notes:
                self.take()
            note = self.notes.pop(0)
            if note["method"] == method:
                return note["params"]

    def take(self) -> None:
        """Takes one message of the server. Raises Ended where none comes."""
        until = time.monotonic() + SECONDS
        content = self.inbox.content()
        while content is None:
            there = select.select([self.inbox.descriptor], [], [], max(0.0, until - time.monotonic()))[0]
            more = os.read(self.inbox.descriptor, 1 << 16) if there else b""
            if not more:
                raise Ended(self.told())
            self.inbox.read += more
            content = self.inbox.content()
        message = message_of(content)
        if "method" in message:
            self.notes.append(message)
        else:
            self.answers[message["id"]] = message

    def told(self) -> str:
        """What the server wrote on standard error."""
        self.errors.seek(0)
        return self.errors.read().decode("utf-8", "replace")

    def close(self) -> int:
        """Ends the server; its status."""
        if self.process.poll() is None:
            try:
                self.write(self.begun("shutdown", None), {"method": "exit"})
            except OSError:
                pass
        status = self.process.wait(timeout=SECONDS)
        for stream in (self.process.stdin, self.process.stdout, self.errors):
            try:
                stream.close()
            except OSError:
                pass
        return status


class Editing:
    """One document in a client."""

    def __init__(self, client: Client, text: str, uri: str = "file:///small/circle.small") -> None:
        self.client, self.uri, self.text, self.version = client, uri, text, 0
        client.notify("textDocument/didOpen", {"textDocument": {"uri": uri, "languageId": "small", "version": 0, "text": text}})

    def at(self, word: str, number: int = 0) -> Dict[str, Any]:
        """The document, and the beginning of the word where it stands for the time of that number; it is of ASCII."""
        found = [it.start() for it in re.finditer(rf"(?<!\w){re.escape(word)}(?!\w)", self.text)][number]
        return {"textDocument": {"uri": self.uri}, "position": self.position(found)}

    def position(self, offset: int) -> Dict[str, int]:
        """The position of an offset of the text, which is of ASCII."""
        line = self.text.count("\n", 0, offset)
        return {"line": line, "character": offset - (self.text.rfind("\n", 0, offset) + 1)}

    def changed(self, old: str, new: str) -> Dict[str, Any]:
        """The notification that `new` stands in the place of `old`, which stands once in the text."""
        start = self.text.index(old)
        if self.text.find(old, start + 1) >= 0:
            raise ValueError(f"{old!r} stands twice")
        change = {"range": {"start": self.position(start), "end": self.position(start + len(old))}, "text": new}
        self.text = self.text.replace(old, new)
        self.version += 1
        return {
            "method": "textDocument/didChange",
            "params": {"textDocument": {"uri": self.uri, "version": self.version}, "contentChanges": [change]},
        }

    def change(self, old: str, new: str) -> None:
        """Puts `new` in the place of `old`, which stands once in the text."""
        self.client.write(self.changed(old, new))

    def ask(self, method: str, word: str, number: int = 0, behind: int = 0, **more: Any) -> Any:
        """The result of a request at a word, so many characters on."""
        place = self.at(word, number)
        place["position"]["character"] += behind
        return self.client.ask(f"textDocument/{method}", {**place, **more})

    def told(self) -> List[str]:
        """The diagnostics of the text as it is, each as LINE:COLUMN, from 1, and its message: those that are told last."""
        self.client.ask("textDocument/hover", {"textDocument": {"uri": self.uri}, "position": {"line": 0, "character": 0}})
        return self.settled()

    def settled(self) -> List[str]:
        """The diagnostics of the version as it is, as the check at its end tells them."""
        while True:
            params = self.client.note("textDocument/publishDiagnostics")
            if params["uri"] == self.uri and params.get("version") == self.version:
                return shown(params["diagnostics"])


def ranges(locations: List[Dict[str, Any]]) -> List[Tuple[int, int]]:
    """Where these locations begin, from 1."""
    return [(it["range"]["start"]["line"] + 1, it["range"]["start"]["character"] + 1) for it in locations]


def shown(diagnostics: List[Dict[str, Any]]) -> List[str]:
    """Each of these as LINE:COLUMN, from 1, and its message."""
    places = [(it["range"]["start"], it["message"]) for it in diagnostics]
    return [f"{start['line'] + 1}:{start['character'] + 1} {message}" for start, message in places]
