"""The editor's end of the conversation: what is written to it."""
from __future__ import annotations

from typing import Any, BinaryIO, Dict, Optional, Sequence

from .protocol import Json, Told
from .rpc import ENCODER, Failure, Message, write_content

# The protocol's numbers for kinds of messages and of diagnostics.
ERROR, WARNING, INFORMATION = 1, 2, 3


class EditorGone(Exception):
    """The editor takes no more messages."""


class Editor:
    """Writes answers, diagnostics and messages. Each method raises EditorGone where the editor has ended."""

    def __init__(self, stream: BinaryIO) -> None:
        self.stream = stream

    def write(self, message: Message) -> None:
        """Writes a message."""
        self.send(ENCODER.encode({"jsonrpc": "2.0", **message}).encode())

    def send(self, content: bytes) -> None:
        """Writes a message of this content."""
        try:
            write_content(self.stream, content)
        except (OSError, ValueError) as fault:
            raise EditorGone(str(fault)) from fault

    def answer(self, number: Any, result: Any) -> None:
        """Answers a request."""
        self.write({"id": number, "result": result})

    def fail(self, number: Any, failure: Failure) -> None:
        """Tells that a request can't be answered."""
        self.write({"id": number, "error": {"code": failure.code, "message": failure.text}})

    def ask(self, method: str, params: Dict[str, Any]) -> None:
        """Sends a request, whose answer isn't waited for."""
        self.write({"id": method, "method": method, "params": params})

    def publish(self, uri: str, version: Optional[int], diagnostics: Sequence[Json]) -> None:
        """Has these diagnostics shown for a file, in the place of all others."""
        params: Dict[str, Any] = {"uri": uri} if version is None else {"uri": uri, "version": version}
        front = ENCODER.encode({"jsonrpc": "2.0", "method": "textDocument/publishDiagnostics", "params": params})
        told = ",".join([it.text if isinstance(it, Told) else ENCODER.encode(it) for it in diagnostics])
        self.send(f'{front[:-2]},"diagnostics":[{told}]}}}}'.encode())

    def show(self, kind: int, text: str) -> None:
        """Has a message shown."""
        self.write({"method": "window/showMessage", "params": {"type": kind, "message": text}})
