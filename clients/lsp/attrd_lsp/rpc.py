"""JSON-RPC as editors speak it: messages with a head that tells their length, over two streams of bytes."""
from __future__ import annotations

import json
import os
import select
from typing import Any, BinaryIO, Dict, Optional

Message = Dict[str, Any]

# The protocol's numbers of failures that this server tells.
PARSE_ERROR = -32700
INVALID_REQUEST = -32600
METHOD_NOT_FOUND = -32601
INVALID_PARAMS = -32602
INTERNAL_ERROR = -32603
NOT_INITIALIZED = -32002
CONTENT_MODIFIED = -32801
CANCELLED = -32800
REQUEST_FAILED = -32803

HEAD_END = b"\r\n\r\n"
LONGEST_HEAD = 4096
LONGEST_CONTENT = 1 << 30
CHUNK = 1 << 16
ENCODER = json.JSONEncoder(separators=(",", ":"), check_circular=False)


class Ended(Exception):
    """The editor's stream has ended."""


class Malformed(Exception):
    """The editor's stream isn't JSON-RPC: where the next message begins can't be told."""


class Unreadable(Exception):
    """A message whose length is right, but which is no object of JSON."""


class Failure(Exception):
    """A request can't be answered. The editor shows the text."""

    def __init__(self, code: int, text: str) -> None:
        super().__init__(text)
        self.code, self.text = code, text


class Inbox:
    """The messages that come from the editor, read as they come."""

    def __init__(self, descriptor: int) -> None:
        self.descriptor = descriptor
        self.read = bytearray()

    def next(self, waits: bool) -> Optional[Message]:
        """The next message. Where `waits` is false, None if none is there.

        Raises Ended at the end of the stream, Malformed where it can't be told where the next message begins, and Unreadable
        where a message is no object; behind that one the next can be read."""
        while True:
            content = self.content()
            if content is not None:
                return message_of(content)
            if not (waits or select.select([self.descriptor], [], [], 0)[0]):
                return None
            try:
                more = os.read(self.descriptor, CHUNK)
            except OSError as fault:
                raise Malformed(f"the stream can't be read: {fault.strerror}") from fault
            if not more and self.read:
                raise Malformed("the stream ends within a message")
            if not more:
                raise Ended
            self.read += more

    def content(self) -> Optional[bytes]:
        """The content of a message that is here as a whole, which is taken. Raises Malformed."""
        end = self.read.find(HEAD_END)
        if end < 0 and len(self.read) <= LONGEST_HEAD:
            return None
        length = length_in(bytes(self.read[:end])) if end >= 0 else 0
        start = end + len(HEAD_END)
        if not 0 < length <= LONGEST_CONTENT:
            raise Malformed("a message has no head with its length")
        if len(self.read) < start + length:
            return None
        content = bytes(self.read[start : start + length])
        del self.read[: start + length]
        return content


def length_in(head: bytes) -> int:
    """The length that a head tells, and 0 where it tells none."""
    for line in head.split(b"\r\n"):
        name, _, value = line.partition(b":")
        digits = value.strip()
        if name.strip().lower() == b"content-length" and digits.isdigit() and len(digits) < 12:
            return int(digits)
    return 0


def message_of(content: bytes) -> Message:
    """The message with this content. Raises Unreadable where it is no object."""
    try:
        message = json.loads(content)
    except (ValueError, RecursionError) as fault:
        raise Unreadable(f"a message is no JSON: {fault}") from fault
    if not isinstance(message, dict):
        raise Unreadable("a message is no object")
    return message


def write_content(stream: BinaryIO, content: bytes) -> None:
    """Writes a message of this content in one piece. Raises OSError where the editor has gone."""
    stream.write(b"Content-Length: %d\r\n\r\n%b" % (len(content), content))
    stream.flush()
