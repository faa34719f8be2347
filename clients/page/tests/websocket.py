"""Frames of WebSockets, by which Chromium is driven: what is read is fed in, what is to be written comes out."""
from __future__ import annotations

import base64
import hashlib
import os
from typing import List, Optional, Tuple

TEXT, BINARY, CLOSE, PING, PONG = 1, 2, 8, 9, 10
LONGEST_MESSAGE = 1 << 26
_GUID = b"258EAFA5-E914-47DA-95CA-C5AB0DC85B11"


class FrameFault(Exception):
    """The other side doesn't keep to the protocol."""


def accept_key(key: str) -> str:
    """The answer to a client's key."""
    return base64.b64encode(hashlib.sha1(key.encode("ascii") + _GUID).digest()).decode("ascii")


def new_key() -> str:
    """A client's key."""
    return base64.b64encode(os.urandom(16)).decode("ascii")


def _masked(data: bytes, mask: bytes) -> bytes:
    whole = (mask * (len(data) // 4 + 1))[:len(data)]
    return (int.from_bytes(data, "big") ^ int.from_bytes(whole, "big")).to_bytes(len(data), "big")


def frame(kind: int, data: bytes, is_client: bool = False) -> bytes:
    """A whole message in one frame. What a client sends is masked."""
    length, mask = len(data), 0x80 if is_client else 0
    if length < 126:
        head = bytes([0x80 | kind, mask | length])
    elif length < 1 << 16:
        head = bytes([0x80 | kind, mask | 126]) + length.to_bytes(2, "big")
    else:
        head = bytes([0x80 | kind, mask | 127]) + length.to_bytes(8, "big")
    if not is_client:
        return head + data
    key = os.urandom(4)
    return head + key + _masked(data, key)


class Inbox:
    """The frames that come. `wants_mask` is whether they have to be masked: those of a client are."""

    def __init__(self, wants_mask: bool, longest: int = LONGEST_MESSAGE) -> None:
        self.wants_mask, self.longest = wants_mask, longest
        self._read = bytearray()
        self._message = bytearray()
        self._kind: Optional[int] = None

    def feed(self, data: bytes) -> List[Tuple[int, bytes]]:
        """The messages that are whole now: their kind and content. Raises FrameFault."""
        self._read += data
        found: List[Tuple[int, bytes]] = []
        while True:
            taken = self._frame()
            if taken is None:
                return found
            message = self._joined(*taken)
            if message is not None:
                found.append(message)

    def _frame(self) -> Optional[Tuple[bool, int, bytes]]:
        """Whether the frame is the last one of its message, its kind, and its content; None where it isn't there yet."""
        read = self._read
        if len(read) < 2:
            return None
        is_last, kind, is_masked, length, at = bool(read[0] & 0x80), read[0] & 0x0F, bool(read[1] & 0x80), read[1] & 0x7F, 2
        if read[0] & 0x70 or is_masked is not self.wants_mask:
            raise FrameFault("a frame has bits that were not agreed on")
        if length >= 126:
            more = 2 if length == 126 else 8
            length, at = int.from_bytes(read[at:at + more], "big"), at + more
        if length + len(self._message) > self.longest:
            raise FrameFault("a message is too long")
        begin = at + (4 if is_masked else 0)
        if len(read) < begin + length:
            return None
        content = bytes(read[begin:begin + length])
        content = _masked(content, bytes(read[at:at + 4])) if is_masked else content
        del read[:begin + length]
        return is_last, kind, content

    def _joined(self, is_last: bool, kind: int, content: bytes) -> Optional[Tuple[int, bytes]]:
        if kind >= CLOSE:
            return kind, content
        if (kind == 0) is (self._kind is None):
            raise FrameFault("a frame goes on with no message, or begins one within another")
        self._kind = kind or self._kind
        self._message += content
        if not is_last or self._kind is None:
            return None
        message = self._kind, bytes(self._message)
        self._message.clear()
        self._kind = None
        return message
