"""The bytes of a journal: a head with the version of the term that it follows, and a line for each accepted edit.

A record says by itself who made the edit, as `by PID:UID:GID` in front of the command, where that is known. No command begins with
this word: so records with it and without it stand in one journal, and a hub that doesn't know it refuses to start over them.
"""
from __future__ import annotations

import re
import zlib
from enum import Enum
from typing import List, Optional

from .peers import Peer

_HEAD = b"attrd journal 1 from "
_RECORD = re.compile(rb"([0-9a-f]{8}) ((0|[1-9][0-9]{0,19}) (?:by [0-9]{1,10}:[0-9]{1,10}:[0-9]{1,10} )?([^\n]+))\Z", re.S)
_CHECK_DIGITS = 8


def head(base: int) -> bytes:
    """The first line of a journal whose term has the version `base`."""
    return _HEAD + b"%d\n" % base


def record(version: int, command: bytes, editor: Optional[Peer] = None) -> bytes:
    """The line of an edit that made the tree that version: a check sum, the version, who made it where that is known, and the command."""
    by = b"" if editor is None else b"by %d:%d:%d " % editor
    body = b"%d %b%b" % (version, by, command)
    return b"%08x %b\n" % (zlib.crc32(body), body)


class Ending(Enum):
    """How a journal ends: with a whole record, in the middle of one that was being written, with bytes that aren't right; or that its
    first line is none that is known."""

    WHOLE = "whole"
    CUT_OFF = "cut off"
    DAMAGED = "damaged"
    UNKNOWN = "unknown"


class Read:
    """What a journal has: the commands of its edits in order, how many bytes of it are right, and how it ends.

    `cut` is what stands behind the right bytes.
    """

    def __init__(self, right: int = 0, cut: bytes = b"", ending: Ending = Ending.WHOLE) -> None:
        self.commands: List[bytes] = []
        self.right, self.cut, self.ending = right, cut, ending


def _edit(line: bytes, version: int) -> Optional[bytes]:
    """The command of the record, where it is one of that version."""
    found = _RECORD.match(line)
    if found is None or int(found[1], 16) != zlib.crc32(found[2]):
        return None
    return found[4] if int(found[3]) == version else None


def _is_begun(data: bytes, version: int) -> bool:
    """Whether these bytes can be the beginning of that version's record, whose end wasn't written."""
    told = b" %d " % version
    check, behind = data[:_CHECK_DIGITS], data[_CHECK_DIGITS:]
    # A file that was made longer before its bytes were written has zeros there.
    if b"\n" in data or data.endswith(b"\0") or not re.fullmatch(rb"[0-9a-f]*", check) or behind[:len(told)] != told[:len(behind)]:
        return False
    # Where the check sum is that of all but the last byte, nothing is missing: the newline is another byte.
    return len(behind) <= len(told) or int(check, 16) != zlib.crc32(behind[1:-1])


def read_journal(data: bytes, base: int) -> Read:
    """The edits of a journal whose term has the version `base`, up to the first byte that isn't right."""
    first = head(base)
    if not data.startswith(first):
        ending = Ending.UNKNOWN if not first.startswith(data) else Ending.CUT_OFF if data else Ending.WHOLE
        return Read(cut=data, ending=ending)
    found = Read(right=len(first))
    while found.right < len(data):
        end = data.find(b"\n", found.right)
        version = base + len(found.commands) + 1
        command = None if end < 0 else _edit(data[found.right:end], version)
        if command is None:
            found.cut = data[found.right:]
            found.ending = Ending.CUT_OFF if _is_begun(found.cut, version) else Ending.DAMAGED
            return found
        found.commands.append(command)
        found.right = end + 1
    return found
