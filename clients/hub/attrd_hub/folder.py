"""What the folder of a journal has, read without changing it: a term, its check sum, and the edits that were accepted since."""
from __future__ import annotations

import os
import re
import stat
import zlib
from pathlib import Path
from typing import List, Optional

from attrd import AttrdError

from .records import Ending, Read, read_journal

TERM, JOURNAL = re.compile(r"tree-(0|[1-9][0-9]{0,19})\.txt\Z"), re.compile(r"journal-(0|[1-9][0-9]{0,19})\Z")
SUM = re.compile(r"tree-(0|[1-9][0-9]{0,19})\.sum\Z")
# So many bytes of a line that isn't known are told.
_SHOWN = 60


class JournalFault(AttrdError):
    """The journal can't be written or read: nothing more can be accepted."""


class StateFault(JournalFault):
    """The folder has what no start can go on from: somebody has to look at it first."""


class State:
    """What the folder has: the term's file and its version, the commands of the edits since, and what has to be told of the reading.

    The last journal is that of the version `last`; its first `right` bytes are kept, and of those behind them `cut` are put into a file
    of their own, `cut_name`. `aside` are journals that don't follow the edits before them. `length` is how many right bytes the others
    have. `is_whole` tells whether all edits are there that were accepted, as far as that can be seen; `is_first`, that the folder had no
    term.
    """

    def __init__(self, term: Path, base: int, is_first: bool = False) -> None:
        self.term, self.base, self.is_first = term, base, is_first
        self.commands: List[bytes] = []
        self.told: List[str] = []
        self.last = self.right = 0
        self.cut, self.cut_name = b"", ""
        self.aside: List[int] = []
        self.length = 0
        self.has_sum, self.is_whole = False, True

    @property
    def version(self) -> int:
        """The version behind all edits."""
        return self.base + len(self.commands)

    def leave_out(self, text: str) -> None:
        """Tells of edits that were accepted, and are left out."""
        self.told.append(text)
        self.is_whole = False


def versions(folder: Path, form: "re.Pattern[str]") -> List[int]:
    """The versions of the files of a form, the least one first. Raises OSError."""
    return sorted(int(found[1]) for found in map(form.match, os.listdir(folder)) if found)


def sum_line(term: bytes) -> bytes:
    """What the file of a term's check sum has."""
    return b"%08x %d\n" % (zlib.crc32(term), len(term))


def unused_name(folder: Path, name: str) -> str:
    """The name with `.cut` behind it; where there is such a file, with a number behind that."""
    number, found = 1, f"{name}.cut"
    while os.path.lexists(folder / found):
        number += 1
        found = f"{name}.cut{number}"
    return found


def read_folder(folder: Path) -> Optional[State]:
    """What the folder has; None where it has nothing yet. Raises StateFault, and OSError where a file can't be read."""
    terms = versions(folder, TERM)
    if not terms:
        journals = versions(folder, JOURNAL)
        if journals:
            raise StateFault(f"{folder}: journal-{journals[0]} is there, and no term that it follows: tree-{journals[0]}.txt is missing")
        return None
    state = State(folder / f"tree-{terms[-1]}.txt", terms[-1])
    _look_at_sum(state)
    _read_journals(folder, state)
    for version in versions(folder, JOURNAL):
        if version > state.version:
            state.aside.append(version)
            name = unused_name(folder, f"journal-{version}")
            state.leave_out(f"journal-{version}: the edits before it are lost, so it is left out, and kept in {name}")
    return state


def _bytes_of(path: Path) -> bytes:
    """What a file has. Raises StateFault where it is no file, and OSError."""
    if not stat.S_ISREG(os.stat(path).st_mode):
        raise StateFault(f"{path}: it isn't a regular file")
    return path.read_bytes()


def _look_at_sum(state: State) -> None:
    """Raises StateFault where the term isn't what was written. One of before has no check sum."""
    path = state.term.with_suffix(".sum")
    term = _bytes_of(state.term)
    if not os.path.lexists(path):
        return
    state.has_sum = True
    if _bytes_of(path) != sum_line(term):
        raise StateFault(f"{state.term}: it is damaged, or was changed by hand: its check sum isn't the one in {path.name}. "
                         "Where it is right as it is, remove that file")


def _read_journals(folder: Path, state: State) -> None:
    """The edits of all journals behind the term, one after the other."""
    if state.base and not os.path.lexists(folder / f"journal-{state.base}"):
        state.leave_out(f"journal-{state.base}: it isn't there, so no edit behind the version {state.base} is known")
    while True:
        at = state.last = state.version
        path = folder / f"journal-{at}"
        data = _bytes_of(path) if os.path.lexists(path) else b""
        found = read_journal(data, at)
        if found.ending is Ending.UNKNOWN:
            raise StateFault(_unknown(path, at, data))
        state.commands += found.commands
        state.length += found.right
        is_last = state.version == at or not os.path.lexists(folder / f"journal-{state.version}")
        if is_last:
            state.right = found.right
        if found.cut:
            _tell_cut(state, path, found, is_last)
        if is_last:
            return


def _unknown(path: Path, base: int, data: bytes) -> str:
    first = data.partition(b"\n")[0][:_SHOWN].decode("utf-8", "replace")
    return (f"{path}: its first line isn't that of a journal behind version {base}, but {first!r}: "
            "it is damaged, or of a newer version of attrd-hub")


def _tell_cut(state: State, path: Path, found: Read, is_last: bool) -> None:
    ends = f"{path.name}: it ends with version {state.version}"
    if found.ending is Ending.CUT_OFF:
        # It had no reply.
        state.told.append(f"{ends}: the edit behind it was cut off in the middle, and is left out")
        return
    lines = found.cut.count(b"\n") + (not found.cut.endswith(b"\n"))
    what = "the edit behind it is damaged" if lines == 1 else "what stands behind it is damaged"
    if not is_last:
        state.told.append(f"{ends}, and the next journal goes on from there: {what}, and {len(found.cut)} bytes are passed over")
        return
    state.cut, state.cut_name = found.cut, unused_name(path.parent, path.name)
    state.leave_out(f"{ends}: {what}: {len(found.cut)} bytes are left out, and kept in {state.cut_name}")
