"""What the hub reads of a line: its session, the word of its command, and the places of an edit. The rest goes on as it is."""
from __future__ import annotations

import re
from typing import Dict, List, Optional, Tuple

LINE_BYTES = 65_535
EDITS = frozenset(b"set put drop insert token move".split())
# What the hub's watchers are told of, where it was accepted.
TOLD = EDITS | {b"mark", b"unmark"}
REFUSED_SYNTAX = b"refused 1 syntax"
REFUSED_LIMIT = b"refused 12 limit"
_LINE = re.compile(rb"(0|[1-9][0-9]{0,2})(?: (.*))?\Z", re.S)
_CONDITION = re.compile(rb"at (0|[1-9][0-9]{0,19}) ")
_QUESTION = re.compile(rb"(0|[1-9][0-9]{0,2}) (?:ask|show|where) ")
# With these words a command begins that asks and changes nothing.
QUESTIONS = (b"ask ", b"show ", b"where ")
# No tree has this version: `at` it is refused as stale.
_NEVER = 2 ** 64 - 1


def split_line(line: bytes) -> Optional[Tuple[bytes, bytes]]:
    """The session and the command of a line without its newline; None where the session can't be read."""
    found = _LINE.match(line)
    return None if found is None else (found[1], found[2] or b"")


def without_condition(command: bytes) -> bytes:
    """The command behind `at VERSION`."""
    found = _CONDITION.match(command)
    return command if found is None else command[found.end():]


def condition_moved(command: bytes, base: int) -> bytes:
    """The command with the version of its `at` less by `base`; where it is below that, with one that no tree has."""
    found = _CONDITION.match(command)
    if found is None:
        return command
    version = int(found[1]) - base
    return b"at %d %b" % (version if version >= 0 else _NEVER, command[found.end():])


def plain_session(lines: bytes, count: int) -> Optional[bytes]:
    """The session of these lines, where they are of one session, and each is an `ask`, a `show` or a `where` with no condition.

    `lines` are as many whole lines as `count` says. None where they are anything else.
    """
    if count == 1:
        found = _QUESTION.match(lines)
        return None if found is None else found[1]
    session = lines[:4].partition(b" ")[0]
    if not session.isdigit() or len(session) > 3 or (session[:1] == b"0" and session != b"0"):
        return None
    framed = b"\n" + lines
    head = b"\n" + session + b" "
    word = framed[len(head):framed.find(b" ", len(head)) + 1]
    # Most often all are of one kind.
    if word in QUESTIONS and framed.count(head + word) == count:
        return session
    return session if sum(framed.count(head + it) for it in QUESTIONS) == count else None


def end_of_lines(data: bytes, start: int, most: int) -> Tuple[int, int]:
    """Where the first lines from `start` on end, at most so many, and how many they are. `data` ends with a newline, or is empty."""
    # Where lines are alike the first one tells where: then no more than these are looked at.
    end = start + most * (data.find(b"\n", start) + 1 - start)
    found = data.count(b"\n", start, end)
    while found < most and start < end < len(data):
        end += end - start
        found = data.count(b"\n", start, end)
    if found <= most:
        return data.rfind(b"\n", start, end) + 1, found
    piece = data[start:end]
    return start + len(piece) - len(piece.split(b"\n", most)[-1]), most


def first_lines(lines: bytes, most: int) -> bytes:
    """The first lines, at most so many, each with its newline."""
    return lines[:end_of_lines(lines, 0, most)[0]] if most > 0 else b""


class Places:
    """An edit's command without condition, whose places may begin at marks: they are replaced by paths as these become known."""

    def __init__(self, command: bytes) -> None:
        self._words: List[bytes] = command.split(b" ", 4 if command.startswith(b"move ") else 2)
        self._found: Dict[bytes, bytes] = {}
        at = (1, 3) if command.startswith(b"move ") else (1,)
        self._at = [it for it in at if it < len(self._words) and self._words[it].startswith(b"$")]

    @property
    def marks(self) -> List[bytes]:
        """The names of the marks, each once."""
        return sorted({self._words[it][1:].partition(b"/")[0] for it in self._at})

    def found(self, mark: bytes, path: bytes) -> None:
        """Where the mark's node is."""
        self._found[mark] = path

    def command(self) -> Optional[bytes]:
        """The command with paths from the root; None where a mark's path isn't known."""
        words = list(self._words)
        for it in self._at:
            mark, slash, below = words[it][1:].partition(b"/")
            if mark not in self._found:
                return None
            above = self._found[mark]
            words[it] = (above.rstrip(b"/") + slash + below) if slash else above
        return b" ".join(words)
