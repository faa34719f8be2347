"""A fault of a grammar or an aspect, with what helps."""
from __future__ import annotations

from dataclasses import dataclass


@dataclass(frozen=True)
class Finding:
    """A fault at a place of a file: `line` and `column` count from 1, `start` and `end` are offsets in its text.

    `code` and `name` are the server's, `message` says what is wrong here and what is there instead, `hint` how to go on. `section` is the
    heading of the section of docs/FROM_JASTADD.md that says what to write instead; it is empty where none does.
    """

    file: str
    code: str
    name: str
    line: int
    column: int
    start: int
    end: int
    message: str
    hint: str
    section: str = ""

    def __str__(self) -> str:
        told = f"{self.file}:{self.line}:{self.column}: {self.code} {self.name}. {self.message}\n    {self.hint}"
        return f"{told}\n    docs/FROM_JASTADD.md, {self.section}" if self.section else told
