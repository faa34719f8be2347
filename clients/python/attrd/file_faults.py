"""What is wrong with a file where the program names no place: why it can't be read, and where the file of a tree is no term."""
from __future__ import annotations

import errno
import os
from typing import NamedTuple, Optional, Union

from .errors import SyntaxFault
from .terms import read_term

BYTE_ORDER_MARK = "\ufeff"
# What the system says of a file that can't be read, in words.
REASONS = {
    errno.ENOENT: "there is no such file",
    errno.ENOTDIR: "there is no such file",
    errno.EISDIR: "it is a directory",
    errno.EACCES: "this user may not read it",
    errno.ENAMETOOLONG: "its name is too long",
    errno.ELOOP: "it is a link that leads back to itself",
}
BEHIND = "there is more behind the term"


class TextFault(NamedTuple):
    """What is wrong in the text of a file, and at which offset in characters."""

    at: int
    reason: str


def in_words(reason: str) -> str:
    """The reason of the system, as `No such file or directory`, in the words that are used here, where there are any."""
    return next((words for number, words in REASONS.items() if os.strerror(number) == reason), f"the system says: {reason}")


def unreadable(file: Union[str, "os.PathLike[str]"]) -> Optional[str]:
    """Why the file can't be read, in words; None where it can."""
    try:
        with open(file, "rb") as stream:
            stream.read(1)
    except OSError as fault:
        return in_words(fault.strerror or str(fault))
    except ValueError as fault:
        return str(fault)
    return None


def tree_file_fault(data: bytes) -> Optional[TextFault]:
    """Why the bytes of a tree's file are no term with at most one newline behind it, and where; None where they are one."""
    try:
        text = data.decode("utf-8")
    except UnicodeDecodeError as fault:
        return TextFault(len(data[:fault.start].decode("utf-8")), f"the byte {data[fault.start]:02X} is no UTF-8")
    if not text:
        return TextFault(0, "the file is empty")
    if text.startswith(BYTE_ORDER_MARK):
        return TextFault(0, "a byte order mark (BOM) stands in front of the term")
    try:
        read_term(text[:-1] if text.endswith("\n") else text)
    except SyntaxFault as fault:
        return _named(text, fault.at, fault.reason)
    return None


def _named(text: str, at: int, reason: str) -> TextFault:
    """The fault that reading the term met, by the name of the character that stands there, where it is one that isn't seen."""
    where = "behind the term" if reason == BEHIND else "within the term"
    sign = text[at:at + 1]
    if sign == "\r":
        kind = "a carriage return, as of lines that end with CRLF," if text[at + 1:at + 2] == "\n" else "a carriage return"
        return TextFault(at, f"{kind} stands {where}")
    if sign in (" ", "\t"):
        return TextFault(at, f"a {'blank' if sign == ' ' else 'tab'} stands {where}")
    if at == len(text) or text[at:] == "\n":
        return TextFault(at, f"the file ends before the term does: {reason}")
    if sign == "\n" and reason == BEHIND:
        second = text[at + 1:at + 2] == "\n"
        return TextFault(at + 1, "a second newline stands behind the term" if second else "there is more behind the newline at the end")
    return TextFault(at, f"a newline stands {where}" if sign == "\n" else reason)
