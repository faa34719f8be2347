"""Reads `ATTRIBUTE(ARGUMENTS)` as a line has it."""
from __future__ import annotations

import re
from typing import Dict, List, Tuple

from .errors import SyntaxFault
from .lexical import is_name, read_quoted
from .paths import Path
from .replies import AskValue

_WORDS: Dict[str, AskValue] = {"null": None, "true": True, "false": False}
_INT = re.compile(r"0|-?[1-9]\d*")


def read_call(text: str) -> Tuple[str, Tuple[AskValue, ...]]:
    """The attribute's name and its arguments: texts, ints, booleans, paths and null. Raises SyntaxFault."""
    name, opening, rest = text.partition("(")
    if not is_name(name) or not opening or not rest.endswith(")"):
        raise SyntaxFault("question", text, len(name), "it is ATTRIBUTE(ARGUMENTS)")
    arguments: List[AskValue] = []
    at = len(name) + 1
    while text[at] != ")" or at < len(text) - 1:
        value, at = _argument(text, at)
        arguments.append(value)
        if text[at] == "," and text[at + 1] != ")":
            at += 1
        elif text[at:] != ")":
            raise SyntaxFault("question", text, at, "neither , nor a ) that ends it")
    return name, tuple(arguments)


def _argument(text: str, at: int) -> Tuple[AskValue, int]:
    if text[at] == '"':
        return read_quoted(text, at)
    end = min(it for it in (text.find(",", at), len(text) - 1) if it >= 0)
    word = text[at:end]
    return _WORDS[word] if word in _WORDS else int(word) if _INT.fullmatch(word) else Path.read(word), end
