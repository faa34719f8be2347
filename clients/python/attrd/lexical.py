"""Names, numbers and texts, as terms, paths, lines and grammars spell them."""
from __future__ import annotations

import re
from typing import Tuple

from .errors import SyntaxFault

RESERVED = frozenset(
    "abstract aspect syn inh eq lazy circular nta return true false null this instanceof exists first sum int boolean String".split())
LEAST_INT, GREATEST_INT = -2 ** 31, 2 ** 31 - 1
GREATEST_VERSION = 2 ** 64 - 1
LINE_BYTES = 65_535
TOKEN_BYTES = 4_096
# How many nodes a tree may have where nothing is said, and how many at most can be asked for (`--nodes`).
TREE_NODES, MOST_NODES = 65_536, 16_777_216
TREE_DEPTH = 512

_ESCAPED = {"\\": "\\\\", '"': '\\"', "\n": "\\n", "\t": "\\t"}
_NEEDS_ESCAPE = re.compile(r'[\\"\n\t]')
_QUOTED = re.compile(r'"((?:[^"\\\n\t]|\\["\\nt])*)"')
_ESCAPE = re.compile(r"\\(.)")
_MEANT = {"n": "\n", "t": "\t", '"': '"', "\\": "\\"}


def is_name(word: str) -> bool:
    """Whether the word may name a class, a component, an attribute or a mark."""
    return word.isidentifier() and word not in RESERVED


def quoted(text: str) -> str:
    """The text between quotes, with its escapes."""
    return '"' + _NEEDS_ESCAPE.sub(lambda it: _ESCAPED[it[0]], text) + '"'


def read_quoted(text: str, at: int = 0) -> Tuple[str, int]:
    """The text that is quoted at this place, and the place behind its closing quote.

    Raises SyntaxFault where none is quoted there.
    """
    found = _QUOTED.match(text, at)
    if not found:
        raise SyntaxFault("text", text, at, "a text has no end, or has an escape that isn't one")
    inside = found[1]
    if "\\" in inside:
        inside = _ESCAPE.sub(lambda it: _MEANT[it[1]], inside)
    return inside, found.end()


def utf8_bytes(text: str) -> int:
    """How many bytes the text takes in UTF-8. A lone surrogate counts as three, though none can be sent."""
    return len(text) if text.isascii() else len(text.encode("utf-8", "surrogatepass"))


def quoted_bytes(text: str) -> int:
    """How many bytes the quoted text takes in UTF-8."""
    return utf8_bytes(text) + 2 + len(_NEEDS_ESCAPE.findall(text))


def has_surrogate(text: str) -> bool:
    """Whether the text has a lone surrogate, which UTF-8 can't spell."""
    try:
        text.encode("utf-8")
    except UnicodeEncodeError:
        return True
    return False
