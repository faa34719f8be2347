"""What the tutorial's language gives to the language server."""
from __future__ import annotations

import re
from dataclasses import replace
from pathlib import Path
from typing import List

from attrd import Node

from ..language import Language, Listed
from ..phrases import Phrase
from ..protocol import Symbol
from .syntax import KEYWORDS, is_name, read_class, read_front, read_statement

DATA = Path(__file__).resolve().parent.parent / "data"
# What an editor tells beyond the tutorial.
CHECKS = Path(__file__).resolve().parent / "checks.jrag"
CLASS = re.compile(r"class(?<!\wclass)\b")


# The kinds that are there before all classes.
BASIC = (Node("Basic", "int"), Node("Basic", "boolean"))


class NoLanguage(Exception):
    """A folder has no language in it; the text says why."""


def tutorials() -> Language:
    """The tutorial's language, with what an editor tells beyond it."""
    plain = in_folder(DATA)
    return replace(plain, aspects=(*plain.aspects, CHECKS), errors=("fault",), lookup={**plain.lookup, "Dot": ("member",)})


def in_folder(folder: Path) -> Language:
    """The language whose files are in the folder; aspects are taken in the order of their names.

    Raises NoLanguage where it hasn't one grammar and an aspect."""
    try:
        names = sorted(folder.iterdir())
    except OSError as fault:
        raise NoLanguage(f"{folder}: {fault.strerror}") from fault
    grammars = [it for it in names if it.suffix == ".ast"]
    aspects = [it for it in names if it.suffix == ".jrag"]
    if len(grammars) != 1 or not aspects:
        raise NoLanguage(f"{folder}: a language is one .ast file and one .jrag file or more")
    return Language(
        grammar=grammars[0],
        aspects=aspects,
        parse=read_class,
        again={it: read_statement for it in ("Block", "Decl", "Show")},
        meaning={"Name": ("decl",), "Dot": ("decl",), "KindUse": ("kind",)},
        lookup={"Name": ("lookup",), "Block": ("local", "lookup"), "KindUse": ("lookupKind",)},
        hover={"Decl": "kind", "Expr": "kind", "KindUse": "kind"},
        why={"Decl": "kind", "Expr": "kind"},
        kinds={"ClassDecl": Symbol.CLASS, "Decl": Symbol.VARIABLE, "ClassDecl.Field": Symbol.FIELD},
        details={"ClassDecl": "Super", "Decl": "Declared"},
        words=sorted(KEYWORDS),
        triggers=(".",),
        title=title,
        is_name=is_name,
        listed=Listed("Program", "Kind", "ClassDecl", BASIC, class_starts, read_front, is_by_line=True),
    )


def title(phrase: Phrase) -> str:
    """How a declaration is shown: a class as its text begins, another one by its name and kind."""
    above = phrase.child("Super" if phrase.kind == "ClassDecl" else "Declared")
    if phrase.kind == "ClassDecl":
        return f"class {phrase.identifier}" + (f" extends {above.identifier}" if above is not None else "")
    return (f"{above.identifier} " if above is not None else "") + phrase.identifier


def class_starts(text: str) -> List[int]:
    """Where the classes of the text begin: at each word `class` that stands in no comment."""
    found = [it.start() for it in CLASS.finditer(text)]
    return [it for it in found if not is_in_comment(text, it)] if "//" in text else found


def is_in_comment(text: str, offset: int) -> bool:
    """Whether a comment begins before the offset, in its line."""
    line = max(text.rfind("\n", 0, offset), text.rfind("\r", 0, offset)) + 1
    return text.find("//", line, offset) >= 0
