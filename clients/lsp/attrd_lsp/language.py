"""What a language gives to the language server: its files, its parser, and names of attributes."""
from __future__ import annotations

import re
from dataclasses import dataclass, field
from pathlib import Path
from typing import Callable, List, Mapping, Optional, Sequence, Tuple

from attrd import Node

from .phrases import Fault, Parsed, Phrase
from .positions import Span

Names = Mapping[str, Sequence[str]]
PLAIN_NAME = re.compile(r"[^\W\d]\w*")


def plain_name(text: str) -> bool:
    """Whether the text is a letter or `_`, and then letters, digits and `_`."""
    return PLAIN_NAME.fullmatch(text) is not None


def nothing_in(text: str) -> List[Fault]:
    """The fault that anything but blanks stands in the text."""
    found = re.search(r"\S+", text)
    return [Fault(f"nothing begins with '{found[0]}'", Span(*found.span()))] if found else []


@dataclass(frozen=True)
class Listed:
    """The root of the tree has one component, a list, and the parser reads an element of it.

    Without `starts` each file is an element. With `starts` a file may have many: it answers for a text where each of them begins,
    and an element whose text is as it was isn't read again. `front` answers the faults of what stands before the first one."""

    root: str
    """The class of the root."""
    component: str
    """The name of the list."""
    element: str
    """The class of its elements."""
    before: Tuple[Node, ...] = ()
    """Elements that are there before all others, and stand in no text."""
    starts: Optional[Callable[[str], List[int]]] = None
    front: Callable[[str], List[Fault]] = nothing_in
    is_by_line: bool = False
    """Whether each line tells by itself where elements begin in it: `starts` answers for some lines what it answers for them in a text.

    Then a key has it look at the line that was changed, and not at the whole text."""


@dataclass(frozen=True)
class Language:
    """A language. Where a mapping has names of classes, one of a class counts for those below it, too, unless they have their own."""

    grammar: Path
    """The file of the grammar."""
    aspects: Sequence[Path]
    """The files of the aspects."""
    parse: Callable[[str], Parsed]
    """Reads a text. What it raises is told at the top of the document."""
    errors: Sequence[str] = ("error",)
    """Attributes that tell an error of their node: a text that isn't empty, a boolean that is true, a node that is null."""
    warnings: Sequence[str] = ()
    """Attributes that tell a warning, in the same way."""
    meaning: Names = field(default_factory=dict)
    """Attributes that answer what a name means, by the class of its node: the first one counts that isn't null."""
    lookup: Names = field(default_factory=dict)
    """Attributes with a name as their argument, which tell what it would mean there, by classes: names are completed by them."""
    hover: Mapping[str, str] = field(default_factory=dict)
    """The attribute whose value is shown of a node, by classes. Without one the declaration is shown that the name means."""
    why: Mapping[str, str] = field(default_factory=dict)
    """The attribute of which is told below what is shown why it has its value, by classes."""
    kinds: Mapping[str, int] = field(default_factory=dict)
    """The classes of declarations, each with the protocol's number for its kind of symbol. `Class.Component` is what stands there."""
    details: Mapping[str, str] = field(default_factory=dict)
    """The component whose name is shown beside a symbol, by its class."""
    fixes: Mapping[str, str] = field(default_factory=dict)
    """The attribute that tells the text by which a node with an error is to be replaced, by classes; an empty text is none."""
    words: Sequence[str] = ()
    """Words of the language that are offered beside names."""
    triggers: Sequence[str] = ()
    """Signs behind which names are to be completed at once."""
    title: Optional[Callable[[Phrase], str]] = None
    """How a declaration is shown; by the first line of its text where nothing is given."""
    is_name: Callable[[str], bool] = plain_name
    """Whether a text may be a name."""
    listed: Optional[Listed] = None
    """How the tree is made of many parts. Where nothing is given, the parser reads the whole tree from one file."""
    suffix: Optional[str] = None
    """The end of the names of files: all of them in one folder are one tree, where the language is `listed`."""
    source: str = "attrd"
    """What diagnostics are said to come from."""
    forms: str = ""
    """The features of JastAdd that are switched on in aspects, with commas between them: `circular`, or `jastadd`."""
    again: Mapping[str, Callable[[str], Parsed]] = field(default_factory=dict)
    """Classes of phrases whose text may be read by itself, each with what reads it. That is asked where a key changes the text between
    the first and the last character of such a phrase. Where it answers a phrase of that class for all of the text, and no fault, all
    around it has to be what it was: `parse` would answer the same for the whole."""

    def __post_init__(self) -> None:
        """Raises ValueError where the parts don't fit each other."""
        if self.suffix is not None and self.listed is None:
            raise ValueError("files of a folder are one tree only where the language is `listed`")

    @property
    def files(self) -> Tuple[Path, ...]:
        """The grammar, and then the aspects."""
        return (self.grammar, *self.aspects)
