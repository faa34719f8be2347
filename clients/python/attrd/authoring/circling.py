"""Circles of attributes of which some are declared circular and others aren't: where one goes round, its answer is `circular`."""
from __future__ import annotations

from typing import Dict, List, NamedTuple, Sequence, Set

from .aspect_reader import words_of
from .aspect_tree import Declaration, Form
from .specification import Placed, Source, Specification
from .ways import section


class Note(NamedTuple):
    """What is no fault, and may be a mistake, at a line of a file."""

    file: str
    line: int
    message: str

    def __str__(self) -> str:
        return f"{self.file}:{self.line}: note. {self.message}\n    docs/FROM_JASTADD.md, {section(14)}"


class _Asked:
    """Which declared attributes the equations of each one ask; a call on what has no known class is passed over."""

    def __init__(self, specification: Specification) -> None:
        self.specification = specification
        self.placed: Dict[int, Placed] = {id(it.declaration): it for it in specification.declarations if it.declaration.is_declaring}
        self.of: Dict[int, Set[int]] = {it: self._of(placed.declaration) for it, placed in self.placed.items()}

    def _of(self, attribute: Declaration) -> Set[int]:
        found: Set[int] = set()
        for equation in self.specification.equations(attribute):
            it = equation.declaration
            for made in it.made:
                of = self.specification.receiver_kind(made, it) if made.form is Form.CALL else None
                known = None if of is None else self.specification.attribute(of, made.word.text, len(made.arguments))
                if known is not None:
                    found |= {id(same.declaration) for same in self._same(known)}
        return found

    def _same(self, known: Placed) -> List[Placed]:
        """A declaration; an inherited attribute has one for each of its classes, with the same equations."""
        name = known.declaration.name
        if name is None or known.declaration.form != "inh":
            return [known]
        return self.specification.named(name.text, len(known.declaration.parameters))

    def reached(self, begun: int) -> Set[int]:
        """All that an attribute leads to."""
        found: Set[int] = set()
        left = [begun]
        while left:
            new = self.of.get(left.pop(), set()) - found
            found |= new
            left += new
        return found


def circles(grammar: Source, aspects: Sequence[Source], forms: str = "") -> List[Note]:
    """A note for each attribute that isn't declared circular, asks one that is, and may be asked by it in its turn, in the order of the
    texts; none where the form isn't read."""
    if "circular" not in words_of(forms):
        return []
    specification = Specification(grammar, aspects, forms)
    asked = _Asked(specification)
    found: List[Note] = []
    for number, placed in asked.placed.items():
        others = [it for it in asked.of[number] if asked.placed[it].declaration.is_circular and _is_boolean(asked.placed[it])]
        back = next((asked.placed[it] for it in others if number in asked.reached(it)), None)
        if back is not None and not placed.declaration.is_circular:
            found.append(_note(specification, placed, back))
    return found


def _note(specification: Specification, placed: Placed, back: Placed) -> Note:
    it = placed.declaration
    line = specification.text(placed.file).count("\n", 0, it.start) + 1
    way = f"declare {_head(it)} circular, too" if _is_boolean(placed) else f"{_head(it)}, which is no boolean, can't be on such a cycle"
    return Note(placed.file, line, f"{_head(it)} asks {_head(back.declaration)}, which is declared circular, and that may lead back to it. "
                f"Where it does, the reply is `circular`: {way}.")


def _is_boolean(placed: Placed) -> bool:
    return placed.declaration.kind is not None and placed.declaration.kind.text == "boolean"


def _head(it: Declaration) -> str:
    return ".".join(word.text for word in (it.of, it.name) if word is not None)
