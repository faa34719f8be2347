"""What equations of circular attributes come to: formulas of what is left open."""
from __future__ import annotations

from dataclasses import dataclass
from typing import Callable, Generic, Iterator, Optional, Tuple, TypeVar

Atom = TypeVar("Atom")


@dataclass(frozen=True)
class Formula(Generic[Atom]):
    """Known, an atom, or formulas of which both, that is all, or either has to hold."""

    form: str
    known: bool = False
    atom: Optional[Atom] = None
    sides: Tuple[Formula[Atom], ...] = ()

    def atoms(self) -> Iterator[Atom]:
        """The atoms in it, from left to right."""
        if self.atom is not None:
            yield self.atom
        for side in self.sides:
            yield from side.atoms()

    def surely(self) -> Optional[bool]:
        """What it comes to whatever its atoms do, or None."""
        if self.form == "known":
            return self.known
        sides = [it.surely() for it in self.sides]
        ends = self.form == "either"
        if ends in sides:
            return ends
        return not ends if sides and None not in sides else None

    def holds(self, of: Callable[[Atom], bool]) -> bool:
        """Its truth where each atom has that one."""
        if self.form == "known":
            return self.known
        if self.atom is not None:
            return of(self.atom)
        return (all if self.form == "both" else any)([it.holds(of) for it in self.sides])
