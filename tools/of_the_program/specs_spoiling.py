"""Aspect files with mistakes by chance, such as users make: a guard that is missing, another attribute or component, another sign. Most of
what comes of it is accepted, and has faults and cycles."""
from __future__ import annotations

import random
from typing import Callable, Dict, List, Optional, Sequence, Tuple

from tools.of_the_program.jastadd_reading import Token, cut
from tools.of_the_program.specs_aspects import Specification

SWAPPED = {"&&": "||", "||": "&&", "==": "!=", "!=": "==", "true": "false", "false": "true", "+": "-", "-": "+", "0": "1", "1": "0", "<": "<=",
           ">": "<", "this": "null", "null": "this"}
OPENING, CLOSING = ("(", "{", "["), (")", "}", "]")
# How often all circular attributes get the other start.
OTHER_STARTS = 0.1
# Where a change stands, up to where, and what is written there.
Change = Tuple[int, int, str]


class Spoiling:
    """Changes by chance of the aspect files of a specification."""

    def __init__(self, specification: Specification, chance: random.Random) -> None:
        self.chance = chance
        self.alike: Dict[str, List[str]] = {}
        groups: Dict[Tuple[str, ...], List[str]] = {}
        for (_, name), it in specification.declared.items():
            groups.setdefault(tuple(one.kind for one in it.parameters), []).append(name)
        for parts in specification.grammar.parts.values():
            for part in parts:
                # a child that may be absent is asked for as one that is there
                form = "child" if part.form == "optional" else part.form
                groups.setdefault((form, "get"), []).append(f"get{part.name}")
        for names in groups.values():
            for name in names:
                self.alike.setdefault(name, []).extend(sorted({*names}))

    def spoiled(self, aspects: Sequence[str]) -> List[str]:
        """The aspect files with one change."""
        if self.chance.random() < OTHER_STARTS:
            return [it.replace("[false]", "[true]") for it in aspects]
        found, at = list(aspects), self.chance.randrange(len(aspects))
        tokens = cut(found[at])
        ways: Tuple[Callable[[Sequence[Token]], Optional[Change]], ...] = (
            self.swapped, self.swapped, self.renamed, self.renamed, *[self.without_guard] * 4, self.without_equation,
            self.without_circular, self.made_circular)
        change = self.chance.choice(ways)(tokens)
        if change:
            start, end, text = change
            found[at] = f"{found[at][:start]}{text}{found[at][end:]}"
        return found

    def one_of(self, tokens: Sequence[Token], *texts: str) -> Optional[int]:
        """The number of one of the tokens that have such a text."""
        known = [at for at, it in enumerate(tokens) if it.text in texts]
        return self.chance.choice(known) if known else None

    def swapped(self, tokens: Sequence[Token]) -> Optional[Change]:
        """Another sign or word."""
        at = self.one_of(tokens, *SWAPPED)
        return None if at is None else instead(tokens[at], SWAPPED[tokens[at].text])

    def renamed(self, tokens: Sequence[Token]) -> Optional[Change]:
        """Another attribute or accessor with such parameters."""
        at = self.one_of(tokens, *self.alike)
        return None if at is None else instead(tokens[at], self.chance.choice(self.alike[tokens[at].text]))

    def without_guard(self, tokens: Sequence[Token]) -> Optional[Change]:
        """No `if` with its statement."""
        at = self.one_of(tokens, "if")
        if at is None:
            return None
        end = statement_end(tokens, behind_pair(tokens, at + 1))
        end += tokens[end].text == "else"
        return tokens[at].at, tokens[end].at, ""

    def without_equation(self, tokens: Sequence[Token]) -> Optional[Change]:
        """No equation."""
        at = self.one_of(tokens, "eq")
        return None if at is None else (tokens[at].at, tokens[statement_end(tokens, at)].at, "")

    def without_circular(self, tokens: Sequence[Token]) -> Optional[Change]:
        """No `circular`, or another start."""
        at = self.one_of(tokens, "circular")
        if at is None:
            return None
        if self.chance.random() < 0.5:
            return tokens[at].at, tokens[at + 4].at, ""
        return instead(tokens[at + 2], SWAPPED[tokens[at + 2].text])

    def made_circular(self, tokens: Sequence[Token]) -> Optional[Change]:
        """An attribute that becomes circular."""
        at = self.one_of(tokens, "syn", "inh")
        if at is None:
            return None
        while tokens[at].text != "(":
            at += 1
        end = behind_pair(tokens, at)
        return tokens[end].at, tokens[end].at, f" circular [{self.chance.choice(('true', 'false'))}] "


def instead(token: Token, text: str) -> Change:
    """The text in the place of the token."""
    return token.at, token.at + len(token.text), text


def behind_pair(tokens: Sequence[Token], at: int) -> int:
    """The number of the token behind the one that closes what this one opens."""
    depth = 0
    while True:
        depth += (tokens[at].text in OPENING) - (tokens[at].text in CLOSING)
        at += 1
        if not depth:
            return at


def statement_end(tokens: Sequence[Token], at: int) -> int:
    """The number of the token behind a statement or a declaration that begins with this one."""
    while tokens[at].text not in (";", "{"):
        at = behind_pair(tokens, at)
    return behind_pair(tokens, at) if tokens[at].text == "{" else at + 1
