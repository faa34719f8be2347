"""All faults of a grammar and its aspects at once.

The program tells the first fault and ends. Here what it refuses is mended in a copy, and it is asked again, until it takes the copy.
What only follows from a fault that is told already is left out.
"""
from __future__ import annotations

from typing import Generator, List, NamedTuple, Sequence

from ..errors import GrammarFault, TermFault
from .advice import Advice
from .filling import unfilled
from .finding import Finding
from .mending import Mending, Refused
from .refusal import Judge, offset_of
from .specification import Source, Specification

# A search ends at the latest after so many faults.
MOST = 1_000


class Checked(NamedTuple):
    """All faults, those of the grammar first, then those of each file in the order of its text; and how many were left out, which only
    follow from these."""

    findings: List[Finding]
    following: int


def checking(grammar: Source, aspects: Sequence[Source], program: str = "attrd", forms: str = "") -> Generator[None, None, Checked]:
    """Finds the faults of a grammar and of aspects, and yields before each run of the program that may find one. These forms of aspects are
    read, which are left out else.

    Raises AttrdError where the program can't be started, or doesn't know a form.
    """
    specification = Specification(grammar, aspects, forms).with_any_node()
    advice = Advice(specification)
    found = [_of_grammar(specification, it) for it in specification.whole.faults]
    found += [advice.of_unfilled(it) for it in unfilled(specification) if aspects and not it.follows]
    found.sort(key=lambda it: it.start)
    if specification.whole.grammar is None:
        return Checked(found, 0)
    try:
        has_top = not any(specification.is_everywhere(it.declaration) for it in specification.declarations)
        judge = Judge(specification.grammar, program, forms, has_top)
    except TermFault as fault:
        endless = Finding(grammar.name, "G", "no finite tree", 1, 1, 0, 0, fault.reason, "Have a list or an optional where the class comes again.")
        return Checked(found or [endless], 0)
    mending = Mending(specification, judge)
    refused: List[Refused] = []
    while aspects and len(refused) < MOST:
        yield
        following = mending.next()
        if following is None:
            break
        refused.append(following)
    told = sorted((it for it in refused if not it.follows), key=lambda it: (it.file, it.offset))
    return Checked(found + [advice.of_aspects(it) for it in told], len(refused) - len(told))


def check(grammar: Source, aspects: Sequence[Source], program: str = "attrd", forms: str = "") -> Checked:
    """The faults of a grammar and of aspects, where these forms are read. Raises AttrdError where the program can't be started, or doesn't
    know a form."""
    steps = checking(grammar, aspects, program, forms)
    while True:
        try:
            next(steps)
        except StopIteration as end:
            found: Checked = end.value
            return found


def _of_grammar(specification: Specification, fault: GrammarFault) -> Finding:
    start = offset_of(specification.grammar_file.text, fault.line, fault.column)
    return Advice(specification).of_grammar(fault, start)
