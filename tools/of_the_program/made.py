"""Which values are evaluated with `--cut-off`, by the reasons of the theorem: of those that a question finds, those that can't be kept again.
One that was evaluated can be, as long as no edit touches what it looked at itself and nothing that it used comes to another value, unless that
was in a turn of a question that was posted."""
from __future__ import annotations

from typing import List, Optional, Set, Tuple, Union

from tools.of_the_program.circular_sessions import Case
from tools.of_the_program.circular_trees import Node
from tools.of_the_program.circular_work import Work
from tools.of_the_program.circular_ways import WAYS, Instance, Location, Seen, way

Value = Union[bool, Optional[Node]]
# What an evaluation looked at itself, and the lazy instances that it used.
Trace = Tuple[Set[Location], Set[Instance]]


class Made(Work):
    """The work of the lines of a case, where each question is answered behind its line, and how much of it was made.

    A node that has left may have given its number to another one, and so be the same value as that: whether it is, `numbered` says."""

    def __init__(self, case: Case, numbered: bool = False) -> None:
        self.traces, self.last = dict[Instance, Trace](), dict[Instance, Value]()
        self.made, self.numbered, self.in_turns = 0, numbered, False
        super().__init__(case)

    def follow(self, command: str) -> None:
        self.in_turns = command.startswith("post ")
        super().follow(command)

    def forget(self, gone: Set[Location]) -> None:
        super().forget(gone)
        self.traces = {it: trace for it, trace in self.traces.items() if not trace[0] & gone}

    def find(self, asked: Instance) -> List[Instance]:
        found = super().find(asked)
        others = {it for it in found if it in self.last and not self.is_same(self.last[it], self.value(it))}
        self.traces = {it: trace for it, trace in self.traces.items() if not trace[1] & others}
        made = [it for it in found if it not in self.traces]
        self.made += len(made)
        self.last.update((it, self.value(it)) for it in made)
        if not self.in_turns:
            self.traces.update((it, self.trace(it)) for it in made)
        return found

    def is_same(self, before: Value, now: Value) -> bool:
        """Whether a value is the one that was put before."""
        if self.numbered and isinstance(before, Node) and isinstance(now, Node):
            return before is now or before not in list(self.tree.all())
        return before is now

    def value(self, of: Instance) -> Value:
        """The value of an instance that is kept."""
        if of[1] in WAYS:
            return way(Seen(), of)
        found = self.leading.meaning.outcomes[of]
        assert isinstance(found, bool)
        return found

    def trace(self, of: Instance) -> Trace:
        """What its evaluation looks at and uses, with those that aren't lazy in it."""
        reads, uses, inner = set[Location](), set[Instance](), [of]
        for it in inner:
            reads |= self.leading.seen(it).reads
            asks = self.leading.comes_to(it)
            uses.update(filter(self.is_lazy, asks))
            inner += [at for at in asks if not self.is_lazy(at) and at not in inner]
        return reads, uses
