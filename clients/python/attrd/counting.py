"""The aspect that counts faults: for each class how many of its checks tell one, and how many do below it.

The root may have a list of thousands. Where it isn't short its elements are counted by sixteens, from each 16th element on, these by
sixteens again, and so on: where one of them counts another number, some tens of numbers are added up anew, and not one for each element."""
from __future__ import annotations

from typing import Callable, List, Sequence, Set

from .grammar import ClassOf, Grammar, Part, Shape
from .lexical import MOST_NODES

# How many numbers are added up in one equation, and how many elements of a list in a fold, which takes less for each of them.
TOGETHER, FOLDED = 16, 64


class Counting:
    """Counts faults by the attribute `count`. `own` has for a class what is counted of a node of it, without those below."""

    def __init__(self, grammar: Grammar, count: str, own: Callable[[str], Sequence[str]], taken: Set[str]) -> None:
        """`taken` are names that no attribute may have beside `count`."""
        self.grammar, self.count, self.own = grammar, count, own
        self.from_here = {it.name: self._names(it, taken) for it in grammar.parts(grammar.start) if self._is_long(it)}

    def lines(self) -> List[str]:
        """The declarations and equations."""
        declared = [f"  syn lazy int {it.name}.{self.count}();" for it in self.grammar if it.superclass is None]
        equations = [f"  eq {it.name}.{self.count}() = {self._equation(it)};" for it in self.grammar if not it.is_abstract]
        long = [it for it in self.grammar.parts(self.grammar.start) if it.name in self.from_here]
        return declared + equations + [line for it in long for line in self._counted_from_here(it)]

    def _is_long(self, part: Part) -> bool:
        """Whether the component is a list that may be long, and no root stands in one: above that no equation would stand."""
        roots = self.grammar.concrete_below(self.grammar.start)
        return part.shape is Shape.LIST and not any(self.grammar.is_below(it, part.kind) for it in roots)

    def _names(self, part: Part, taken: Set[str]) -> List[str]:
        """The attributes that count so many elements of a list from one of them on: 16, 256, .., as many as a tree may have."""
        sizes = [TOGETHER]
        while sizes[-1] < MOST_NODES:
            sizes.append(sizes[-1] * TOGETHER)
        return [free(f"{self.count}Of{size}{part.name}", taken) for size in sizes]

    def _equation(self, of: ClassOf) -> str:
        below = [self._below(of, it) for it in of.parts if it.shape is not Shape.TOKEN]
        return sum_of([*self.own(of.name), *below])

    def _below(self, of: ClassOf, part: Part) -> str:
        """The faults in a component of a class."""
        if part.name in self.from_here and self.grammar.is_below(of.name, self.grammar.start):
            return self._in_long(part)
        if part.shape is Shape.LIST:
            return self._in_list(part)
        counted = f"get{part.name}().{self.count}()"
        return f"(has{part.name}() ? {counted} : 0)" if part.shape is Shape.OPTIONAL else counted

    def _in_list(self, part: Part) -> str:
        """The faults in a list, by a fold."""
        return f"sum (it : get{part.name}List()) {{ it.{self.count}() }}"

    def _in_long(self, part: Part) -> str:
        """The faults in a list that may be long: what the first element counts from there on, by as many as there are."""
        _, *middle, largest = self.from_here[part.name]
        counted = f"get{part.name}(0).{largest}()"
        for power, name in reversed(list(enumerate(middle, 2))):
            counted = f"getNum{part.name}() <= {TOGETHER ** power} ? get{part.name}(0).{name}() : {counted}"
        return f"(getNum{part.name}() <= {FOLDED} ? {self._in_list(part)} : {counted})"

    def _counted_from_here(self, part: Part) -> List[str]:
        """The attributes of the elements of a list that count some of them from there on."""
        lines: List[str] = []
        below, size = self.count, 1
        for name in self.from_here[part.name]:
            further = [f"i + {it * size}" for it in range(1, TOGETHER)]
            terms = [f"(getNum{part.name}() > {it} ? get{part.name}({it}).{below}() : 0)" for it in further]
            lines += [
                f"  inh lazy int {part.kind}.{name}();",
                f"  eq {self.grammar.start}.getChild().{name}() = 0;",
                f"  eq {self.grammar.start}.get{part.name}(int i).{name}() = {sum_of([f'get{part.name}(i).{below}()', *terms])};",
            ]
            below, size = name, size * TOGETHER
        return lines


def free(name: str, taken: Set[str]) -> str:
    """The name, with a number behind it where it is taken."""
    count, found = 1, name
    while found in taken:
        count, found = count + 1, f"{name}{count + 1}"
    return found


def accessors(grammar: Grammar) -> Set[str]:
    """The names by which the components of a grammar are read."""
    return {f"{front}{part.name}{end}" for it in grammar for part in it.own for front in ("get", "has", "getNum") for end in ("", "List")}


def sum_of(terms: List[str]) -> str:
    """The sum, in groups, so that it nests no deeper than the server allows."""
    while len(terms) > TOGETHER:
        terms = ["(" + " + ".join(terms[at:at + TOGETHER]) + ")" for at in range(0, len(terms), TOGETHER)]
    return " + ".join(terms) if terms else "0"
