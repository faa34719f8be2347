"""What a specification means on a tree. The equation of a circular attribute comes to a formula of circular instances with its own start, its
atoms; every other demand wants an outcome. An instance has an outcome where each one to which formulas lead from it has ended: the least
or greatest fixpoint of the formulas, or the first fault that a search over atoms, depth first, meets."""
from __future__ import annotations

from dataclasses import dataclass
from typing import Callable, Dict, Iterator, List, Optional, Sequence, Set, Tuple, Union

from tools.of_the_program import formulas
from tools.of_the_program.specs_aspects import Specification
from tools.of_the_program.specs_reading import Block, Each, Expr, If, Return, Statement
from tools.of_the_program.specs_trees import Node, Refusal, Tree, parted, unquoted, written
from tools.of_the_program.specs_values import MOST, Evaluation, Fault, Instance, Returned, Value

Formula = formulas.Formula[Instance]
# What an instance's own equation comes to.
Own = Union[Formula, Fault]
Outcome = Union[Returned, Fault]


# So many equations are evaluated for one question at most.
MOST_EQUATIONS = 100_000


class Endless(Exception):
    """A question leads to more equations than can be gone through here."""


@dataclass(frozen=True)
class Circle(Exception):
    """An evaluation came back to an instance that has no outcome."""

    of: Instance


def known(truth: object) -> Formula:
    return Formula("known", bool(truth))


class CircularEvaluation(Evaluation):
    """The equation of an instance of a circular attribute, which comes to a formula."""

    def formula(self) -> Formula:
        """The formula of the body. Raises Fault and Circle."""
        return self.of_statements((self.body,))

    def of_statements(self, statements: Tuple[Statement, ...]) -> Formula:
        """That of statements, each with those behind it."""
        first, rest = statements[0], statements[1:]
        if isinstance(first, Return):
            return self.of(first.value, True)
        if isinstance(first, Block):
            return self.of_statements(first.statements + rest)
        if isinstance(first, If):
            return self.of_statements((first.then if self.value(first.test) else first.other, *rest))
        return self.of_loop(first, rest)

    def of_loop(self, loop: Each, rest: Tuple[Statement, ...]) -> Formula:
        """That of a loop that looks for an element: it stays open only where what is returned is known."""
        test, value = loop.search()
        if value.form == "literal":
            found = self.some(loop.name, loop.of, test, value.literal is True)
            return self.both_or_either(found, value.literal is True, lambda: self.of_statements(rest))
        for it in self.elements(loop.of):
            self.names[loop.name] = it
            if self.value(test):
                return self.of(value, True)
        return self.of_statements(rest)

    @staticmethod
    def both_or_either(left: Formula, is_either: bool, right: Callable[[], Formula]) -> Formula:
        """Either of two, or both; the right one isn't looked at where the left one decides."""
        return left if left.surely() is is_either else Formula("either" if is_either else "both", sides=(left, right()))

    def of(self, e: Expr, as_it_is: bool) -> Formula:
        """The formula of an expression in a positive place, or of its negation."""
        if e.form == "not":
            return self.of(e.parts[0], not as_it_is)
        if e.form == "binary" and e.word in ("&&", "||"):
            return self.both_or_either(self.of(e.parts[0], as_it_is), (e.word == "||") == as_it_is, lambda: self.of(e.parts[1], as_it_is))
        if e.form == "choice":
            return self.of(e.parts[1 if self.value(e.parts[0]) else 2], as_it_is)
        if e.form == "exists":
            return self.some(e.word, e.parts[0], e.parts[1], as_it_is)
        if e.form == "call" and as_it_is and e.word in self.specification.names:
            return self.asks(e)
        return known(self.value(e) is as_it_is)

    def asks(self, e: Expr) -> Formula:
        """That of a call of an attribute: it is left open where that has the same start."""
        instance = self.called(e)
        declared = self.specification.attribute(instance[0].kind, e.word)
        if declared and declared.start is self.declared.start:
            return Formula("atom", atom=instance)
        return known(self.asked.demand(instance))

    def some(self, name: str, of: Expr, test: Expr, as_it_is: bool) -> Formula:
        """Whether the test holds for some element, or for none."""
        sides: List[Formula] = []
        for it in self.elements(of):
            self.names[name] = it
            sides.append(self.of(test, as_it_is))
            if sides[-1].surely() is as_it_is:
                break
        return Formula("either" if as_it_is else "both", sides=tuple(sides)) if sides else known(not as_it_is)


class Meaning:
    """The outcomes of the instances that questions lead to, on a tree that stays as it is."""

    def __init__(self, specification: Specification, tree: Tree) -> None:
        self.specification, self.tree = specification, tree
        self.outcomes: Dict[Instance, Outcome] = {}
        self.own: Dict[Instance, Own] = {}
        self.atoms: Dict[Instance, List[Instance]] = {}
        # what the question that is answered has come to, and how many equations were evaluated for it
        self.met: Set[Instance] = set()
        self.evaluated = 0

    def reply(self, asked: str) -> str:
        """The reply to a question, without its session. Raises Endless."""
        self.met, self.evaluated = set(), 0
        try:
            return f"= {told(self.demand(self.instance(asked)))}"
        except Refusal as refusal:
            return f"refused {refusal.code}"
        except Fault as fault:
            return f"fault {fault.kind} in {shown(fault.at)}"
        except Circle as circle:
            return f"circular {shown(circle.of)}"
        except RecursionError:
            raise Endless from None

    def instance(self, asked: str) -> Instance:
        """The instance of a question, `PLACE NAME(ARGUMENTS)`. Raises Refusal."""
        place, _, rest = asked.partition(" ")
        name, _, arguments = rest.partition("(")
        node, texts = self.tree.root.at(place), parted(arguments[:-1])
        given = [self.argument(it) for it in texts]
        declared = self.specification.attribute(node.kind, name)
        if declared is None:
            raise Refusal("13 attribute")
        kinds = [it.kind for it in declared.parameters]
        if len(given) != len(kinds) or not all(map(self.fits, given, kinds)):
            raise Refusal("14 arguments")
        return node, name, tuple(given)

    def argument(self, text: str) -> Value:
        if text[0] in '"/':
            return unquoted(text) if text[0] == '"' else self.tree.root.at(text)
        words = {"null": None, "true": True, "false": False}
        return words[text] if text in words else int(text)

    def fits(self, value: Value, kind: str) -> bool:
        """Whether a parameter of the kind takes that argument."""
        if kind == "String":
            return isinstance(value, str)
        if kind in ("boolean", "int"):
            is_truth = isinstance(value, bool)
            return is_truth if kind == "boolean" else isinstance(value, int) and not is_truth and -MOST - 1 <= value <= MOST
        return value is None or isinstance(value, Node) and self.specification.grammar.is_below(value.kind, kind)

    def demand(self, of: Instance) -> Value:
        """The value of an instance. Raises Fault and Circle."""
        if of not in self.outcomes and not self.is_ended(of):
            if of in self.met:
                raise Circle(of)
            self.reach(of)
        if of not in self.outcomes:
            self.settle(of)
        found = self.outcomes[of]
        if isinstance(found, Fault):
            raise found
        return found.value

    def reach(self, of: Instance) -> None:
        """Evaluates what is reached by way of atoms, depth first; a circle is told where that comes to what waits for it."""
        for it in self.search(of):
            if it in self.met and it not in self.outcomes and not self.is_ended(it):
                raise Circle(it)
            self.met.add(it)
            if it not in self.own and it not in self.outcomes:
                self.evaluate(it)

    def evaluate(self, of: Instance) -> None:
        """Evaluates the instance's own equation. Raises Circle and Endless."""
        self.evaluated += 1
        if self.evaluated > MOST_EQUATIONS:
            raise Endless
        declared = self.specification.attribute(of[0].kind, of[1])
        is_circular = declared is not None and declared.start is not None
        try:
            if is_circular:
                found = self.own[of] = CircularEvaluation(self, of).formula()
                self.atoms[of] = list(dict.fromkeys(found.atoms()))
            else:
                self.outcomes[of] = Returned(Evaluation(self, of).returned())
        except Fault as fault:
            if is_circular:
                self.own[of] = fault
            else:
                self.outcomes[of] = fault

    def search(self, of: Instance) -> Iterator[Instance]:
        """All that formulas lead to, depth first, from left to right."""
        seen, to_do = set[Instance](), [of]
        while to_do:
            it = to_do.pop()
            if it not in seen:
                seen.add(it)
                yield it
                to_do.extend(reversed(self.atoms.get(it, ())))

    def is_ended(self, of: Instance) -> bool:
        """Whether all that formulas lead to from the instance is evaluated."""
        return of in self.own and all(it in self.own for it in self.search(of))

    def settle(self, of: Instance) -> None:
        """The outcome of a circular instance that has ended, and of those that it leads to where there is no fault."""
        group = list(self.search(of))
        fault = next(filter(None, map(self.fault_of, group)), None)
        if fault:
            self.outcomes[of] = fault
        else:
            self.outcomes.update(self.fixpoint([it for it in group if it not in self.outcomes]))

    def fault_of(self, of: Instance) -> Optional[Fault]:
        """The fault of its own equation, if it has one."""
        found = self.own[of]
        return found if isinstance(found, Fault) else None

    def fixpoint(self, members: Sequence[Instance]) -> Dict[Instance, Outcome]:
        """Round after round from the start, until nothing changes."""
        of = members[0]
        declared = self.specification.attribute(of[0].kind, of[1])
        values = dict.fromkeys(members, bool(declared and declared.start))

        def value(of: Instance) -> bool:
            if of in values:
                return values[of]
            found = self.outcomes[of]
            assert isinstance(found, Returned)
            return found.value is True

        changed = True
        while changed:
            changed = False
            for it in reversed(members):
                own = self.own[it]
                assert isinstance(own, formulas.Formula)
                if own.holds(value) is not values[it]:
                    values[it], changed = not values[it], True
        return {it: Returned(value) for it, value in values.items()}


def told(value: Value) -> str:
    """A value as it is replied."""
    return value.path() if isinstance(value, Node) else "null" if value is None else written(value)


def shown(of: Instance) -> str:
    """The path and the attribute, as replies tell them."""
    return f"{of[0].path()}.{of[1]}"
