"""Why an attribute has its value: the equation that gives it, and the values of the attributes that the equation came to ask.

The server tells values alone. So the equation is evaluated here, over the tree that is known; the attributes in it are asked of the
server. What isn't evaluated, behind a decided `&&`, `||` or `? :`, isn't asked either, as on the server.
"""
from __future__ import annotations

from dataclasses import dataclass, replace
from typing import Dict, Generator, List, Mapping, NamedTuple, Optional, Tuple

from . import commands
from .authoring.aspect_tree import Declaration, Expression
from .authoring.planting import planted
from .authoring.specification import Placed, Specification
from .errors import AttrdError
from .evaluating import Evaluation, Look, Stopped
from .instances import read_call
from .paths import Path
from .replies import Answer, AskValue, Circular, Value
from .terms import Node

# What is done to find a reason: attributes are asked, and their answers come back.
Asking = Generator["Instance", Answer, "Reason"]


# So many steps are written out.
SHOWN = 100
# So many attributes are gone through for a cycle.
LONGEST_CIRCLE = 1_000


class Bounds(NamedTuple):
    """How far an equation is followed: how many attributes are asked, and at how many places of the tree is looked."""

    asked: Optional[int] = None
    looks: Optional[int] = None


class NoReason(AttrdError):
    """Why a value is what it is can't be told: there is no such attribute, no equation of it, or no such node."""


class Instance(NamedTuple):
    """An attribute of a node with its arguments."""

    path: Path
    attribute: str
    arguments: Tuple[AskValue, ...] = ()

    @property
    def command(self) -> str:
        """The line that asks it."""
        return commands.ask(self.path, self.attribute, self.arguments)

    def __str__(self) -> str:
        return f"{self.path}.{self.attribute}({', '.join(map(commands.argument_text, self.arguments))})"


@dataclass(frozen=True)
class Step:
    """An attribute that an equation asked: as it is written there, which instance it was, and its answer."""

    text: str
    instance: Instance
    answer: Answer


@dataclass(frozen=True)
class Circle:
    """Attributes of which each asks the next one, and the last one the first. `circular` are the declarations among them that say so, and
    `others` those that don't, each once, as `Rule.nullable (names.jrag:7)`."""

    instances: Tuple[Instance, ...]
    circular: Tuple[str, ...]
    others: Tuple[str, ...]

    def __str__(self) -> str:
        shown = [*map(str, self.instances[:SHOWN])]
        more = [f"{len(self.instances) - SHOWN} more"] if len(self.instances) > SHOWN else []
        return f"the cycle: {' -> '.join([*shown, *more, str(self.instances[0])])}\n  {self._declared()}"

    def _declared(self) -> str:
        if not self.others:
            return "each is declared circular: it comes back where a final value is wanted, as below one !, or to one of another start"
        if not self.circular:
            return f"not declared circular: {', '.join(self.others)}"
        return f"not declared circular: {', '.join(self.others)}; declared so: {', '.join(self.circular)}"


@dataclass(frozen=True)
class Reason:
    """An instance with its answer, and where that comes from.

    `equation` is the text of the equation's expression, `head` what it is for (`Block.getStmt().level`), `place` where it stands
    (`names.jrag:7`); `at` is the node for which it was evaluated: for an inherited attribute the one above that has the equation.
    `bound` are its parameters and index with their values. `steps` are the attributes that it asked, in order, and
    `looks` the components of nodes that it looked at. `stopped` tells where evaluation here met a fault or a bound, or
    is empty. `cycle` is that to which the answer `circular` comes back, where it was looked for and found.
    """

    instance: Instance
    answer: Answer
    head: str
    equation: str
    place: str
    at: Path
    bound: Mapping[str, AskValue]
    steps: Tuple[Step, ...]
    stopped: str = ""
    looks: Tuple[Look, ...] = ()
    circle: Optional[Circle] = None

    def __str__(self) -> str:
        lines = [f"{self.instance} {self.answer}", f"  {self.place}: {self.head} = {' '.join(self.equation.split())}"]
        if self.at != self.instance.path:
            lines.append(f"  at {self.at}")
        lines += [f"  with {name} = {written(value)}" for name, value in self.bound.items()]
        lines += [f"  {number}. {step.text} {step.answer}   ({step.instance})" for number, step in enumerate(self.steps[:SHOWN], 1)]
        lines += [f"  and {len(self.steps) - SHOWN} more"] if len(self.steps) > SHOWN else []
        lines += [f"  {it}" for it in (self.stopped, self.circle) if it]
        return "\n".join(lines)


def written(value: AskValue) -> str:
    """A value as the server writes it."""
    if value is None:
        return "null"
    return commands.value_text(value) if isinstance(value, (bool, int, str)) else str(value)


class Why:
    """Finds reasons over a specification and a tree of its grammar."""

    def __init__(self, specification: Specification, tree: Node) -> None:
        self.specification, self.grammar, self.tree = specification, planted(specification), tree

    def reason_with_circle(self, instance: Instance) -> Asking:
        """The reason as `reason` has it; where the answer is `circular`, with the cycle. Raises NoReason."""
        reason = yield from self.reason(instance)
        circle = (yield from self._circle(reason)) if isinstance(reason.answer, Circular) else None
        return replace(reason, circle=circle)

    def _circle(self, reason: Reason) -> Generator[Instance, Answer, Optional[Circle]]:
        """The cycle to which an attribute leads that has no value; None where it isn't found."""
        way: Dict[Instance, int] = {reason.instance: 0}
        while len(way) < LONGEST_CIRCLE:
            following = next((it.instance for it in reversed(reason.steps) if isinstance(it.answer, Circular)), None)
            if following is None:
                return None
            if following in way:
                return self._told(list(way)[way[following]:])
            way[following] = len(way)
            try:
                reason = yield from self.reason(following)
            except NoReason:
                return None
        return None

    def _told(self, instances: List[Instance]) -> Circle:
        declared = [placed for it in instances for placed in (self._declaration(it),) if placed is not None]
        named = {id(it.declaration): (it.declaration.is_circular, f"{_head(it.declaration, False)} ({self._place(it)})") for it in declared}
        circular = tuple(told for is_circular, told in named.values() if is_circular)
        return Circle(tuple(instances), circular, tuple(told for is_circular, told in named.values() if not is_circular))

    def _declaration(self, instance: Instance) -> Optional[Placed]:
        node = self.grammar.node_at(self.tree, instance.path)
        return None if node is None else self.specification.attribute(node.name, instance.attribute, len(instance.arguments))

    def _place(self, placed: Placed) -> str:
        text = self.specification.text(placed.file)
        return f"{placed.file}:{text.count(chr(10), 0, placed.declaration.start) + 1}"

    def reason(self, instance: Instance, bounds: Bounds = Bounds()) -> Asking:
        """Why an instance has its value. Yields instances, and wants their answers; the first one is the instance itself.

        Behind the bounds the reason has what is known by then, and `stopped` tells that. Raises NoReason.
        """
        answer = yield instance
        placed, at, index = self._equation(instance)
        it = placed.declaration
        assert it.body is not None
        bound: Dict[str, AskValue] = {known.name.text: value for known, value in zip(it.parameters, instance.arguments)}
        if it.index is not None and index is not None:
            bound[it.index.text] = index
        evaluation = Evaluation(self.grammar, self.tree, at, bound, bounds.looks)
        stopped = ""
        steps: List[Step] = []
        try:
            yield from self._steps(evaluation, it.body, self.specification.text(placed.file), steps, bounds.asked)
        except Stopped as fault:
            stopped = str(fault)
        text = self.specification.text(placed.file)
        place = self._place(placed)
        equation, looks = text[it.body.start:it.body.end], tuple(evaluation.looks)
        return Reason(instance, answer, _head(it), equation, place, at, bound, tuple(steps), stopped, looks)

    @staticmethod
    def _steps(
        evaluation: Evaluation, body: Expression, text: str, steps: List[Step], most: Optional[int]
    ) -> Generator[Instance, Answer, None]:
        running = evaluation.value(body)
        given: Optional[AskValue] = None
        try:
            asked = next(running)
            while True:
                instance = Instance(asked.path, asked.attribute, asked.arguments)
                known = next((it.answer for it in steps if it.instance == instance), None)
                if known is None and len(steps) == most:
                    raise Stopped(f"it asks more than {most} attributes")
                answer = known if known is not None else (yield instance)
                if known is None:
                    steps.append(Step(" ".join(text[asked.start:asked.end].split()), instance, answer))
                if not isinstance(answer, Value):
                    raise Stopped(f"{instance} has no value, and so this has none")
                given = answer.value
                asked = running.send(given)
        except StopIteration:
            return

    def _equation(self, instance: Instance) -> Tuple[Placed, Path, Optional[int]]:
        """The equation that gives an instance, the node for which it is evaluated, and the index of the element below that."""
        node = self.grammar.node_at(self.tree, instance.path)
        if node is None:
            raise NoReason(f"there is no node at {instance.path}")
        declared = self.specification.attribute(node.name, instance.attribute, len(instance.arguments))
        if declared is None:
            raise NoReason(f"{node.name} has no attribute {instance.attribute}")
        found = [it for it in self.specification.equations(declared.declaration) if it.declaration.body is not None]
        if declared.declaration.form == "inh":
            return self._above(instance, found)
        by_class = {it.declaration.of.text: it for it in found if it.declaration.of is not None}
        nearest = next((by_class[it] for it in self.grammar.ancestors(node.name) if it in by_class), None)
        if nearest is None:
            raise NoReason(f"{node.name} comes to no equation for {instance.attribute}")
        return nearest, instance.path, None

    def _above(self, instance: Instance, found: List[Placed]) -> Tuple[Placed, Path, Optional[int]]:
        grammar, path = self.grammar, instance.path
        while path.steps:
            step, path = path.steps[-1], path.parent
            node = grammar.node_at(self.tree, path)
            for name in grammar.ancestors(node.name) if node is not None else ():
                for getter in (f"get{step.part}", "getChild"):
                    for it in found:
                        own = it.declaration
                        if own.of is not None and own.getter is not None and (own.of.text, own.accessor) == (name, getter):
                            return it, path, step.index
        raise NoReason(f"no node above {instance.path} has an equation for {instance.attribute}")


def _head(it: Declaration, with_parameters: bool = True) -> str:
    getter = "" if it.getter is None else f"{it.getter.text}()."
    parameters = ", ".join(known.name.text for known in it.parameters)
    name = f"{'' if it.of is None else it.of.text}.{getter}{'' if it.name is None else it.name.text}"
    return f"{name}({parameters})" if with_parameters else name


def read_instance(text: str) -> Instance:
    """The instance that `PATH ATTRIBUTE(ARGUMENTS)` spells; without arguments the parentheses may be left out. Raises SyntaxFault."""
    place, _, call = text.strip().partition(" ")
    return Instance(Path.read(place), *read_call(call if "(" in call else f"{call}()"))
