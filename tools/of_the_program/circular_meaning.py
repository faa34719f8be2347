"""What the attributes of `circular_aspects` mean on a tree, by definition: nothing here depends on which question comes first.

The equation of a circular attribute comes to a *formula* of circular instances with its own start, its *atoms*; every other demand wants
an outcome. An instance has an outcome where each one to which formulas lead from it has ended: the least or greatest fixpoint of the
formulas, or the first fault that a search over atoms, depth first, meets. One without an outcome is on a circle, or leads to one."""
from __future__ import annotations

from dataclasses import dataclass
from typing import Callable, Dict, Iterator, List, Optional, Set, Tuple, Union

from tools.of_the_program import formulas
from tools.of_the_program.circular_aspects import NAMED, Aspects, Expr
from tools.of_the_program.circular_trees import Node
from tools.of_the_program.circular_ways import Argument, Instance, Seen, climbed, way


@dataclass(frozen=True)
class Fault(Exception):
    """A fault, and the instance whose own equation met it."""

    kind: str
    at: Instance


@dataclass(frozen=True)
class Wanting(Exception):
    """An evaluation came to an instance that has no outcome."""

    of: Instance


Formula = formulas.Formula[Instance]
Outcome = Union[bool, Fault]
Own = Union[Formula, Fault, Wanting]


def known(truth: bool) -> Formula:
    return Formula("known", truth)


class Evaluation:
    """The equation of one instance, evaluated over the outcomes that are known, with what is seen for it."""

    def __init__(self, meaning: Meaning, instance: Instance) -> None:
        self.meaning, self.instance, self.seen = meaning, instance, Seen()
        self.attribute = meaning.aspects.named(instance[1])
        self.seen.of(instance)
        self.this, self.body = self.equation(instance[0])
        self.names: Dict[str, Argument] = {NAMED[kind]: it for kind, it in zip(self.attribute.kinds, instance[2])}

    def equation(self, node: Node) -> Tuple[Node, Expr]:
        """The node whose equation it is, and its body: the nearest one above, or that of its own class."""
        equations = self.attribute.equations
        if not self.attribute.inherited:
            return node, equations.get(node.kind) or equations["Item"]
        for above, nodes in climbed(node):
            body = equations.get(f"{above.kind}.get{nodes[0].step().split(':')[0]}()")
            if body:
                self.seen.passed(nodes, above)
                return above, body
        raise AssertionError("an inherited attribute has no equation")

    def own(self) -> Own:
        """What the equation comes to."""
        try:
            return known(self.truth(self.body)) if self.attribute.start is None else self.formula(self.body, True)
        except (Fault, Wanting) as end:
            return end

    def fault(self, kind: str) -> Fault:
        return Fault(kind, self.instance)

    def formula(self, e: Expr, as_it_is: bool) -> Formula:
        """The formula of an expression in a positive place, or of its negation."""
        if e.form == "not":
            return self.formula(e.parts[0], not as_it_is)
        if e.form in ("and", "or"):
            return self.joined(e, as_it_is)
        if e.form == "if":
            return self.formula(e.parts[1 if self.truth(e.parts[0]) else 2], as_it_is)
        if e.form == "exists":
            return self.some(e, as_it_is)
        if e.form == "ask" and as_it_is and self.meaning.aspects.named(e.word).start == self.attribute.start:
            return Formula("atom", atom=self.asked(e))
        return known(self.truth(e) == as_it_is)

    def joined(self, e: Expr, as_it_is: bool) -> Formula:
        form = "both" if (e.form == "and") == as_it_is else "either"
        left = self.formula(e.parts[0], as_it_is)
        if left.surely() == (form == "either"):
            return left
        return Formula(form, sides=(left, self.formula(e.parts[1], as_it_is)))

    def some(self, e: Expr, as_it_is: bool) -> Formula:
        """Of a fold `exists`, or of its negation."""
        sides: List[Formula] = []
        for _ in self.each(e):
            sides.append(self.formula(e.parts[1], as_it_is))
            if sides[-1].surely() == as_it_is:
                break
        return Formula("either" if as_it_is else "both", sides=tuple(sides)) if sides else known(not as_it_is)

    def each(self, e: Expr) -> Iterator[Node]:
        """The elements of a fold's list, each bound in turn."""
        owner = self.there(e.parts[0])
        self.seen.reads.add((owner, "Item"))
        for it in owner.items:
            self.names[e.word] = it
            yield it

    def truth(self, e: Expr) -> bool:
        """The value of a boolean expression whose demands want outcomes."""
        if e.form == "not":
            return not self.truth(e.parts[0])
        if e.form in ("and", "or"):
            return self.truth(e.parts[1]) if self.truth(e.parts[0]) == (e.form == "and") else e.form == "or"
        if e.form == "if":
            return self.truth(e.parts[1 if self.truth(e.parts[0]) else 2])
        if e.form == "exists":
            return any(self.truth(e.parts[1]) for _ in self.each(e))
        if e.form == "agree":
            left = self.truth(e.parts[0])
            return left == self.truth(e.parts[1])
        if e.form == "count":
            return len([it for it in self.each(e) if self.truth(e.parts[1])]) > 1
        if e.form == "ask":
            self.seen.asks.append(self.asked(e))
            return self.meaning.value(self.seen.asks[-1])
        return self.plain(e)

    def plain(self, e: Expr) -> bool:
        """The value of a boolean expression that asks for no attribute of chance."""
        if e.form == "word":
            return e.word == "true"
        if e.form == "on":
            node = self.there(e.parts[0])
            self.seen.reads.add((node, "On"))
            return node.on
        if e.form == "equals":
            return self.text(e.parts[0]) == self.text(e.parts[1])
        if e.form == "zero":
            raise self.fault("zero")
        nodes = [self.node(it) for it in e.parts]
        if e.form == "is":
            return self.kind(nodes[0]) == e.word
        return (nodes[0] is nodes[1]) == (e.form == "same")

    def kind(self, node: Optional[Node]) -> Optional[str]:
        """The class of a node that is looked at."""
        if node is None:
            return None
        self.seen.reads.add((node, "class"))
        return node.kind

    def asked(self, e: Expr) -> Instance:
        """The instance of a call: the receiver and the arguments come first, and then whether it is null."""
        receiver = self.node(e.parts[0])
        kinds = self.meaning.aspects.named(e.word).kinds
        arguments = tuple(self.text(it) if kind == "String" else self.node(it) for it, kind in zip(e.parts[1:], kinds))
        if receiver is None:
            raise self.fault("null")
        return receiver, e.word, arguments

    def text(self, e: Expr) -> str:
        if e.form == "name":
            node = self.there(e.parts[0])
            self.seen.reads.add((node, "Name"))
            return node.name
        found = e.word if e.form == "text" else self.names["w"]
        assert isinstance(found, str)
        return found

    def there(self, e: Expr) -> Node:
        """A node that a call is made on."""
        node = self.node(e)
        if node is None:
            raise self.fault("null")
        return node

    def node(self, e: Expr) -> Optional[Node]:
        """The node, or none, of an expression."""
        if e.form == "word":
            found = {"this": self.this, "null": None}.get(e.word, self.names.get(e.word))
            assert not isinstance(found, str)
            return found
        if e.form == "first":
            return next((it for it in self.each(e) if self.truth(e.parts[1])), None)
        if e.form in ("row", "left"):
            return self.cast(e)
        receiver, arguments = self.node(e.parts[0]), tuple(map(self.text, e.parts[1:]))
        if receiver is None:
            raise self.fault("null")
        self.seen.asks.append((receiver, e.word, arguments))
        return way(Seen(), self.seen.asks[-1])

    def cast(self, e: Expr) -> Optional[Node]:
        """A cast to a row, or the left part behind a cast to a pair."""
        node = self.node(e.parts[0])
        if node is not None and self.kind(node) != {"row": "Row", "left": "Pair"}[e.form]:
            raise self.fault("cast")
        if e.form == "row":
            return node
        if node is None:
            raise self.fault("null")
        self.seen.reads.add((node, "Left"))
        if node.optionals["Left"] is None:
            raise self.fault("absent")
        return node.optionals["Left"]


class Meaning:
    """The outcomes of the instances that questions lead to, on one tree."""

    def __init__(self, aspects: Aspects, tree: Node) -> None:
        self.aspects, self.tree = aspects, tree
        self.outcomes: Dict[Instance, Outcome] = {}
        self.own: Dict[Instance, Own] = {}
        self.seen: Dict[Instance, Seen] = {}

    def value(self, of: Instance) -> bool:
        """The value of an instance that is demanded."""
        if of not in self.outcomes:
            raise Wanting(of)
        found = self.outcomes[of]
        if isinstance(found, Fault):
            raise found
        return found

    def reply(self, of: Instance) -> str:
        """What a question for the instance is told."""
        self.reach(of)
        found = self.outcomes.get(of)
        if found is None:
            return f"circular {shown(self.circle(of))}"
        if isinstance(found, Fault):
            return f"fault {found.kind} in {shown(found.at)}"
        return f"= {str(found).lower()}"

    def reach(self, of: Instance) -> None:
        """Tries equations, and settles what has an outcome, until nothing comes of it."""
        new = [of] if of not in self.own else []
        while new:
            while new:
                self.attempt(new.pop(), new)
            self.settle()
            new = [it for it, own in self.own.items() if isinstance(own, Wanting) and own.of in self.outcomes]

    def attempt(self, of: Instance, new: List[Instance]) -> None:
        """Tries the equation of an instance, and adds those that it comes to."""
        evaluation = Evaluation(self, of)
        own = self.own[of] = evaluation.own()
        self.seen[of] = evaluation.seen
        found = [own.of] if isinstance(own, Wanting) else self.atoms(of)
        new.extend(it for it in found if it not in self.own and it not in new)

    def atoms(self, of: Instance) -> List[Instance]:
        own = self.own[of]
        return list(own.atoms()) if isinstance(own, formulas.Formula) else []

    def settle(self) -> None:
        """The outcomes of those from which formulas lead only to what has ended."""
        whole = {it for it, own in self.own.items() if it not in self.outcomes and not isinstance(own, Wanting)}
        self.shrink(whole, lambda it: any(at not in whole and at not in self.outcomes for at in self.atoms(it)))
        sound = set(whole)
        self.shrink(sound, lambda it: isinstance(self.own[it], Fault) or any(
            at not in sound and not isinstance(self.outcomes.get(at), bool) for at in self.atoms(it)))
        faults = {it: self.first_fault(it) for it in whole - sound}
        self.outcomes.update(self.fixpoint(sound))
        self.outcomes.update(faults)

    @staticmethod
    def shrink(members: Set[Instance], goes: Callable[[Instance], bool]) -> None:
        """Takes members out until none goes any more."""
        gone = {it for it in members if goes(it)}
        while gone:
            members -= gone
            gone = {it for it in members if goes(it)}

    def first_fault(self, of: Instance) -> Fault:
        """The fault that a search over atoms meets first."""
        for it in self.search(of):
            own = self.own[it]
            if isinstance(own, Fault):
                return own
        raise AssertionError("there is no fault")

    def search(self, of: Instance) -> Iterator[Instance]:
        """All that formulas lead to, depth first, from left to right."""
        seen, to_do = set[Instance](), [of]
        while to_do:
            it = to_do.pop()
            if it not in seen:
                seen.add(it)
                yield it
                to_do.extend(reversed(self.atoms(it)))

    def fixpoint(self, members: Set[Instance]) -> Dict[Instance, bool]:
        """Round after round from the start, until nothing changes; of what isn't circular there is one round."""
        values = {it: bool(self.aspects.named(it[1]).start) for it in members}

        def value(of: Instance) -> bool:
            found = values[of] if of in values else self.outcomes[of]
            assert isinstance(found, bool)
            return found

        while True:
            new = {}
            for it in members:
                own = self.own[it]
                assert isinstance(own, formulas.Formula)
                new[it] = own.holds(value)
            if new == values:
                return values
            values = new

    def circle(self, of: Instance) -> Instance:
        """The instance to which a search from the question comes back: it is under way and has no outcome."""
        return self.looked_at(of)[-1]

    def looked_at(self, of: Instance) -> List[Instance]:
        """What a search from a question that a circle answers looks at, level by level, each from one strict demand to the next. The last
        one is that to which it comes back."""
        met, under = list[Instance](), set[Instance]()
        while True:
            for it in self.search(of):
                met.append(it)
                if it in under and it not in self.outcomes:
                    return met
                own = self.own[it]
                if isinstance(own, Wanting):
                    break
            under.update(met)
            assert isinstance(own, Wanting)
            of = own.of
            if of in under:
                return [*met, of]


def shown(of: Instance) -> str:
    """The path and the attribute, as replies tell them."""
    return f"{of[0].path()}.{of[1]}"
