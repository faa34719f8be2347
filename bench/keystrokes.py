"""What one types in a program of the tutorial's language: edits in several places and back, each with a question for all errors."""
from __future__ import annotations

from typing import Callable, Dict, Iterable, List, NamedTuple, Sequence, Tuple, TypeVar

from programs import places

from attrd import Drop, Edit, Grammar, Insert, Node, Path, SetToken

ASK = "0 ask / errors()\n"
# In how many places each kind of edit is done; a class that gets another field or another name has more that rests on it.
PLACES, CLASSES, NAMED_CLASSES = 20, 10, 4
NUMBER = Node("Num", 1)
SHOWN = Node("Show", NUMBER)
DECLARED = Node("Decl", "fresh", Node("KindUse", "int"), NUMBER)
FIELD = Node("Decl", "fresh", Node("KindUse", "int"), None)
CLASS = Node("ClassDecl", "Fresh", None, [], Node("Block", []))

Element = TypeVar("Element")
Places = List[Tuple[Path, Node]]


class Keystrokes(NamedTuple):
    """Lines with edits of one kind, each with its question behind it."""

    name: str
    lines: str

    @property
    def edits(self) -> int:
        """How many edits they are."""
        return self.lines.count(ASK)


def spread(found: Sequence[Element], count: int) -> List[Element]:
    """So many of what was found, evenly from the first on; all where there are no more."""
    return [found[k * len(found) // count] for k in range(count)] if len(found) > count else list(found)


def asked(edits: Iterable[Edit]) -> str:
    """The lines of the edits, with the question behind each."""
    return "".join(f"0 {edit.command()}\n{ASK}" for edit in edits)


def renamed(found: Places) -> str:
    """The name of each of these nodes is made another one, and what it was."""
    return asked(SetToken(path, "ID", name) for path, node in found for name in (f"{node.cells[name_at(node)]}q", str(node.cells[name_at(node)])))


def name_at(node: Node) -> int:
    """Which of its cells is the name."""
    return next(at for at, cell in enumerate(node.cells) if isinstance(cell, str))


def in_and_out(paths: Iterable[Path], part: str, index: int, term: Node) -> str:
    """At each of these nodes a tree comes into a list, and goes."""
    edits: List[Edit] = []
    for path in paths:
        edits += [Insert(path, part, index, term), Drop(path.child(part, index))]
    return asked(edits)


class Program:
    """The nodes of a program by what they are."""

    def __init__(self, grammar: Grammar, tree: Node) -> None:
        self.places = places(grammar, tree)
        self.kinds = len(tree.cells[0]) if isinstance(tree.cells[0], tuple) else 0
        self.classes = self.named("ClassDecl")
        self.methods = [(path, node) for path, node in self.named("Block") if len(path.steps) == 3]

    def named(self, name: str) -> Places:
        """The nodes of that class, in the order of the text."""
        return [(path, node) for path, node in self.places if node.name == name]

    def numbers(self) -> str:
        return asked(SetToken(path, "Value", number) for path, _ in spread(self.named("Num"), PLACES) for number in (5, 6))

    def uses(self) -> str:
        return renamed(spread(self.named("Name"), PLACES))

    def at_front(self, term: Node) -> str:
        """A statement at the front of methods."""
        return in_and_out((path for path, _ in spread(self.methods, PLACES)), "Stmt", 0, term)

    def declarations(self, part: str, count: int) -> Places:
        """So many declarations that stand in a component of that name."""
        return spread([(path, node) for path, node in self.named("Decl") if path.steps[-1].part == part], count)

    def largest_scope(self) -> str:
        """A declaration at the front of the method with the most of them."""
        def size(place: Tuple[Path, Node]) -> int:
            return sum(it.name == "Decl" for it in place[1].below())

        return in_and_out([max(self.methods, key=size)[0]], "Stmt", 0, DECLARED)

    def fields(self) -> str:
        return in_and_out((path for path, _ in spread(self.classes, CLASSES)), "Field", 0, FIELD)

    def class_at(self, index: int) -> str:
        return in_and_out([Path()], "Kind", index, CLASS)


# What is typed; each comes with what is to be evaluated again, from little to much.
KINDS: Dict[str, Callable[[Program], str]] = {
    "a number that nothing rests on": Program.numbers,
    "a use mistyped and corrected": Program.uses,
    "a statement in or out at the front of a method": lambda it: it.at_front(SHOWN),
    "a declaration in or out at the front of a method": lambda it: it.at_front(DECLARED),
    "a declaration renamed": lambda it: renamed(it.declarations("Stmt", PLACES)),
    "a field renamed": lambda it: renamed(it.declarations("Field", PLACES)),
    "a field in or out": Program.fields,
    "a declaration in or out at the front of the largest scope": Program.largest_scope,
    "a class renamed": lambda it: renamed(spread(it.classes, NAMED_CLASSES)),
    "a class in or out at the top": lambda it: it.class_at(2),
    "a class in or out at the end": lambda it: it.class_at(it.kinds),
}


def keystrokes(grammar: Grammar, tree: Node) -> List[Keystrokes]:
    """What is typed in this program, kind by kind."""
    program = Program(grammar, tree)
    return [Keystrokes(name, lines(program)) for name, lines in KINDS.items()]
