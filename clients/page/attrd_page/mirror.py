"""The server's tree as the accepted lines leave it, with a number for each node that stays its number when it moves."""
from __future__ import annotations

from dataclasses import dataclass, field
from typing import Any, Dict, Iterator, List, Optional, Set, Tuple, Union

from attrd import AttrdError, Grammar, Node, Path, commands
from attrd.grammar import Part, Shape
from attrd.paths import FromMark, Step
from attrd.replies import read_value
from attrd.terms import read_term


class Astray(AttrdError):
    """An accepted line doesn't fit the tree that is known: it has to be asked for."""


@dataclass(eq=False)
class Item:
    """A node. `cells` are tokens, items, lists of items and None, as the components of its class."""

    number: int
    name: str
    cells: List[Any] = field(default_factory=list)
    above: Optional[Item] = None
    part: int = 0

    def below(self) -> Iterator[Item]:
        """The items one step below, in order."""
        for cell in self.cells:
            if isinstance(cell, Item):
                yield cell
            elif isinstance(cell, list):
                yield from cell

    @property
    def index(self) -> Optional[int]:
        """The index of an element in its list; None of what stands in no list."""
        among = self.above.cells[self.part] if self.above else None
        if not isinstance(among, list):
            return None
        return next(index for index, it in enumerate(among) if it is self)


@dataclass(frozen=True)
class Inverse:
    """What takes an edit back, wherever its nodes are by then.

    `edit` is the word of a command: `drop` and `set` of `item`; `token`, `put` and `insert` of its component `part`; `move` of `moved`
    into that. `value` is a token's value; `old` the node that was there, whose items are no more in the tree but stay as they were.
    """

    edit: str
    item: Item
    part: str = ""
    index: int = 0
    value: Any = None
    old: Optional[Item] = None
    moved: Optional[Item] = None


@dataclass(frozen=True)
class Change:
    """What an accepted edit did: the items whose own cells changed, its line with paths in the place of marks, and what takes it back.

    `became` are the numbers of a node that was replaced and of the one in its place.
    """

    items: Tuple[Item, ...]
    line: str
    inverse: Inverse
    became: Optional[Tuple[int, int]] = None


class Mirror:
    """The tree, followed line by line."""

    def __init__(self, grammar: Grammar, tree: Node) -> None:
        """Of a tree that fits the grammar."""
        self.grammar = grammar
        self.items: Dict[int, Item] = {}
        self.marks: Dict[Tuple[int, str], Item] = {}
        self._count = 0
        self.root = self._grown(tree, None, 0)

    def reset(self, tree: Node) -> None:
        """Takes another tree: all nodes are new ones, and no mark is known."""
        self.items.clear()
        self.marks.clear()
        self.root = self._grown(tree, None, 0)

    def _grown(self, tree: Node, above: Optional[Item], part: int) -> Item:
        """An item for a node and all below it, with numbers that no other has had."""
        top = self._new(tree, above, part)
        left = [(top, tree)]
        while left:
            item, node = left.pop()
            for at, cell in enumerate(node.cells):
                grown: Any = cell
                if isinstance(cell, Node):
                    grown = self._new(cell, item, at)
                    left.append((grown, cell))
                elif isinstance(cell, tuple):
                    grown = [self._new(it, item, at) for it in cell]
                    left.extend(zip(grown, cell))
                item.cells.append(grown)
        return top

    def _new(self, node: Node, above: Optional[Item], part: int) -> Item:
        self._count += 1
        item = Item(self._count, node.name, [], above, part)
        self.items[item.number] = item
        return item

    def _forget(self, item: Item) -> None:
        left = [item]
        while left:
            gone = left.pop()
            del self.items[gone.number]
            left.extend(gone.below())

    def part_of(self, item: Item) -> Part:
        """The component in which an item stands that isn't the root."""
        assert item.above is not None
        return self.grammar.parts(item.above.name)[item.part]

    def path(self, item: Item) -> Path:
        """Where an item of the tree is."""
        steps: List[Step] = []
        while item.above is not None:
            steps.append(Step(self.part_of(item).name, item.index))
            item = item.above
        return Path(tuple(reversed(steps)))

    def at(self, place: Union[Path, FromMark], session: int = 0) -> Item:
        """The item at a place, by the marks of a session. Raises Astray."""
        item: Optional[Item] = self.root
        if isinstance(place, FromMark):
            item = self.marks.get((session, place.mark))
            item = self.items.get(item.number) if item is not None else None
        for step in place.steps:
            item = self._step(item, step) if item is not None else None
        if item is None:
            raise Astray(f"no node is known at {place}")
        return item

    def _step(self, item: Item, step: Step) -> Optional[Item]:
        place = self.grammar.class_named(item.name).places.get(step.part)
        cell = None if place is None else item.cells[place]
        if isinstance(cell, list):
            return cell[step.index] if step.index is not None and step.index < len(cell) else None
        return cell if isinstance(cell, Item) and step.index is None else None

    def term(self, item: Item) -> Node:
        """The tree below an item."""
        order, left = [], [item]
        while left:
            top = left.pop()
            order.append(top)
            left.extend(top.below())
        made: Dict[int, Node] = {}
        for it in reversed(order):
            made[it.number] = Node(it.name, *(_cell(cell, made) for cell in it.cells))
        return made[item.number]

    def follow(self, session: int, command: str) -> Optional[Change]:
        """Does what an accepted command did; None where it was no edit. Raises Astray where it can't be done here."""
        word, _, rest = command.partition(" ")
        try:
            if word == "mark":
                name, place = rest.split(" ")
                self.marks[session, name] = self.at(_place(place), session)
            elif word == "unmark":
                self.marks.pop((session, rest), None)
            elif word in _EDITS:
                return getattr(self, "_" + word)(session, rest)  # type: ignore[no-any-return]
        except Astray:
            raise
        except (AttrdError, ValueError, IndexError, KeyError) as fault:
            raise Astray(f"{command[:80]}: {fault}") from None
        return None

    def _set(self, session: int, rest: str) -> Change:
        place, term = rest.split(" ", 1)
        old = self.at(_place(place), session)
        line = commands.set_node(self.path(old), term)
        new = self._grown(read_term(term), old.above, old.part)
        if old.above is None:
            self.root = new
        elif old.index is None:
            old.above.cells[old.part] = new
        else:
            old.above.cells[old.part][old.index] = new
        self._forget(old)
        return Change((new if old.above is None else old.above,), line, Inverse("set", new, old=old), (old.number, new.number))

    def _put(self, session: int, rest: str) -> Change:
        place, part, term = rest.split(" ", 2)
        item = self.at(_place(place), session)
        at = self._part(item, part, Shape.OPTIONAL)
        grown = item.cells[at] = self._grown(read_term(term), item, at)
        return Change((item,), commands.put(self.path(item), part, term), Inverse("drop", grown))

    def _drop(self, session: int, rest: str) -> Change:
        item = self.at(_place(rest), session)
        line, part, index = commands.drop(self.path(item)), self.part_of(item).name if item.above is not None else "", item.index
        above = self._taken_out(item)
        self._forget(item)
        inverse = Inverse("put", above, part, old=item) if index is None else Inverse("insert", above, part, index, old=item)
        return Change((above,), line, inverse)

    def _insert(self, session: int, rest: str) -> Change:
        place, part, index, term = rest.split(" ", 3)
        item = self.at(_place(place), session)
        at = self._part(item, part, Shape.LIST)
        line = commands.insert(self.path(item), part, int(index), term)
        grown = self._grown(read_term(term), item, at)
        item.cells[at].insert(int(index), grown)
        return Change((item,), line, Inverse("drop", grown))

    def _token(self, session: int, rest: str) -> Change:
        place, part, value = rest.split(" ", 2)
        item = self.at(_place(place), session)
        at = self._part(item, part, Shape.TOKEN)
        before, item.cells[at] = item.cells[at], read_value(value)
        return Change((item,), f"token {self.path(item)} {part} {value}", Inverse("token", item, part, value=before))

    def _move(self, session: int, rest: str) -> Change:
        place, _, target, part, index = rest.split(" ")
        item, to = self.at(_place(place), session), self.at(_place(target), session)
        line = commands.move(self.path(item), self.path(to), part, int(index))
        at, origin, old_index = self._part(to, part, Shape.LIST), self.part_of(item).name if item.above is not None else "", item.index or 0
        above = self._taken_out(item)
        to.cells[at].insert(int(index), item)
        item.above, item.part = to, at
        inverse = Inverse("move", above, origin, old_index, moved=item)
        return Change((above,) if above is to else (above, to), line, inverse)

    def inverse_command(self, it: Inverse) -> str:
        """The command that takes an edit back on the tree as it is now. Raises Astray where a node of it is gone."""
        if any(node is not None and node.number not in self.items for node in (it.item, it.moved)):
            raise Astray("the node that was edited is gone, so the edit can't be taken back")
        path = self.path(it.item)
        if it.edit == "token":
            return commands.token(path, it.part, it.value)
        if it.edit == "move" and it.moved is not None:
            return commands.move(self.path(it.moved), path, it.part, it.index)
        if it.old is None:
            return commands.drop(path)
        term = self.term(it.old)
        if it.edit == "set":
            return commands.set_node(path, term)
        return commands.put(path, it.part, term) if it.edit == "put" else commands.insert(path, it.part, it.index, term)

    def _taken_out(self, item: Item) -> Item:
        above, index = item.above, item.index
        if above is None:
            raise Astray("the root was taken out")
        if index is None:
            above.cells[item.part] = None
        else:
            del above.cells[item.part][index]
        return above

    def _part(self, item: Item, name: str, shape: Shape) -> int:
        known = self.grammar.class_named(item.name)
        part = known.part(name)
        if part is None or part.shape is not shape:
            raise Astray(f"{item.name} has no such component: {name}")
        return known.places[name]


_EDITS: Set[str] = {"set", "put", "drop", "insert", "token", "move"}


def _place(text: str) -> Union[Path, FromMark]:
    return FromMark.read(text) if text.startswith("$") else Path.read(text)


def _cell(cell: Any, made: Dict[int, Node]) -> Any:
    if isinstance(cell, Item):
        return made[cell.number]
    return [made[it.number] for it in cell] if isinstance(cell, list) else cell
