"""Random sessions: a tree of a language by chance, and lines that ask, post, edit and mark, most of which a server takes."""
from __future__ import annotations

import random
from typing import Callable, Iterator, List, Optional, Tuple

from languages import Language, Trees

from attrd import Drop, Edit, Insert, Move, Node, Part, Path, Put, SetNode, SetToken, Shape, Step, applied
from attrd.declarations import Attribute
from attrd.lexical import TREE_DEPTH, quoted

# How deep a deep tree is, and below how many nodes a tree is kept.
DEEP, MOST_NODES = 400, 4_000
# How long a line may be, in bytes.
LINE = 65_000
# How often something by chance is looked for before it is given up.
LOOKED = 40
# How many questions of all attributes stand behind a session.
SWEPT = 500
# Of how many of the last questions one is asked again.
RECENT = 12


class Session:
    """The lines of a session. The tree is followed, so that they name what is there."""

    def __init__(self, language: Language, chance: random.Random) -> None:
        self.language, self.random = language, chance
        self.trees = Trees(language, chance)
        self.grammar = self.trees.grammar
        known = language.attributes()
        self.asked = {it.name: [one for one in known if self.grammar.is_below(it.name, one.of)] for it in self.grammar}
        self.tree = self.first = self.begun()
        self.version, self.posted = 0, 0
        self.questions: List[str] = []
        slices, keeps = self.random.choice(((), ("--slice", "3"), ("--slice", "100"))), self.random.choice(((), (), ("--keep", "1"), ("--keep", "40")))
        self.options = [*slices, *keeps]

    def begun(self) -> Node:
        """The tree that a session begins with: in one of three it is made deep somewhere, where its language lets it."""
        self.tree = self.trees.root(MOST_NODES // 4)
        path, kind = self.slot()
        if not path.steps or self.random.random() >= 0.35:
            return self.tree
        deep = self.trees.deepened(self.trees.tree(kind, 1), kind, DEEP)
        return applied(self.grammar, self.tree, [SetNode(path, deep)])

    def lines(self, count: int) -> List[str]:
        """So many lines and, in one of three sessions, questions of all attributes behind them."""
        kinds: Tuple[Tuple[Callable[[], str], int], ...] = (
            (self.edit_line, 30), (self.ask_line, 40), (self.post_line, 12), (self.wait_line, 6), (self.mark_line, 5), (self.other_line, 4))
        made = [self.random.choices([it for it, _ in kinds], [weight for _, weight in kinds])[0]() for _ in range(count)]
        return made + (self.sweep() if self.random.random() < 0.35 else [])

    def place(self) -> Tuple[Path, Node]:
        """A node by chance, each as often as others, with its path."""
        steps: List[Step] = []
        node = self.tree
        at = self.random.randrange(node.size)
        while at:
            at -= 1
            for step, below in self.grammar.children(node):
                if at < below.size:
                    steps.append(step)
                    node = below
                    break
                at -= below.size
        return Path(tuple(steps)), node

    def looked_for(self, wanted: Callable[[Path, Node], bool]) -> Optional[Tuple[Path, Node]]:
        """A node by chance of which that holds, or None."""
        for _ in range(LOOKED):
            path, node = self.place()
            if wanted(path, node):
                return path, node
        return None

    def slot(self) -> Tuple[Path, str]:
        """The path of a node by chance, and the class that may stand there."""
        path, _ = self.place()
        if not path.steps:
            return path, self.grammar.start
        above = self.grammar.node_at(self.tree, path.parent)
        part = self.grammar.class_named(above.name).part(path.steps[-1].part) if above else None
        return path, part.kind if part else self.grammar.start

    def parts(self, node: Node, *shapes: Shape) -> List[Part]:
        return [part for part in self.grammar.parts(node.name) if part.shape in shapes]

    def edit_line(self) -> str:
        """An edit: nearly always one that is taken."""
        makers: Tuple[Callable[[], Optional[Edit]], ...] = (self.token, self.token, self.token, self.set, self.put, self.drop, self.insert, self.insert, self.move)
        while True:
            edit = self.random.choice(makers)()
            if edit is None:
                continue
            new = applied(self.grammar, self.tree, [edit])
            command = edit.command()
            if new.depth <= TREE_DEPTH and new.size <= MOST_NODES and len(command.encode()) <= LINE:
                if self.random.random() < 0.04:
                    return self.spelled(command.replace(":", ":9", 1))
                self.tree, self.version = new, self.version + 1
                return self.spelled(command)

    def token(self) -> Optional[Edit]:
        found = self.looked_for(lambda path, node: bool(self.parts(node, Shape.TOKEN)))
        if found is None:
            return None
        path, node = found
        part = self.random.choice(self.parts(node, Shape.TOKEN))
        return SetToken(path, part.name, self.trees.token(node.name, part.kind))

    def set(self) -> Optional[Edit]:
        path, kind = self.slot()
        term = self.trees.tree(kind, self.random.choice((0, 1, 2)))
        if self.random.random() < 0.05:
            term = self.trees.deepened(term, kind, DEEP - len(path.steps))
        return SetNode(path, term) if path.steps or self.random.random() < 0.1 else None

    def put(self) -> Optional[Edit]:
        def is_empty(node: Node) -> List[Part]:
            return [part for part in self.parts(node, Shape.OPTIONAL) if self.grammar.cell(node, part.name) is None]

        found = self.looked_for(lambda path, node: bool(is_empty(node)))
        if found is None:
            return None
        part = self.random.choice(is_empty(found[1]))
        return Put(found[0], part.name, self.trees.tree(part.kind, 1))

    def can_go(self, path: Path) -> bool:
        """Whether the node may be dropped."""
        above = self.grammar.node_at(self.tree, path.parent) if path.steps else None
        part = self.grammar.class_named(above.name).part(path.steps[-1].part) if above else None
        return part is not None and part.shape is not Shape.CHILD

    def drop(self) -> Optional[Edit]:
        found = self.looked_for(lambda path, node: node.size < 50 and self.can_go(path))
        return Drop(found[0]) if found else None

    def insert(self) -> Optional[Edit]:
        found = self.looked_for(lambda path, node: bool(self.parts(node, Shape.LIST)))
        if found is None:
            return None
        part = self.random.choice(self.parts(found[1], Shape.LIST))
        return Insert(found[0], part.name, self.index(found[1], part), self.trees.tree(part.kind, self.random.choice((0, 1, 2))))

    def index(self, node: Node, part: Part) -> int:
        """Where an element may come into the list: at its front, at its end or between."""
        cell = self.grammar.cell(node, part.name)
        count = len(cell) if isinstance(cell, tuple) else 0
        return self.random.choice((0, count, self.random.randint(0, count)))

    def move(self) -> Optional[Edit]:
        moved = self.looked_for(lambda path, node: bool(path.steps) and path.steps[-1].index is not None)
        if moved is None:
            return None
        path, node = moved
        lists = self.looked_for(lambda at, it: not at.is_below(path) and any(part.shape is Shape.LIST for part in self.trees.fitting(it.name, node)))
        if lists is None:
            return None
        part = self.random.choice([it for it in self.trees.fitting(lists[1].name, node) if it.shape is Shape.LIST])
        same = lists[0] == path.parent and part.name == path.steps[-1].part
        return Move(path, lists[0], part.name, max(0, self.index(lists[1], part) - same))

    def spelled(self, command: str) -> str:
        """The line of a command, of one of three sessions."""
        return f"{self.random.randrange(3)} {command}"

    def question(self) -> str:
        """A question: one that was asked before, as often as a new one, so that an answer that should be another one by now shows."""
        if self.questions and self.random.random() < 0.5:
            return self.random.choice(self.questions[-RECENT:])
        self.questions.append(self.new_question())
        return self.questions[-1]

    def new_question(self) -> str:
        """A question of the root, which rests on much, of a node by chance, or of a mark."""
        at_root = self.random.random() < 0.2 and self.asked[self.tree.name]
        found = None if at_root else self.looked_for(lambda path, node: bool(self.asked[node.name]))
        path, node = found or (Path(), self.tree)
        known = self.random.choice(self.asked[node.name]) if self.asked[node.name] else Attribute("", "nothing", "int", (), False, False)
        place = str(path) if self.random.random() < 0.9 else f"$m{self.random.randrange(3)}"
        return f"{place} {known.name}({','.join(map(self.argument, known.parameters))})"

    def argument(self, kind: str) -> str:
        """A text of the language, a node that fits, or null."""
        if kind == "String":
            return quoted(self.random.choice((*self.language.texts, *(it for texts in self.language.texts_of.values() for it in texts), "", "q")))
        found = self.looked_for(lambda path, node: self.grammar.is_below(node.name, kind))
        return str(found[0]) if found and self.random.random() < 0.85 else "null"

    def ask_line(self) -> str:
        at = f"at {self.version + self.random.randint(0, 1)} " if self.random.random() < 0.03 else ""
        return self.spelled(f"{at}ask {self.question()}")

    def post_line(self) -> str:
        self.posted += 1
        return self.spelled(f"post {self.question()}")

    def wait_line(self) -> str:
        return self.spelled(f"wait {max(1, self.posted - self.random.randint(0, 5))}")

    def mark_line(self) -> str:
        name = f"m{self.random.randrange(3)}"
        return self.spelled(self.random.choice((f"mark {name} {self.place()[0]}", f"unmark {name}", f"where {name}")))

    def other_line(self) -> str:
        path, node = self.place()
        return self.spelled("version" if node.length > LINE // 2 else f"show {path}")

    def sweep(self) -> List[str]:
        """Questions of all attributes of nodes by chance, with all texts of the language and some nodes as arguments."""
        lines: List[str] = []
        while len(lines) < SWEPT:
            path, node = self.place()
            for known in self.asked[node.name]:
                lines += [f"0 ask {path} {known.name}({it})" for it in self.arguments(known.parameters)]
            if not self.asked[node.name]:
                lines.append(f"0 show {path}" if node.length < LINE // 2 else "0 version")
        return lines

    def arguments(self, kinds: Tuple[str, ...]) -> Iterator[str]:
        """What may stand between the parentheses, for parameters of these kinds."""
        if not kinds:
            yield ""
            return
        firsts = map(quoted, self.language.texts) if kinds[0] == "String" else [self.argument(kinds[0]) for _ in range(3)]
        for first in firsts:
            for rest in self.arguments(kinds[1:]):
                yield f"{first},{rest}" if rest else first
