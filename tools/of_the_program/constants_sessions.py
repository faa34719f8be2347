"""Sessions by chance over grammars with components between slashes: edits within and around constants, marks, terms and questions, and what
the program has to reply to them."""
from __future__ import annotations

import random
import re
from typing import Dict, List, Optional

from tools.of_the_program.constants_aspects import Aspects
from tools.of_the_program.constants_grammar import START, TEXTS, language
from tools.of_the_program.specs_aspects import Specification
from tools.of_the_program.specs_growing import Editing, Growing
from tools.of_the_program.specs_sessions import RECENT, Case, Expected
from tools.of_the_program.specs_trees import Node, Refusal, Tree, quoted

# Trees have about so many nodes without their constants.
SIZES = (4, 6, 8, 10, 14, 20)
# How often an edit leaves constants alone, or brings a new root; a place is said by a mark where it may be, or by one that isn't there.
LOOSE, ROOTED, MARKED, UNMARKED = 0.7, 0.04, 0.4, 0.02
MARKS = ("u", "v", "w")
KINDS = {"edit": 32, "ask": 34, "show": 8, "mark": 7, "unmark": 1, "where": 3, "version": 1, "at": 2, "post": 4, "wait": 4}
# A place that begins with a mark, in front of a blank, a comma, a parenthesis or the end.
PLACE = re.compile(r"(?<=[ (,])\$(\w+)((?:/[^ ,()]*)?)")


class ConstantEditing(Editing):
    """Edits by chance, most of which leave alone what is fixed."""

    is_loose = False

    def nodes(self) -> List[Node]:
        return [it for it in super().nodes() if not self.is_loose or not it.is_fixed()]

    def command(self) -> str:
        if self.chance.random() < ROOTED:
            return f"set / {self.growing.node(START, self.chance.choice(SIZES)).term()}"
        self.is_loose = self.chance.random() < LOOSE
        return super().command()


class Marked:
    """A tree with marks of its nodes."""

    def __init__(self, specification: Specification, term: str) -> None:
        self.tree = Tree(specification.grammar, term)
        self.marks: Dict[str, Node] = {}

    def edit(self, command: str) -> None:
        """Does an edit, with which the marks of nodes go that it takes away. Raises Refusal."""
        self.tree.edit(command)
        there = {id(it) for it in self.tree.root.all()}
        self.marks = {name: it for name, it in self.marks.items() if id(it) in there}

    def marked(self, name: str) -> Node:
        """The node of that mark. Raises Refusal."""
        if name not in self.marks:
            raise Refusal("3 mark")
        return self.marks[name]

    def plain(self, words: str) -> str:
        """The words with paths in the place of marks. Raises Refusal."""
        return PLACE.sub(lambda it: (self.marked(it[1]).path().rstrip("/") + it[2]) or "/", words)

    def mark(self, name: str, place: str) -> None:
        """Marks a node. Raises Refusal."""
        node = self.tree.root.at(place)
        if name in self.marks:
            raise Refusal("9 taken")
        self.marks[name] = node


class Making:
    """The session of a seed."""

    def __init__(self, seed: str) -> None:
        self.chance = random.Random(seed)
        made = language(self.chance)
        self.grammar, self.aspects = made.text, Aspects(made, self.chance)
        self.texts = self.aspects.texts()
        self.specification = Specification(made.text, self.texts)
        growing = Growing(self.specification.grammar, self.chance, TEXTS)
        self.term = growing.node(START, self.chance.choice(SIZES)).term()
        self.marked = Marked(self.specification, self.term)
        self.editing = ConstantEditing(self.marked.tree, growing, self.chance)
        self.names = sorted(self.specification.names)
        self.asked: List[str] = []
        self.version = 0

    def case(self, count: int) -> Case:
        """The session with so many lines."""
        lines: List[str] = []
        posts = 0
        for kind in self.chance.choices(list(KINDS), list(KINDS.values()), k=count):
            line = self.line(kind, posts)
            posts += line.startswith("post")
            lines.append(f"0 {line}")
        return Case(self.specification, self.grammar, self.texts, self.term, tuple(lines))

    def line(self, kind: str, posts: int) -> str:
        """A line of that kind, behind so many posts."""
        if kind == "edit":
            return self.edit()
        if kind in ("ask", "post"):
            question = self.question()
            return f"{kind} {self.placed(question) if kind == 'ask' else question}"
        if kind == "show":
            return self.placed(f"show {self.place()}")
        if kind == "at":
            return f"at {self.chance.choice((self.version, self.version + 1))} {self.placed(f'show {self.place()}')}"
        if kind == "wait":
            return f"wait {self.chance.randint(1, posts + 1)}"
        if kind == "version":
            return kind
        return self.of_mark(kind, self.chance.choice(MARKS))

    def of_mark(self, kind: str, name: str) -> str:
        """A line about a mark."""
        if kind == "mark":
            place = self.place()
            try:
                self.marked.mark(name, place)
            except Refusal:
                pass
            return f"mark {name} {place}"
        if kind == "unmark":
            self.marked.marks.pop(name, None)
        return f"{kind} {name}"

    def edit(self) -> str:
        """An edit, which is done where it isn't refused."""
        line = self.placed(self.editing.command())
        try:
            self.marked.edit(self.marked.plain(line))
            self.version += 1
        except Refusal:
            pass
        return line

    def place(self) -> str:
        """The path of a node: as often as not of one that is fixed, or now and then of none."""
        is_fixed = self.chance.random() < 0.5
        nodes = list(self.marked.tree.root.all())
        found = self.chance.choice([it for it in nodes if it.is_fixed() is is_fixed] or nodes).path()
        return f"{found.rstrip('/')}/{self.chance.choice(('M1', 'M2:0', 'K1', 'n0'))}" if self.chance.random() < 0.03 else found

    def placed(self, words: str) -> str:
        """The words with marks in the place of some paths, as far as these lead to or below a node that is marked."""
        for name, node in self.marked.marks.items():
            path = re.escape(node.path().rstrip("/"))
            if self.chance.random() < MARKED:
                words = re.sub(rf'(?<=[ (,]){path}(?=[/ ,)]|$)(?=[^"]*$)', f"${name}", words) if node.above else words
        return words if self.chance.random() >= UNMARKED else re.sub(r" /\S*", " $nix", words, count=1)

    def question(self) -> str:
        """A question, or one of the last ones again."""
        if self.asked and self.chance.random() < 0.4:
            return self.chance.choice(self.asked[-RECENT:])
        place, name = self.place(), self.chance.choice(self.names)
        try:
            declared = self.specification.attribute(self.marked.tree.root.at(place).kind, name)
        except Refusal:
            declared = None
        given = [self.argument(it.kind) for it in declared.parameters] if declared else []
        self.asked.append(f"{place} {name}({','.join(given)})")
        return self.asked[-1]

    def argument(self, kind: str) -> str:
        """An argument of the kind, or now and then of another one."""
        if kind == "String":
            return quoted(self.chance.choice(TEXTS))
        nodes = list(self.marked.tree.root.all())
        fitting = [it for it in nodes if self.specification.grammar.is_below(it.kind, kind)] if self.chance.random() < 0.95 else nodes
        return self.chance.choice(fitting).path() if fitting and self.chance.random() < 0.9 else "null"


class ConstantsExpected(Expected):
    """What has to be replied to the lines of such a case."""

    def __init__(self, case: Case) -> None:
        self.marked = Marked(case.specification, case.term)
        super().__init__(case)

    def reply(self, line: str) -> Optional[str]:
        """The reply to the line; None where it waits."""
        try:
            return self.told(line[2:])
        except Refusal as refusal:
            return f"0 refused {refusal.code}"

    def told(self, words: str) -> Optional[str]:
        """The same. Raises Refusal."""
        version = len(self.terms) - 1
        if words.startswith("at "):
            _, at, words = words.split(" ", 2)
            if int(at) != version:
                raise Refusal(f"2 stale {version}")
        command, _, rest = self.marked.plain(words).partition(" ")
        if command in ("ask", "post", "wait"):
            return super().reply(f"0 {command} {rest}")
        if command == "show":
            return f"0 = {self.marked.tree.root.at(rest).term()}"
        if command == "where":
            return f"0 = {self.marked.marked(rest).path()}"
        if command == "mark":
            self.marked.mark(*rest.split(" "))
        elif command == "unmark":
            self.marked.marked(rest)
            del self.marked.marks[rest]
        elif command != "version":
            self.marked.edit(f"{command} {rest}")
            self.terms.append(self.marked.tree.root.term())
        return f"0 ok {len(self.terms) - 1}"


def questions(case: Case) -> List[str]:
    """Lines that ask the case's questions, once each: those whose places are paths."""
    asked = (it.split(" ", 2)[2] for it in case.lines if it.startswith(("0 ask ", "0 post ")))
    return [f"0 ask {it}" for it in dict.fromkeys(asked) if not PLACE.search(f" {it}")]
