"""Sessions by chance over a specification, and what the program has to reply to them by its meaning."""
from __future__ import annotations

import random
import re
from dataclasses import dataclass
from typing import Dict, List, Optional, Sequence, Tuple

from tools.of_the_program.specs_aspects import Folder, Specification
from tools.of_the_program.specs_growing import Editing, Growing
from tools.of_the_program.specs_meaning import Endless, Meaning
from tools.of_the_program.specs_trees import TEXT, Node, Refusal, Tree, quoted, unquoted

# Trees have so many nodes, most of them few.
SIZES = (10, 10, 12, 15, 15, 20, 20, 25, 30, 40, 60, 150)
# Texts beside those of the folder's tree, and ints that are passed.
TEXTS = ("a", "b", "", 'a"b\\', "ö é")
PASSED = (0, 0, 1, 2, 3, -1, 7, 1_048_576, -1_048_577, 1_048_577)
# Of how many of the last questions one is asked again.
RECENT = 10
DONE = re.compile(r"0 done (\d+) (\d+) (.*)")
CLOSED = "0 refused 15 question"
# The answer to a question that leads too far.
UNKNOWN = "?"


@dataclass(frozen=True)
class Case:
    """A specification, its aspect files, a tree, and lines over them."""

    specification: Specification
    grammar: str
    aspects: Sequence[str]
    term: str
    lines: Tuple[str, ...]

    def written(self) -> str:
        """All of it, as it is told where replies differ."""
        return "\n".join([self.grammar, *self.aspects, self.term, *self.lines])


class Making:
    """The session of a seed, over a folder's specification with these aspect files."""

    def __init__(self, seed: str, folder: Folder, specification: Specification) -> None:
        self.chance, self.folder, self.specification = random.Random(seed), folder, specification
        texts = sorted({unquoted(it) for it in TEXT.findall(folder.tree)})
        self.texts = self.chance.sample(texts, min(len(texts), self.chance.randint(2, 4))) + self.chance.sample(TEXTS, 1)
        growing = Growing(specification.grammar, self.chance, self.texts)
        grown = growing.node(specification.grammar.start, self.chance.choice(SIZES)).term()
        self.term = folder.tree if self.chance.random() < 0.3 else grown
        self.tree = Tree(specification.grammar, self.term)
        self.editing = Editing(self.tree, growing, self.chance)
        self.asked: List[str] = []
        self.names = sorted(specification.names)
        # what a line may pass: ints and truths only where an attribute takes one
        numbers = {it.kind for declared in specification.declared.values() for it in declared.parameters} & {"int", "boolean"}
        self.kinds = ["String", specification.grammar.start, *(("int", "boolean") if numbers else ())]

    def case(self, aspects: Sequence[str], count: int) -> Case:
        """The session with so many lines."""
        lines: List[str] = []
        posts = 0
        for kind in self.chance.choices(("edit", "ask", "post", "wait"), (30, 58, 7, 5), k=count):
            if kind == "edit":
                lines.append(f"0 {self.edit()}")
            elif kind == "wait" and posts:
                lines.append(f"0 wait {self.chance.randint(1, posts)}")
            elif kind != "wait":
                lines.append(f"0 {kind} {self.question()}")
                posts += kind == "post"
        return Case(self.specification, self.folder.grammar, aspects, self.term, tuple(lines))

    def edit(self) -> str:
        """An edit, which is done where it isn't refused."""
        command = self.editing.command()
        try:
            self.tree.edit(command)
        except Refusal:
            pass
        return command

    def question(self) -> str:
        """A question, or one of the last ones again."""
        if self.asked and self.chance.random() < 0.4:
            return self.chance.choice(self.asked[-RECENT:])
        nodes, name = self.editing.nodes(), self.chance.choice(self.names)
        having = self.specification.having(name, nodes) if self.chance.random() < 0.97 else nodes
        if not having:
            return self.question()
        node = self.chance.choice(having)
        declared = self.specification.attribute(node.kind, name)
        given = [self.argument(it.kind, nodes) for it in declared.parameters] if declared else []
        self.asked.append(f"{node.path()} {name}({','.join(given)})")
        return self.asked[-1]

    def argument(self, kind: str, nodes: Sequence[Node]) -> str:
        """An argument of the kind, or now and then of another one."""
        if self.chance.random() < 0.02:
            kind = self.chance.choice(self.kinds)
        if kind == "String":
            return quoted(self.chance.choice(self.texts))
        if kind in ("int", "boolean"):
            return str(self.chance.choice(PASSED)) if kind == "int" else self.chance.choice(("true", "false"))
        fitting = [it for it in nodes if self.specification.grammar.is_below(it.kind, kind)]
        return self.chance.choice(fitting).path() if fitting and self.chance.random() < 0.9 else "null"


class Expected:
    """What has to be replied to the lines of a case."""

    def __init__(self, case: Case) -> None:
        self.specification = case.specification
        self.tree = Tree(self.specification.grammar, case.term)
        self.terms, self.posted, self.known = [case.term], list[str](), dict[int, Meaning]()
        # of each line; None where it waits
        by_line = [self.reply(it) for it in case.lines]
        self.replies = [it for it in by_line if it]
        self.unknown = self.replies.count(f"0 {UNKNOWN}")

    def reply(self, line: str) -> Optional[str]:
        """The reply to the line; None where it waits."""
        command, _, rest = line[2:].partition(" ")
        if command == "ask":
            return f"0 {self.answer(len(self.terms) - 1, rest)}"
        if command == "post":
            self.posted.append(rest)
            return f"0 open {len(self.posted)}"
        if command == "wait":
            return None if int(rest) <= len(self.posted) else CLOSED
        try:
            self.tree.edit(line[2:])
        except Refusal as refusal:
            return f"0 refused {refusal.code}"
        self.terms.append(self.tree.root.term())
        return f"0 ok {len(self.terms) - 1}"

    def answer(self, version: int, asked: str) -> str:
        """The answer to a question on the tree of that version, where it is known."""
        if version not in self.known:
            self.known[version] = Meaning(self.specification, Tree(self.specification.grammar, self.terms[version]))
        try:
            return self.known[version].reply(asked)
        except Endless:
            return UNKNOWN

    def differs(self, told: Sequence[str]) -> Optional[str]:
        """What of the replies is wrong, in a line; None where they are right."""
        plain = [it for it in told if not DONE.fullmatch(it) and it != CLOSED]
        wanted = [it for it in self.replies if it != CLOSED]
        for got, right in zip(plain, wanted):
            if right not in (got, f"0 {UNKNOWN}"):
                return f"{got} in place of {right}"
        if len(plain) != len(wanted):
            return f"{len(plain)} replies in place of {len(wanted)}"
        done = [it for it in map(DONE.fullmatch, told) if it]
        if sorted(int(it[1]) for it in done) != [*range(1, len(self.posted) + 1)]:
            return "not each question that was posted is answered once"
        for it in done:
            answer = self.answer(int(it[2]), self.posted[int(it[1]) - 1])
            if answer not in (it[3], UNKNOWN):
                return f"{it[0]}, where the answer is {answer}"
        return None


def sorts(told: Sequence[str]) -> Dict[str, int]:
    """How many replies tell a value, a fault, a cycle, an edit that was done and a refusal."""
    words = ("=", "fault", "circular", "ok", "refused")
    answers = [re.sub(r"^0 (?:done \d+ \d+ )?", "", it).split(" ")[0] for it in told]
    return {word: answers.count(word) for word in words}
