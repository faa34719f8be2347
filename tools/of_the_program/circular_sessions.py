"""Sessions by chance over circular attributes, and what the program has to reply to them by their meaning."""
from __future__ import annotations

import random
import re
from dataclasses import dataclass, replace
from typing import Callable, List, Optional, Tuple, Type

from tools.of_the_program.circular_aspects import NAMES, Aspects, Attribute
from tools.of_the_program.circular_meaning import Meaning
from tools.of_the_program.circular_trees import Editing, Node, edited, node_of, root
from tools.of_the_program.circular_ways import Argument, Instance

# Of how many of the last questions one is asked again.
RECENT = 8
QUESTION = re.compile(r"(\S+) (\w+)\((.*)\)")
DONE = re.compile(r"0 done (\d+) (\d+) (.*)")
GONE, CLOSED = "refused 4 path", "0 refused 15 question"


@dataclass(frozen=True)
class Case:
    """Aspects, a tree, and lines over them."""

    aspects: Aspects
    term: str
    lines: Tuple[str, ...]


class Unfit(Exception):
    """A line names what isn't there."""


def made(seed: str, count: int, sort: Type[Aspects] = Aspects, new: float = 0.6) -> Case:
    """The case of this seed, with so many lines, over aspects of that sort; how often a question is a new one."""
    chance = random.Random(seed)
    aspects, tree = sort(chance), root(chance)
    term, editing, asked, posts = tree.term(), Editing(tree, chance), list[str](), 0
    lines: List[str] = []
    for _ in range(count):
        kind = chance.choices(("edit", "ask", "post", "wait"), (30, 50, 8, 5))[0]
        if kind == "edit":
            lines.append(f"0 {editing.command()}")
            edited(tree, lines[-1][2:])
        elif kind == "wait" and posts:
            lines.append(f"0 wait {chance.randint(1, posts)}")
        elif kind in ("ask", "post"):
            if not asked or chance.random() < new:
                asked.append(question(aspects, tree, chance))
            lines.append(f"0 {kind} {chance.choice(asked[-RECENT:])}")
            if instance(tree, aspects, lines[-1][len(f"0 {kind} "):]) is None:
                lines.pop()
            else:
                posts += kind == "post"
    return Case(aspects, term, tuple(lines))


def question(aspects: Aspects, tree: Node, chance: random.Random) -> str:
    """A question of an item by chance."""
    items = [it for it in tree.all() if it is not tree]
    of: Attribute = chance.choice(aspects.attributes)
    given = {"String": f'"{chance.choice(NAMES)}"', "Item": chance.choice([it.path() for it in items] + ["null"])}
    return f"{chance.choice(items).path()} {of.name}({','.join(given[kind] for kind in of.kinds)})"


def instance(tree: Node, aspects: Aspects, asked: str) -> Optional[Instance]:
    """The instance of a question, where its places are there."""
    found = QUESTION.fullmatch(asked)
    assert found is not None
    node, given = tree.at(found[1]), list(filter(None, found[3].split(",")))
    arguments: List[Argument] = [it[1:-1] if it[0] == '"' else tree.at(it) for it in given if it != "null"]
    if node is None or node is tree or None in arguments:
        return None
    return node, found[2], tuple(None if it == "null" else arguments.pop(0) for it in given)


class Expected:
    """What has to be replied to the lines of a case. Raises Unfit where one names what isn't there."""

    def __init__(self, case: Case) -> None:
        self.aspects, self.tree = case.aspects, node_of(case.term)
        self.trees, self.posted = [Meaning(self.aspects, self.tree.copy())], list[str]()
        # of each line; None where it waits
        self.by_line = [self.reply(it) for it in case.lines]
        self.replies = [it for it in self.by_line if it]

    def reply(self, line: str) -> Optional[str]:
        """The reply to the line; None where it waits."""
        command, _, rest = line[2:].partition(" ")
        if command == "ask":
            return f"0 {self.answer(len(self.trees) - 1, rest)}"
        if command == "post":
            self.posted.append(rest)
            return f"0 open {len(self.posted)}"
        if command == "wait":
            return None if int(rest) <= len(self.posted) else "0 refused"
        if not edited(self.tree, line[2:]):
            raise Unfit
        self.trees.append(Meaning(self.aspects, self.tree.copy()))
        return f"0 ok {len(self.trees) - 1}"

    def answer(self, version: int, asked: str) -> str:
        """The answer to a question on the tree of that version."""
        meaning = self.trees[version]
        found = instance(meaning.tree, self.aspects, asked)
        return GONE if found is None else meaning.reply(found)

    def differs(self, told: List[str]) -> Optional[str]:
        """What of the replies is wrong, in a line; None where they are right."""
        plain = [it for it in told if not DONE.fullmatch(it) and it != CLOSED]
        for got, wanted in zip(plain, self.replies):
            if got != wanted:
                return f"{got} in place of {wanted}"
        if len(plain) != len(self.replies):
            return f"{len(plain)} replies in place of {len(self.replies)}"
        done = [it for it in map(DONE.fullmatch, told) if it]
        if sorted(int(it[1]) for it in done) != [*range(1, len(self.posted) + 1)]:
            return "not each question that was posted is answered once"
        for it in done:
            wanted = self.answer(int(it[2]), self.posted[int(it[1]) - 1])
            if it[3] != wanted:
                return f"{it[0]}, where the answer is {wanted}"
        return None


def shorter(case: Case, differs: Callable[[Case], bool]) -> Case:
    """The case without lines that it takes none of for it to differ."""
    return replace(case, lines=shorter_lines(case.lines, lambda it: differs(replace(case, lines=it))))


def shorter_lines(lines: Tuple[str, ...], differ: Callable[[Tuple[str, ...]], bool]) -> Tuple[str, ...]:
    """The lines without those that it takes none of for them to differ."""
    size = len(lines) // 2
    while size:
        at = 0
        while at < len(lines):
            without = lines[:at] + lines[at + size:]
            if differ(without):
                lines = without
            else:
                at += size
        size //= 2
    return lines
