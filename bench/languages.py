"""The languages of random sessions, and random trees of them."""
from __future__ import annotations

import random
from dataclasses import dataclass, field
from pathlib import Path as FilePath
from typing import Dict, List, Tuple

from figures import ROOT
from programs import ASPECTS, GRAMMAR, written

from attrd import Grammar, Node, Part, Shape
from attrd.declarations import Attribute, attributes_of

SAMPLES, NESTED = ROOT / "samples", ROOT / "bench" / "nested"
# Of how many random trees a session gets the largest one.
TRIED = 8


@dataclass(frozen=True)
class Language:
    """A grammar with its aspects, the texts that its tokens have, of a class of its own, or of all others, and the options for it."""

    name: str
    grammar_file: FilePath
    aspects: Tuple[FilePath, ...]
    texts: Tuple[str, ...]
    texts_of: Dict[str, Tuple[str, ...]] = field(default_factory=dict)
    options: Tuple[str, ...] = ()

    @property
    def grammar(self) -> Grammar:
        """The grammar. Raises GrammarFault or AttrdError where the file isn't one."""
        return Grammar.load(self.grammar_file)

    def attributes(self) -> List[Attribute]:
        """What its aspects declare."""
        return [it for file in self.aspects for it in attributes_of(file.read_text(encoding="utf-8"))]


FORMS = ("--forms", "circular")
KINDS = ("int", "boolean", "A", "B", "C")
LANGUAGES = {it.name: it for it in (
    Language("nested", NESTED / "nested.ast", (NESTED / "nested.jrag",), ("a", "b", "c", "d", "e")),
    Language("tutorial", GRAMMAR, ASPECTS, ("x", "y", "z"), {it: KINDS for it in ("Basic", "ClassDecl", "KindUse")}),
    Language("calculator", SAMPLES / "calculator" / "calc.ast", tuple(SAMPLES / "calculator" / it for it in ("calc.jrag", "probe.jrag")), ("x", "y", "z")),
    Language("objects", SAMPLES / "objects" / "objects.ast", tuple(SAMPLES / "objects" / it for it in ("names.jrag", "types.jrag")), ("A", "B", "x", "y")),
    Language("machines", SAMPLES / "machines" / "machines.ast", (SAMPLES / "machines" / "machines.jrag",), ("a", "b", "c")),
    Language("grammars", SAMPLES / "grammars" / "grammars.ast", (SAMPLES / "grammars" / "grammars.jrag",), ("a", "b", "c", "d"), {}, FORMS),
    Language("flow", SAMPLES / "flow" / "flow.ast", (SAMPLES / "flow" / "flow.jrag",), ("x", "y"), {}, FORMS),
)}


class Trees:
    """Random trees of a language."""

    def __init__(self, language: Language, chance: random.Random) -> None:
        self.language, self.random = language, chance
        self.grammar = language.grammar

    def token(self, of: str, kind: str) -> str | int | bool:
        """A value for a token of a node of that class."""
        if kind == "int":
            return self.random.choice((0, 1, 2, 3, -1, 7, 100, 2_147_483_647, -2_147_483_648))
        return self.random.random() < 0.5 if kind == "boolean" else self.random.choice(self.language.texts_of.get(of, self.language.texts))

    def tree(self, kind: str, depth: int) -> Node:
        """A tree of that class or of one below it, about so deep."""
        names = self.grammar.concrete_below(kind)
        if depth <= 0:
            names = tuple(it for it in names if all(part.shape is not Shape.CHILD for part in self.grammar.parts(it))) or names
        return self.node(self.random.choice(names), depth)

    def node(self, name: str, depth: int, **given: object) -> Node:
        """A node of that class, with these cells by their names and others by chance."""
        return Node(name, *(given[part.name] if part.name in given else self.cell(name, part, depth - 1) for part in self.grammar.parts(name)))

    def cell(self, of: str, part: Part, depth: int) -> object:
        if part.shape is Shape.TOKEN:
            return self.token(of, part.kind)
        if part.shape is Shape.LIST:
            return [self.tree(part.kind, depth) for _ in range(self.random.choice((0, 1, 2, 3, 5)) if depth > 0 else 0)]
        if part.shape is Shape.OPTIONAL and (depth <= 0 or self.random.random() < 0.4):
            return None
        return self.tree(part.kind, depth)

    def fitting(self, of: str, node: Node) -> List[Part]:
        """The components of a class, but for tokens, in which the node may stand."""
        return [part for part in self.grammar.parts(of) if part.shape is not Shape.TOKEN and self.grammar.is_below(node.name, part.kind)]

    def deepened(self, node: Node, kind: str, depth: int) -> Node:
        """The node with others of that kind around it, until it is so deep or none of them fits around it."""
        while node.depth < depth:
            around = [(it, part) for it in self.grammar.concrete_below(kind) for part in self.fitting(it, node)]
            if not around:
                break
            name, part = self.random.choice(around)
            node = self.node(name, 0, **{part.name: [node] if part.shape is Shape.LIST else node})
        return node

    def root(self, most: int) -> Node:
        """A tree for a session, of at most so many nodes: the largest of a few, or of the tutorial's language now and then a program."""
        if self.language.name == "tutorial" and self.random.random() < 0.5:
            return written(self.random.randint(30, 400), self.random.randrange(10 ** 6))
        depth = self.random.randint(2, 7)
        tried = [self.tree(self.grammar.start, depth) for _ in range(TRIED)]
        return max((it for it in tried if it.size <= most), key=lambda it: it.size, default=self.grammar.smallest(self.grammar.start))
