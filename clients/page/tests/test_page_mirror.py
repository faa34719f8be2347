"""The tree that is known, against the server's, over random lines of several sessions."""
from __future__ import annotations

import random
import tempfile
import unittest
from pathlib import Path as FilePath
from typing import Dict, List

from page_support import program, write_files

import attrd
from attrd.grammar import Shape
from attrd.replies import Ok, Value
from attrd_page.mirror import Astray, Item, Mirror
from attrd_page.views import choices

LINES, SEED = 600, 11


class Random:
    """Random lines over a tree: most of them are accepted."""

    def __init__(self, mirror: Mirror, seed: int) -> None:
        self.mirror, self.pick = mirror, random.Random(seed)
        self.count = 0

    def place(self, item: Item, marked: Dict[str, Item]) -> str:
        """A place of an item: by a mark of it or of what stands above it, where there is one."""
        names = {it.number: name for name, it in marked.items() if it.number in self.mirror.items}
        steps: List[str] = []
        at = item
        while at.above is not None and at.number not in names:
            part, index = self.mirror.part_of(at).name, at.index
            steps.insert(0, part if index is None else f"{part}:{index}")
            at = at.above
        if at.number in names and self.pick.random() < 0.7:
            return "/".join([f"${names[at.number]}", *steps])
        return str(self.mirror.path(item))

    def line(self, marked: Dict[str, Item]) -> str:
        """A command."""
        grammar, item = self.mirror.grammar, self.pick.choice(list(self.mirror.items.values()))
        place, parts = self.place(item, marked), grammar.parts(item.name)
        kind = self.pick.choice(["set", "put", "drop", "insert", "insert", "token", "move", "mark", "unmark"])
        if kind == "mark":
            self.count += 1
            return f"mark m{self.count} {place}"
        if kind == "unmark":
            return f"unmark {self.pick.choice(list(marked) or ['m'])}"
        if kind == "set":
            wanted = grammar.start if item.above is None else self.mirror.part_of(item).kind
            return f"set {place} {self.pick.choice(choices(grammar, wanted))['term']}"
        if kind == "drop":
            return f"drop {place}"
        wanted_shape = {"put": Shape.OPTIONAL, "insert": Shape.LIST, "token": Shape.TOKEN, "move": Shape.LIST}[kind]
        fitting = [it for it in parts if it.shape is wanted_shape]
        if not fitting:
            return "version"
        part = self.pick.choice(fitting)
        if kind == "token":
            value = {"String": '"a b\\n\\"ä"', "int": "-7", "boolean": "false"}[part.kind]
            return f"token {place} {part.name} {value}"
        cell = item.cells[grammar.class_named(item.name).places[part.name]]
        if kind == "put":
            return f"put {place} {part.name} {self.pick.choice(choices(grammar, part.kind))['term']}"
        index = self.pick.randint(0, len(cell))
        if kind == "insert":
            return f"insert {place} {part.name} {index} {self.pick.choice(choices(grammar, part.kind))['term']}"
        moved = self.pick.choice(list(self.mirror.items.values()))
        return f"move {self.place(moved, marked)} to {place} {part.name} {index}"


class MirrorTest(unittest.TestCase):
    def setUp(self) -> None:
        folder = tempfile.TemporaryDirectory()
        self.addCleanup(folder.cleanup)
        files = write_files(FilePath(folder.name))
        self.server = attrd.start(files[0], files[1], *files[2:], program=program())
        self.addCleanup(self.server.close)
        self.grammar = attrd.Grammar.load(files[0])
        self.mirror = Mirror(self.grammar, self.server.session(900).show())

    def tree(self) -> attrd.Node:
        return self.server.session(900).show()

    def test_random_lines(self) -> None:
        source = Random(self.mirror, SEED)
        marked: Dict[int, Dict[str, Item]] = {0: {}, 1: {}}
        accepted = {word: 0 for word in ("set", "put", "drop", "insert", "token", "move", "mark", "unmark")}
        for number in range(LINES):
            session = number % 2
            line = source.line(marked[session])
            words = line.split(" ")
            target = self.mirror.at(attrd.Path.read(words[2])) if words[0] == "mark" and words[2].startswith("/") else None
            if not isinstance(self.server.send(session, line).reply(), (Ok, Value)):
                continue
            change = self.mirror.follow(session, line)
            accepted[words[0]] = accepted.get(words[0], 0) + 1
            self.assertEqual(change is not None, words[0] in ("set", "put", "drop", "insert", "token", "move"), line)
            if target is not None:
                marked[session][words[1]] = target
            if words[0] == "unmark":
                marked[session].pop(words[1], None)
            if number % 20 == 0:
                self.same(marked)
        self.same(marked)
        self.assertTrue(all(accepted[it] >= 5 for it in accepted), accepted)

    def same(self, marked: Dict[int, Dict[str, Item]]) -> None:
        self.assertEqual(self.mirror.term(self.mirror.root), self.tree())
        for session, names in marked.items():
            for name, item in names.items():
                reply = self.server.send(session, f"where {name}").reply()
                if item.number in self.mirror.items:
                    self.assertEqual(str(reply), f"= {self.mirror.path(item)}")
                else:
                    self.assertEqual(str(reply), "refused 3 mark")

    def test_the_line_of_a_change_has_no_marks(self) -> None:
        self.mirror.follow(0, "mark u /Kind:2/Block")
        change = self.mirror.follow(0, "insert $u Stmt 0 Show(Num(1))")
        assert change is not None
        self.assertEqual(change.line, "insert /Kind:2/Block Stmt 0 Show(Num(1))")
        change = self.mirror.follow(0, "move $u/Stmt:2 to $u Stmt 0")
        assert change is not None
        self.assertEqual(change.line, "move /Kind:2/Block/Stmt:2 to /Kind:2/Block Stmt 0")

    def test_what_does_not_fit_is_told(self) -> None:
        for line in ("drop /Kind:9", "drop $u", "insert / Nix 0 Num(1)", "token / Kind 3", "set / (", "drop /", "move / to / Kind 0"):
            with self.assertRaises(Astray, msg=line):
                self.mirror.follow(0, line)


if __name__ == "__main__":
    unittest.main()
