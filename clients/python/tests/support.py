"""What the tests share: the program, the samples, and random trees."""
import os
import re
import unittest
from pathlib import Path as FilePath

import attrd
from attrd.grammar import Shape

PROGRAM = os.environ.get("ATTRD", "attrd")
ROOT = FilePath(__file__).resolve().parents[3]
SAMPLES = ROOT / "samples"
CALCULATOR = SAMPLES / "calculator"

TEXTS = ["", "x", "y", "a\"b", "back\\slash", "new\nline", "tab\t", "é", "Ω mega", "𝄞", "a,b)](", "-", "true"]


def calculator(*aspects, **named):
    """A server over the calculator's files."""
    files = [CALCULATOR / it for it in aspects or ("calc.jrag",)]
    return attrd.start(CALCULATOR / "calc.ast", CALCULATOR / "tree.txt", *files, program=PROGRAM, **named)


def calculator_grammar():
    return attrd.Grammar.load(CALCULATOR / "calc.ast")


def page_text(name):
    """The text of a page of the docs, or of the examples in tests/pages."""
    page = ROOT / "docs" / name
    return (page if page.exists() else ROOT / "tests" / "pages" / name).read_text(encoding="utf-8")


def page_files(name):
    """The files that a page writes, by their names: the last text of each."""
    return {it[1]: it[2] for it in re.finditer(r"^```file (\S+)\n(.*?)^```$", page_text(name), re.M | re.S)}


def refused_rows(page, name):
    """What a page says of files of this name: triples of the words of the command line, options and files, of a text and of what stands behind
    the arrow."""
    whole = page_text(page)
    found = []
    for block in re.finditer(rf"^```refused {re.escape(name)} in ([^\n]*)\n(.*?)^```$", whole, re.M | re.S):
        lines = []
        for line in block[2].splitlines():
            if line.startswith("=> "):
                found.append((block[1].split(" "), "".join(written_out(it) + "\n" for it in lines), line[3:]))
                lines = []
            else:
                lines.append(line)
    return found


def written_out(text):
    text = re.sub(r"‹\\x([0-9A-F]{2})›", lambda it: chr(int(it[1], 16)) if int(it[1], 16) < 128 else "\udcff", text)
    return re.sub(r"‹([^‹›]*)\*(\d+)›", lambda it: "".join(it[1].replace("#", str(k)) for k in range(1, int(it[2]) + 1)), text)


class Trees:
    """Random trees of a grammar, and random changes of them."""

    def __init__(self, grammar, random):
        self.grammar, self.random = grammar, random

    def token(self, kind):
        if kind == "String":
            return self.random.choice(TEXTS)
        return self.random.randint(-3, 3) if kind == "int" else self.random.random() < 0.5

    def tree(self, kind=None, depth=4):
        random, grammar = self.random, self.grammar
        names = grammar.concrete_below(kind or grammar.start)
        name = random.choice(names)
        if depth <= 0:
            return grammar.smallest(kind or grammar.start)
        return attrd.Node(name, *[self.cell(part, depth - 1) for part in grammar.parts(name)])

    def cell(self, part, depth):
        if part.shape is Shape.TOKEN:
            return self.token(part.kind)
        if part.shape is Shape.LIST:
            return [self.tree(part.kind, depth) for _ in range(self.random.choice((0, 1, 1, 2, 3, 5)))]
        if part.shape is Shape.OPTIONAL and self.random.random() < 0.5:
            return None
        return self.tree(part.kind, depth)

    def sized(self, least, most):
        """A tree of so many nodes."""
        while True:
            tree = self.tree(depth=self.random.randint(3, 6))
            if least <= tree.size <= most:
                return tree

    def other(self, tree, least, most):
        """Another tree: a change of this one, or now and then a new one."""
        for _ in range(20):
            new = self.changed(tree)
            if new != tree and least <= new.size <= most:
                return new
        return self.sized(least, most)

    def changed(self, node, kind=None, taken=None):
        """The tree with a few changes: tokens, subtrees, elements that come, go, and turn up elsewhere."""
        taken = [] if taken is None else taken
        if self.random.random() < 0.04:
            return self.tree(kind, 2)
        return attrd.Node(node.name, *[self.changed_cell(part, cell, taken) for part, cell in zip(self.grammar.parts(node.name), node.cells)])

    def changed_cell(self, part, cell, taken):
        random = self.random
        if part.shape is Shape.LIST:
            return self.changed_list(part, list(cell), taken)
        if part.shape is Shape.TOKEN:
            return self.token(part.kind) if random.random() < 0.1 else cell
        if part.shape is Shape.OPTIONAL and random.random() < 0.15:
            return None if random.random() < 0.5 else self.tree(part.kind, 2)
        return self.changed(cell, part.kind, taken) if cell is not None and random.random() < 0.5 else cell

    def changed_list(self, part, cells, taken):
        random = self.random
        for _ in range(random.choice((0, 0, 0, 1, 1, 2, 4))):
            what = random.random()
            if what < 0.3 and cells:
                taken.append(cells.pop(random.randrange(len(cells))))
            elif what < 0.5:
                cells.insert(random.randint(0, len(cells)), self.tree(part.kind, 2))
            elif what < 0.8 and taken:
                node = taken.pop(random.randrange(len(taken)))
                if self.grammar.is_below(node.name, part.kind):
                    cells.insert(random.randint(0, len(cells)), node)
            elif what < 0.85:
                random.shuffle(cells)
        return [self.changed(it, part.kind, taken) if random.random() < 0.4 else it for it in cells]


class ServerTest(unittest.TestCase):
    """A test with a server over the calculator."""

    aspects = ("calc.jrag",)

    def setUp(self):
        self.server = calculator(*self.aspects)
        self.addCleanup(self.server.close)
        self.session = self.server.session()

    def refused(self, code, call, *arguments, **named):
        with self.assertRaises(attrd.Refused) as caught:
            call(*arguments, **named)
        self.assertEqual(caught.exception.code, code, caught.exception)
        return caught.exception
