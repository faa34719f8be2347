"""The problems of a tree at each of many edits, against all that the library's own search finds on the same tree."""
import os
import random
import re
import unittest

import attrd
from attrd_lsp.checking import Console
from attrd_lsp.desk import Program
from attrd_lsp.language_files import LanguageFiles
from attrd_lsp.positions import Change, Text
from attrd_lsp.project import Project
from attrd_lsp.small.language import tutorials
from attrd_lsp.small.syntax import KEYWORDS
from lsp_support import FILE, large_class, program

EDITS = int(os.environ.get("ATTRD_PROBLEMS", "120"))
NAMES = "int boolean x q a1 b2 t3 u3 s C1 C2 C9 me1".split(" ")
NAME = re.compile(r"[A-Za-z]\w*")


class ByChance(unittest.TestCase):
    """Edits by chance in a few classes."""

    def setUp(self):
        console = Console()
        files = LanguageFiles(Program(program()), tutorials(), console)
        self.published = []
        self.project = Project(files.reader(), files.start, lambda project, names: self.published.append(list(names)), self.fail)
        self.project.versions[FILE] = 0
        self.project.put(FILE, FILE, "".join(map(large_class, range(4))))
        self.addCleanup(self.project.drop_desk)

    def check(self):
        """The problems that are told when all is done, each as its path and text."""
        while self.project.is_busy:
            self.project.step()
        return sorted((it.path, it.text) for it in self.project.problems)

    def wanted(self):
        """What the library finds on the program's tree; None where something has no value, which the library tells in other words."""
        desk = self.project.desk
        document = attrd.Document(desk.session, desk.grammar)
        self.assertEqual(document.tree, self.project.source.tree)
        found = desk.checks.find(document)
        return sorted((str(it.path), it.message) for it in found) if all(it.has_value for it in found) else None

    def change(self, chance):
        """Puts a name in the place of another one, or now and then something that can't be parsed."""
        text = self.project.texts[FILE].text
        word = chance.choice([it for it in NAME.finditer(text) if it[0] not in KEYWORDS])
        places = Text.of(text)
        new = chance.choice(NAMES) if chance.random() < 0.95 else ";"
        change = Change(places.position(word.start()), places.position(word.end()), new)
        self.project.change(FILE, self.project.versions[FILE] + 1, [change])

    def test_what_is_told_is_all_that_there_is(self):
        chance = random.Random(5)
        self.assertEqual(self.check(), [])
        counts = []
        for _ in range(EDITS):
            self.change(chance)
            told, wanted = self.check(), self.wanted()
            if wanted is not None and self.project.source.is_good:
                self.assertEqual(told, wanted)
                counts.append(len(wanted))
            if chance.random() < 0.06:
                self.project.put(FILE, FILE, "".join(map(large_class, range(4))))
        self.assertGreater(len(counts), EDITS // 3)
        self.assertGreater(max(counts), 10)


if __name__ == "__main__":
    unittest.main()
