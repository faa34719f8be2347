"""Edits and requests by chance, in steps by chance: each request is answered once, and the program's tree is that of the texts."""
import json
import random
import tempfile
import unittest
from pathlib import Path

from attrd_lsp.checking import Console
from attrd_lsp.desk import Program
from attrd_lsp.language_files import LanguageFiles
from attrd_lsp.positions import Text
from attrd_lsp.requests import Requests
from attrd_lsp.rpc import Failure
from attrd_lsp.small.language import tutorials
from attrd_lsp.workspace import Workspace
from lsp_support import SMALL, large_class, program
from rules_server import RULES

CALCULATOR = 'sum = product { PLUS product };\nproduct = value { "*" value };\nvalue = NUMBER | "(" sum ")";\n'
TOKENS = 'token NUMBER;\ntoken PLUS "+";\ntoken TIMES "*";\n'


class Answers(Console):
    """Notes what each request is answered, and each message."""

    def __init__(self):
        super().__init__()
        self.numbers, self.shown = [], []

    def answer(self, number, result):
        json.dumps(result)
        self.numbers.append(number)

    def fail(self, number, failure):
        self.numbers.append(number)

    def show(self, kind, text):
        self.shown.append(text)


class ByChance(unittest.TestCase):
    """An editor that does anything."""

    def edited(self, language, texts, words, seed):
        """Edits these documents and asks about them, so many times."""
        self.chance, self.words, self.texts = random.Random(seed), words, dict(texts)
        self.answers = Answers()
        self.workspace = Workspace(LanguageFiles(Program(program()), language, self.answers), self.answers)
        self.addCleanup(self.workspace.close_all)
        self.requests, self.count, self.version = Requests(self.workspace, self.answers), 0, 0
        for uri, text in texts.items():
            self.workspace.open({"textDocument": {"uri": uri, "version": 0, "text": text}})
        for _ in range(60):
            uri = self.chance.choice(list(texts))
            self.change(uri)
            self.step(self.chance.choice((0, 1, 5, 200)))
            for _ in range(self.chance.choice((0, 1, 3))):
                self.ask(uri)
            self.step(self.chance.choice((0, 1, 5)))
            if self.chance.random() < 0.2:
                self.compare()
        self.compare()
        self.assertEqual((sorted(self.answers.numbers), self.answers.shown), (list(range(1, self.count + 1)), []))

    def step(self, count):
        """At most so many steps."""
        while count > 0 and self.workspace.is_busy:
            self.workspace.step()
            count -= 1

    def compare(self):
        """Compares the trees when all is done."""
        self.step(100_000)
        for project in self.workspace.projects.values():
            self.assertEqual(str(project.desk.session.show("/")), str(project.source.tree))

    def position(self, uri):
        """A place of a document, by chance."""
        text = Text.of(self.texts[uri])
        return text.position(self.chance.randrange(len(text.text) + 1))._asdict()

    def change(self, uri):
        """Puts a word into a document, in the place of some characters or none."""
        text = Text.of(self.texts[uri])
        start = self.chance.randrange(len(text.text) + 1)
        end = min(len(text.text), start + self.chance.choice((0, 0, 1, 3, 10)))
        new = self.chance.choice(self.words)
        self.version += 1
        self.texts[uri] = text.text[:start] + new + text.text[end:]
        places = {"start": text.position(start)._asdict(), "end": text.position(end)._asdict()}
        document = {"uri": uri, "version": self.version}
        self.workspace.change({"textDocument": document, "contentChanges": [{"range": places, "text": new}]})

    def ask(self, uri):
        """Sends a request of any kind."""
        self.count += 1
        place, name = self.position(uri), self.chance.choice(self.words)
        params = {"textDocument": {"uri": uri}, "position": place, "range": {"start": place, "end": place}, "query": name}
        method = self.chance.choice(list(self.requests.handlers))
        try:
            self.requests.handle(method, self.count, {**params, "newName": name, "context": {"includeDeclaration": True}})
        except Failure as failure:
            self.answers.fail(self.count, failure)

    def test_files_of_a_folder(self):
        with tempfile.TemporaryDirectory(prefix="attrd-lsp-") as folder:
            texts = {(Path(folder).resolve() / name).as_uri(): text for name, text in (("a.rules", CALCULATOR), ("b.rules", TOKENS))}
            self.edited(RULES, texts, ["sum", "value", "PLUS", "x", "{", "}", "(", ")", ";", "=", "|", '"+"', "token ", '"', " ", ""], 1)

    def test_documents_by_themselves(self):
        texts = {"file:///s/a.small": SMALL, "file:///s/b.small": "".join(map(large_class, range(2)))}
        words = ["x", "y", "class ", "{", "}", "(", ")", ";", "=", ".", "+", "a1", "Point", "int ", "\U0001f600", " ", "\n", ""]
        self.edited(tutorials(), texts, words, 2)


if __name__ == "__main__":
    unittest.main()
