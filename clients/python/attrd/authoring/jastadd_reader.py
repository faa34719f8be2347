"""Reads `.jrag` texts as users of JastAdd write them, where `--forms jastadd` has the program do so: methods, modifiers, and bodies of
statements, each of which is read as the expression that it means."""
from __future__ import annotations

from typing import List

from ..scanning import Word
from .aspect_reader import FOLDS, AspectReader
from .aspect_tree import Declaration, Expression
from .constant_reader import ConstantReader
from .java_reader import BEGINNINGS

# Words in front of a declaration that mean nothing.
PLAIN = ("public", "protected", "private", "final")


class JastAddReader(ConstantReader):
    """Reads the declarations of a file of JastAdd's own language."""

    def form(self) -> str:
        at = self._behind_plain()
        if self.words[at].text in BEGINNINGS and self.words[at].kind == "reserved":
            return self.words[at].text
        begun, self.at = self.at, at
        is_method = self._member() == "method" and self.words[at].text != "void" and self.words[at + 1].kind == "name"
        self.at = begun
        return "syn" if is_method else "other"

    def _behind_plain(self) -> int:
        at = self.at
        while self.words[at].text in PLAIN:
            at += 1
        return at

    def _read(self, declared: Declaration) -> None:
        if declared.form != "other":
            self.at = self._behind_plain()
            if self.next.text not in BEGINNINGS:
                self.method(declared)
                return
        super()._read(declared)

    def method(self, declared: Declaration) -> None:
        """A method, which is an attribute that isn't lazy. Raises GrammarFault."""
        declared.kind = self.kind("kind")
        declared.of = self.want("name")
        self.want("sign", ".")
        declared.name = self.attribute_name()
        self.parameters(declared)
        self.body(declared)

    def accessor(self, name: str) -> str:
        return name if name.startswith("get") else f"get{name}"

    def front(self) -> None:
        while self.next.text in ("lazy", "final"):
            self.at += 1
        super().front()

    def final(self) -> None:
        self.take("name", "final")

    def call_name(self) -> Word:
        return self.take("reserved", *FOLDS) or self.want("name")

    def reserved_call(self, word: Word) -> Expression:
        return self.call(word.at, word, [])


def read_aspects(text: str, forms: str = "") -> List[Declaration]:
    """The declarations of an aspect file, as far as they can be read, where these forms are."""
    reader = JastAddReader if "jastadd" in forms.split(",") else AspectReader
    return reader(text, forms).file()
