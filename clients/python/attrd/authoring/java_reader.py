"""What JastAdd2 and Java have beside what is read here: what a declaration is, and where it ends."""
from __future__ import annotations

from typing import Optional

from ..scanning import Word, WordReader

KINDS = ("int", "boolean", "String")
# Words with which a declaration begins, whatever stands before them.
BEGINNINGS = ("syn", "inh", "eq", "aspect")
MODIFIERS = frozenset("public protected private static final abstract synchronized native transient volatile strictfp default".split())
# What a declaration is, by the word with which it begins behind its modifiers.
BY_FIRST = {"import": "import", "package": "import", "class": "class", "enum": "class", "record": "class", "interface": "interface",
            "coll": "coll", "refine": "refine", "rewrite": "rewrite", "cache": "cache", "uncache": "cache", "declare": "implements"}
# And by the word that stands behind a name.
BY_SECOND = {"contributes": "contributes", "implements": "implements", "extends": "implements"}
# Words that begin a declaration where they begin a line, though what stands before couldn't be read to its end.
RESUMING = ("coll", "refine", "rewrite", "uncache")
# What a statement is, by the word with which it begins.
STATEMENTS = {"if": "if", "else": "if", "switch": "if", "for": "for", "while": "while", "do": "while", "try": "statement",
              "throw": "statement", "return": "return", "}": "empty"}
_IN_ANGLES = frozenset("< > , . ? [ ]".split())


class JavaReader(WordReader):
    """Finds its way through declarations and types that aren't read."""

    def word(self, at: int) -> Word:
        """The word of a number; the last one, which is the end of the text, behind it."""
        return self.words[min(at, len(self.words) - 1)]

    def end_of(self, begun: int, is_expression: bool = False) -> int:
        """The number of the word behind a declaration: behind its semicolon, or behind the brace that closes its body; else before the
        brace that closes the aspect, or before a word with which the next one begins. Where it `is_expression`, no brace ends it."""
        depth, at = 0, begun
        while self.words[at].kind != "end" and not (at > begun and self._begins(at, begun, depth)):
            word = self.words[at]
            at += 1
            if word.kind != "sign":
                continue
            depth += {"{": 1, "}": -1}.get(word.text, 0)
            is_expression = is_expression or (depth == 0 and word.text == "=")
            if depth < 0:
                return at - 1
            if depth == 0 and (word.text == ";" or (word.text == "}" and not is_expression)):
                return at
        return at

    def _begins(self, at: int, begun: int, depth: int) -> bool:
        """Whether a declaration begins here, though the one before has no end."""
        word = self.words[at]
        if word.kind == "reserved" and word.text in BEGINNINGS:
            return self.words[at - 1].text != "." and not (self.words[begun].text == "refine" and at <= begun + 2)
        if word.kind != "name" or "\n" not in self.scan.text[self.words[at - 1].end:word.at]:
            return False
        following = self.word(at + 1)
        if word.text in RESUMING or following.text == "contributes":
            return following.kind in ("name", "reserved") and self.word(at + 2).text not in ("=", ";", ",", ")")
        return depth == 0 and word.text in ("public", "protected", "private")

    def sort(self) -> str:
        """What the declaration is that begins with the next word; empty where that isn't known."""
        at = self._behind_modifiers(self.at)
        word, following = self.words[at], self.word(at + 1)
        if word.kind == "name" and word.text in BY_FIRST and following.text not in (".", "("):
            return BY_FIRST[word.text]
        if word.kind == "name" and following.text in BY_SECOND:
            return BY_SECOND[following.text]
        if word.text == "{" and at > self.at:
            return "field"
        begun, self.at = self.at, at
        found = self._member()
        self.at = begun
        return found

    def _behind_modifiers(self, at: int) -> int:
        while self.words[at].text in MODIFIERS or self.words[at].text == "@":
            at += 2 if self.words[at].text == "@" else 1
        return min(at, len(self.words) - 1)

    def _member(self) -> str:
        """What begins with a type: a method or a field of a class, or a constructor."""
        self._angles()
        kind = self.java_kind()
        if kind is None:
            return ""
        if self.next.text == "(":
            return "constructor"
        if self.take("name") is None:
            return ""
        if self.take("sign", ".") and self.take("name") is None:
            self.take("reserved")
        return {"(": "method", "=": "field", ";": "field", "[": "field", ",": "field"}.get(self.next.text, "")

    def java_kind(self) -> Optional[Word]:
        """A type, as one word; None where none stands here. One of several words is of the kind `java`."""
        first = self.take("reserved", *KINDS) or self.take("name")
        if first is None:
            return None
        begun = self.at
        while self.next.text == "." and self.word(self.at + 1).kind == "name":
            self.at += 2
        self._angles()
        while self.next.text == "[" and self.word(self.at + 1).text == "]":
            self.at += 2
        if self.at == begun:
            return first
        return Word("java", self.scan.text[first.at:self.words[self.at - 1].end], first.at)

    def _angles(self) -> None:
        """Passes over types between `<` and `>`, where they are closed."""
        begun, depth = self.at, 0
        while self.next.kind in ("name", "reserved") or self.next.text in _IN_ANGLES:
            depth += {"<": 1, ">": -1}.get(self.next.text, 0)
            if depth == 0:
                self.at += 1 if self.next.text == ">" else 0
                break
            self.at += 1
        if self.words[self.at - 1].text != ">" or self.at == begun:
            self.at = begun

    def pass_brackets(self, opening: str, closing: str) -> None:
        """Passes over what stands between brackets, if they open here."""
        depth = 0
        while self.next.kind != "end" and (depth or self.next.text == opening):
            depth += {opening: 1, closing: -1}.get(self.next.text, 0) if self.next.kind == "sign" else 0
            self.at += 1
            if depth == 0:
                return

    def statement(self) -> str:
        """What the statement is that begins with the next word."""
        begun, word = self.at, self.next
        if word.text in STATEMENTS:
            return STATEMENTS[word.text]
        is_local = self.java_kind() is not None and self.take("name") is not None
        self.at = begun
        return "local" if is_local or word.text == "final" else "statement"
