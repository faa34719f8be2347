"""Cuts grammars and aspects into words, as the server does."""
from __future__ import annotations

import re
from typing import List, NamedTuple, Optional

from .errors import GrammarFault
from .lexical import RESERVED

_BLANKS = re.compile(r"[ \t\r\n]+|//[^\n]*|/\*.*?\*/", re.S)
_SIGNS = re.compile(r"::=|==|!=|<=|>=|&&|\|\||[:;*\[\]<>/.(){},=!\-+?%]")
_NUMBER = re.compile(r"[0-9]+")
# A text whatever its escapes are, or one that isn't closed, up to the end of its line or a semicolon.
_ROUGH_TEXT = re.compile(r'"(?:[^"\\\n]|\\[^\n])*"|"[^;\n]*')
# A character of Java, which is none here.
_CHARACTER = re.compile(r"'(?:[^'\\\n]|\\.)'")
_TEXT = re.compile(r'"(?:[^"\\\n\t]|\\["\\nt])*')


class Word(NamedTuple):
    """A word, a sign, a number or a text: `kind` is name, reserved, sign, other, bad or end; `at` is its offset."""

    kind: str
    text: str
    at: int

    @property
    def end(self) -> int:
        """The offset behind it."""
        return self.at + len(self.text)


class Scan:
    """Cuts a text into words; a fault of that comes before all others.

    A lenient scan goes on behind a fault: `faults` has all of them, and what can't be a word is one of kind bad. A text with a fault
    in it is of kind other, as all texts.
    """

    def __init__(self, text: str, is_lenient: bool = False) -> None:
        self.text, self.is_lenient = text, is_lenient
        self.faults: List[GrammarFault] = []

    def fault(self, name: str, at: int, code: str = "G1") -> GrammarFault:
        """A fault at an offset."""
        line = self.text.count("\n", 0, at) + 1
        return GrammarFault(code, name, line, at - (self.text.rfind("\n", 0, at) + 1) + 1)

    def words(self) -> List[Word]:
        """All words, and one of kind end behind them. Raises GrammarFault, but for a lenient scan."""
        found: List[Word] = []
        at = 0
        while True:
            at = self._behind_blanks(at)
            if at >= len(self.text):
                found.append(Word("end", "", len(self.text)))
                return found
            word = self._word(at)
            found.append(word)
            at = word.end

    def _miss(self, at: int) -> None:
        fault = self.fault("syntax", at)
        if not self.is_lenient:
            raise fault
        self.faults.append(fault)

    def _behind_blanks(self, at: int) -> int:
        while True:
            blank = _BLANKS.match(self.text, at)
            if not blank:
                break
            at = blank.end()
        if self.text.startswith("/*", at):
            self._miss(at)
            return len(self.text)
        return at

    def _word(self, at: int) -> Word:
        text = self.text
        if text[at] == '"':
            return self._quoted(at)
        sign = _SIGNS.match(text, at)
        if sign:
            return Word("sign", sign[0], at)
        number = _NUMBER.match(text, at)
        if number:
            return Word("other", number[0], at)
        if not text[at].isidentifier():
            self._miss(at)
            character = _CHARACTER.match(text, at)
            return Word("bad", character[0] if character else text[at], at)
        end = at + 1
        while end < len(text) and ("_" + text[end]).isidentifier():
            end += 1
        return Word("reserved" if text[at:end] in RESERVED else "name", text[at:end], at)

    def _quoted(self, at: int) -> Word:
        found = _TEXT.match(self.text, at)
        end = found.end() if found else at + 1
        following = self.text[end:end + 1]
        if following == '"':
            return Word("other", self.text[at:end + 1], at)
        self._miss(at if following in ("", "\n") else end)
        recovered = _ROUGH_TEXT.match(self.text, at)
        return Word("other", recovered[0] if recovered else self.text[at:end], at)


class WordReader:
    """Reads words one after the other: what readers of grammars and of aspects share."""

    def __init__(self, scan: Scan) -> None:
        """Of the words of a scan. Raises GrammarFault as that."""
        self.scan = scan
        self.words = scan.words()
        self.at = 0

    @property
    def next(self) -> Word:
        """The word that is read next."""
        return self.words[self.at]

    def fault(self) -> GrammarFault:
        """That nothing goes on with the next word."""
        return self.scan.fault("syntax", self.next.at)

    def take(self, kind: str, *texts: str) -> Optional[Word]:
        """The next word, where it is of the kind and one of these texts; it is read then."""
        word = self.next
        if word.kind != kind or (texts and word.text not in texts):
            return None
        self.at += 1
        return word

    def want(self, kind: str, *texts: str) -> Word:
        """The next word as `take` has it. Raises GrammarFault where it is another one."""
        word = self.take(kind, *texts)
        if word is None:
            raise self.fault()
        return word
