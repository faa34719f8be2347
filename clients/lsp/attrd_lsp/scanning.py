"""What a parser by hand is made on: the tokens of a text, one after the other, and going on behind a fault.

A language may have a parser of any other make: what counts is what it answers."""
from __future__ import annotations

from typing import AbstractSet, Callable, List, NamedTuple, Optional, Pattern, Sequence, Tuple

from .phrases import Fault, Phrase
from .positions import Span


# The sorts of tokens that are always written alike.
FIXED = ("word", "sign")


class Token(NamedTuple):
    """A piece of the text. Its sort is the name of its group in the pattern, `word` for a word of the language, or `end` behind all."""

    sort: str
    text: str
    span: Span

    @property
    def shown(self) -> str:
        """The token, for a message."""
        return self.text if self.sort == "end" else f"'{self.text}'"


class Unexpected(Exception):
    """Something can't be read on."""

    def __init__(self, fault: Fault) -> None:
        super().__init__(fault.text)
        self.fault = fault


def right(sort: str, text: str) -> Optional[str]:
    """That nothing is wrong with a token."""
    return None


def tokens_of(
    pattern: Pattern[str], text: str, words: AbstractSet[str], wrong: Callable[[str, str], Optional[str]] = right
) -> Tuple[List[Token], List[Fault]]:
    """The tokens of the text, with one `end` behind them, and their faults.

    Each alternative of the pattern is a named group: `blank` is passed over, `other` is a fault, `name` is a `word` where it is one of
    the words. `wrong` tells for a sort and a text what is wrong with such a token, or None."""
    tokens: List[Token] = []
    faults: List[Fault] = []
    made = tuple.__new__  # as Token and Span are made, in half the time
    for it in pattern.finditer(text):
        sort = it.lastgroup or "other"
        if sort == "blank":
            continue
        word, span = it.group(), made(Span, it.span())
        fault = f"unexpected character {word!r}" if sort == "other" else wrong(sort, word)
        if fault is not None:
            faults.append(Fault(fault, span))
        if sort != "other":
            tokens.append(made(Token, ("word" if sort == "name" and word in words else sort, word, span)))
    last = tokens[-1].span.end if tokens else 0
    return [*tokens, Token("end", "the end", Span(last, last))], faults


class Scanner:
    """Goes through tokens, and collects faults. A parser is made on it, with a method for each form of its grammar.

    `token` is the one that is next, and `index` its number."""

    def __init__(self, tokens: List[Token], faults: List[Fault]) -> None:
        self.tokens, self.faults = tokens, faults
        self.index, self.token = 0, tokens[0]

    @property
    def behind(self) -> int:
        """Where the token before the next one ends."""
        return self.tokens[self.index - 1].span.end if self.index > 0 else 0

    @property
    def last_place(self) -> Span:
        """The last character of the token before the next one."""
        return Span(max(self.behind - 1, 0), self.behind)

    def at(self, *texts: str) -> bool:
        """Whether the next token is one of these words and signs."""
        return self.token.text in texts and self.token.sort in FIXED

    def take(self) -> Token:
        """The next token; the one behind it is next then."""
        token = self.token
        if token.sort != "end":
            self.index += 1
            self.token = self.tokens[self.index]
        return token

    def took(self, text: str) -> bool:
        """Whether the next token is this word or sign, which is taken then."""
        found = self.token.text == text and self.token.sort in FIXED
        if found:
            self.take()
        return found

    def unexpected(self, wanted: str) -> Unexpected:
        """The fault that the next token is another one than is wanted."""
        place = self.last_place if self.token.sort == "end" else self.token.span
        return Unexpected(Fault(f"expected {wanted}, found {self.token.shown}", place))

    def name(self, wanted: str) -> Token:
        """The name that is next. Raises Unexpected where there is none."""
        if self.token.sort != "name":
            raise self.unexpected(wanted)
        return self.take()

    def want(self, text: str) -> Token:
        """The word or sign, which is next; where it isn't, that is a fault, and reading goes on as if it were there."""
        if self.at(text):
            return self.take()
        self.missing(f"'{text}'")
        return Token("sign", text, Span(self.behind, self.behind))

    def missing(self, wanted: str) -> None:
        """The fault that something is missing behind the last token; only the first one is told of each place."""
        place = self.last_place
        if all(it.span != place for it in self.faults):
            self.faults.append(Fault(f"expected {wanted} before {self.token.shown}", place))

    def recovered(self, read: Callable[[], Phrase], behind: str, before: Sequence[str] = ()) -> List[Phrase]:
        """What is read; or nothing and a fault, and all is passed over up to one sign and with it, or up to another one."""
        start = self.index
        try:
            return [read()]
        except Unexpected as it:
            self.faults.append(it.fault)
            if self.index == start:
                self.take()
            self.pass_over(behind, before)
            return []

    def pass_over(self, behind: str, before: Sequence[str] = ()) -> None:
        """Goes on behind the next one sign, or to the next one of others, or to the end."""
        while self.token.sort != "end" and not self.at(*before):
            if self.take().text == behind:
                return

    def found_faults(self) -> List[Fault]:
        """All faults, in the order of their places."""
        return sorted(self.faults, key=lambda it: it.span)
