"""The parser of the sample language, a language for grammars.

    file     = { item }
    item     = "token" Name [ Text ] ";" | Name "=" choice ";"
    choice   = sequence { "|" sequence }
    sequence = element { element }
    element  = Name | Text | "{" choice "}" | "[" choice "]" | "(" choice ")"

`//` begins a comment. A text stands between quotes, in one line."""
from __future__ import annotations

import re
from typing import Callable, Dict, List

from attrd_lsp import Parsed, Phrase, Span, phrase
from attrd_lsp.scanning import Scanner, tokens_of

TOKEN = re.compile(
    r'(?P<blank>\s+|//[^\n]*)|(?P<name>[^\W\d]\w*)|(?P<text>"[^"\n]*")|(?P<sign>[=;|{}()\[\]])|(?P<other>.)'
)
WORDS = frozenset(["token"])
CLOSED = {"{": "}", "[": "]", "(": ")"}


def parse(text: str) -> Parsed:
    """A file: its tree, as far as it could be read, and its faults."""
    reader = RulesReader(*tokens_of(TOKEN, text, WORDS))
    items: List[Phrase] = []
    while reader.token.sort != "end":
        items += reader.recovered(reader.item, ";")
    return Parsed(phrase("File", Span(0, len(text)), Item=items), reader.found_faults())


class RulesReader(Scanner):
    """Reads a file from its tokens."""

    def item(self) -> Phrase:
        """A token or a rule, with its `;`."""
        start = self.token.span.start
        is_token = self.took("token")
        name = self.name("a name" if is_token else "a rule or 'token'")
        if is_token:
            cells: Dict[str, object] = {"Spelling": self.literal() if self.token.sort == "text" else None}
        else:
            self.want("=")
            cells = {"Body": self.choice()}
        self.want(";")
        kind = "Token" if is_token else "Rule"
        return phrase(kind, Span(start, self.behind), name.span, ID=name.text, **cells)  # type: ignore[arg-type]

    def choice(self) -> Phrase:
        """Sequences between bars; one alone is itself."""
        return self.several("Choice", self.sequence, lambda: self.took("|"))

    def sequence(self) -> Phrase:
        """Elements, one after the other; one alone is itself."""
        return self.several("Sequence", self.element, lambda: self.token.sort in ("name", "text") or self.at(*CLOSED))

    def several(self, kind: str, read: Callable[[], Phrase], goes_on: Callable[[], bool]) -> Phrase:
        """What is read while it goes on: a node of that class, or just the one that there is."""
        found = [read()]
        while goes_on():
            found.append(read())
        return found[0] if len(found) == 1 else phrase(kind, Span(found[0].span.start, self.behind), Expr=found)

    def element(self) -> Phrase:
        """A name, a text, or a choice in braces, brackets or parentheses. Raises Unexpected."""
        start = self.token
        if start.sort == "text":
            return self.literal()
        if start.sort == "name":
            self.take()
            return phrase("Use", start.span, start.span, ID=start.text)
        if not self.at(*CLOSED):
            raise self.unexpected("a name, a text or a part in brackets")
        self.take()
        inner = self.choice()
        self.want(CLOSED[start.text])
        if start.text == "(":
            return inner
        return phrase("Repeated" if start.text == "{" else "Optional", Span(start.span.start, self.behind), Expr=inner)

    def literal(self) -> Phrase:
        """The text that is next."""
        token = self.take()
        return phrase("Literal", token.span, Value=token.text[1:-1])
