"""The concrete syntax of the tutorial's language, and its parser.

    program     = { class }
    class       = "class" Name [ "extends" Name ] "{" { declaration } block "}"
    block       = "{" { statement } "}"
    statement   = block | declaration | "show" expression ";"
    declaration = [ Name ] Name [ "=" expression ] ";"
    expression  = sum { "<" sum }
    sum         = operand { "+" operand }
    operand     = primary { "." Name }
    primary     = Name | number | "true" | "false" | "(" expression ")"

Blanks and comments, from // to the end of the line, stand between words. The first name of a declaration, where it has
two, is its kind. `class` is a word that stands nowhere else, so each class can be read by itself: `read_class` reads one.

The parser goes on behind a fault. A statement with a fault is left out of the tree, or is read as if the missing word
were there; reading goes on behind its `;`, or at the next brace."""
from __future__ import annotations

import re
from typing import Callable, List, Optional

from ..phrases import Fault, Parsed, Phrase, phrase
from ..positions import Span
from ..scanning import Scanner, Token, Unexpected, tokens_of

KEYWORDS = frozenset(["class", "extends", "show", "true", "false"])
LARGEST_NUMBER = 2147483647
LONGEST_NAME = 4096
DEEPEST = 512
BRACES = ("{", "}")

TOKEN = re.compile(
    r"(?P<blank>(?:[ \t\r\n\f\ufeff]+|//[^\r\n]*)+)|(?P<name>[^\W\d]\w*)|(?P<number>[0-9]+\w*)|(?P<sign>[{}();.=+<])|(?P<other>.)"
)


def wrong_token(sort: str, text: str) -> Optional[str]:
    """What is wrong with a token of that sort, and None where nothing is."""
    if sort == "name" and len(text) * 4 > LONGEST_NAME and len(text.encode()) > LONGEST_NAME:
        return f"a name has at most {LONGEST_NAME} bytes"
    if sort == "number" and not is_number(text):
        return f"a number is digits, and at most {LARGEST_NUMBER}"
    return None


def is_number(text: str) -> bool:
    """Whether the text is a number of the language."""
    digits = text.lstrip("0")
    return text.isascii() and text.isdigit() and len(digits) <= 10 and int(digits or "0") <= LARGEST_NUMBER


def is_name(text: str) -> bool:
    """Whether the text could be a name in a program."""
    it = TOKEN.fullmatch(text)
    return it is not None and it.lastgroup == "name" and text not in KEYWORDS and wrong_token("name", text) is None


def read_class(text: str) -> Parsed:
    """The class whose word `class` the text begins with, and the faults in the order of their places.

    It is None where even the name of the class is missing."""
    reader = Reader(text)
    found = reader.class_declaration()
    if found is not None and found.tree.depth >= DEEPEST:
        reader.faults.append(Fault(f"the class nests more than {DEEPEST} deep", found.name or found.span))
    return Parsed(found, reader.found_faults())


def read_front(text: str) -> List[Fault]:
    """The faults of a text that stands before the first class: anything but blanks and comments is one."""
    reader = Reader(text)
    if reader.token.sort != "end":
        reader.faults.append(reader.unexpected("'class'").fault)
    return reader.found_faults()


def read_statement(text: str) -> Parsed:
    """The statement, block or field that the text is, and the faults in the order of their places; it is None where there is none.

    What nests half as deep as it may is a fault here: how deep the statement stands isn't known."""
    reader = Reader(text, DEEPEST // 2)
    found = reader.without_fault(reader.statement)
    if reader.token.sort != "end":
        reader.faults.append(reader.unexpected("the end").fault)
    return Parsed(found[0] if found else None, reader.found_faults())


class Reader(Scanner):
    """Reads one class from its tokens, and collects faults. As many as `nested` braces and parentheses are open around it."""

    def __init__(self, text: str, nested: int = 0) -> None:
        super().__init__(*tokens_of(TOKEN, text, KEYWORDS, wrong_token))
        self.nested = nested

    def without_fault(self, read: Callable[[], Phrase]) -> List[Phrase]:
        """What is read, or nothing and a fault; then the rest of the statement is passed over."""
        nested = self.nested
        found = self.recovered(read, ";", BRACES)
        self.nested = nested
        return found

    def semicolon(self) -> None:
        """The `;` behind a statement. Where it is missing, what can't begin a statement is passed over."""
        if self.took(";"):
            return
        self.want(";")
        if self.token.sort != "name" and not self.at("{", "}", "show"):
            self.pass_over(";", BRACES)

    # The grammar

    def class_declaration(self) -> Optional[Phrase]:
        start = self.take().span.start
        try:
            name = self.name("the name of the class")
        except Unexpected as it:
            self.faults.append(it.fault)
            return None
        above = self.superclass() if self.took("extends") else None
        self.want("{")
        fields: List[Phrase] = []
        while self.token.sort != "end" and not self.at("{", "}"):
            fields += self.without_fault(self.declaration)
        block = self.class_block()
        closed = self.at("}")
        self.want("}")
        span = Span(start, self.behind)
        if closed and self.token.sort != "end":
            self.faults.append(self.unexpected("'class' or the end").fault)
        return phrase("ClassDecl", span, name.span, ID=name.text, Super=above, Field=tuple(fields), Block=block)

    def superclass(self) -> Optional[Phrase]:
        if self.token.sort == "name":
            return kind_use(self.take())
        self.missing("the name of a class")
        return None

    def class_block(self) -> Phrase:
        if self.at("{"):
            return self.block()
        self.missing("the block of the class")
        return phrase("Block", Span(self.behind, self.behind), Stmt=())

    def block(self) -> Phrase:
        start = self.deeper().span.start
        statements: List[Phrase] = []
        while self.token.sort != "end" and not self.at("}"):
            statements += self.without_fault(self.statement)
        self.nested -= 1
        self.want("}")
        return phrase("Block", Span(start, self.behind), Stmt=tuple(statements))

    def deeper(self) -> Token:
        """A brace or parenthesis that opens. Raises Unexpected where too many are open."""
        if self.nested >= DEEPEST:
            raise Unexpected(Fault(f"the class nests more than {DEEPEST} deep", self.token.span))
        self.nested += 1
        return self.take()

    def statement(self) -> Phrase:
        if self.at("{"):
            return self.block()
        if self.at("show"):
            return self.show()
        return self.declaration()

    def show(self) -> Phrase:
        start = self.take().span.start
        shown_value = self.expression()
        self.semicolon()
        return phrase("Show", Span(start, self.behind), Expr=shown_value)

    def declaration(self) -> Phrase:
        first = self.name("a declaration, 'show' or a block")
        declared = None
        name = first
        if self.token.sort == "name":
            declared, name = kind_use(first), self.take()
        value = self.expression() if self.took("=") else None
        self.semicolon()
        return phrase("Decl", Span(first.span.start, self.behind), name.span, ID=name.text, Declared=declared, Init=value)

    def expression(self) -> Phrase:
        left = self.sum()
        while self.took("<"):
            right = self.sum()
            left = phrase("Less", Span(left.span.start, right.span.end), Left=left, Right=right)
        return left

    def sum(self) -> Phrase:
        left = self.operand()
        while self.took("+"):
            right = self.operand()
            left = phrase("Plus", Span(left.span.start, right.span.end), Left=left, Right=right)
        return left

    def operand(self) -> Phrase:
        left = self.primary()
        while self.took("."):
            name = self.name("the name of a field")
            left = phrase("Dot", Span(left.span.start, name.span.end), name.span, Left=left, ID=name.text)
        return left

    def primary(self) -> Phrase:
        token = self.token
        if token.sort == "name":
            self.take()
            return phrase("Name", token.span, token.span, ID=token.text)
        if token.sort == "number":
            self.take()
            return phrase("Num", token.span, Value=int(token.text) if is_number(token.text) else 0)
        if self.at("true", "false"):
            self.take()
            return phrase("Truth", token.span, Value=token.text == "true")
        if self.at("("):
            return self.parenthesis()
        raise self.unexpected("an expression")

    def parenthesis(self) -> Phrase:
        self.deeper()
        inner = self.expression()
        self.nested -= 1
        self.want(")")
        return inner


def kind_use(name: Token) -> Phrase:
    """The use of a kind that is a name."""
    return phrase("KindUse", name.span, name.span, ID=name.text)
