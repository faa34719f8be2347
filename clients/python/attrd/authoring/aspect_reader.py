"""Reads `.jrag` texts, as far as that is possible: a declaration that can't be read ends where the next one begins."""
from __future__ import annotations

from typing import List, Optional, Tuple

from ..errors import GrammarFault
from ..scanning import Scan, Word
from .aspect_tree import Binding, Declaration, Expression, Form, Piece
from .java_reader import BEGINNINGS, MODIFIERS, JavaReader

FOLDS = ("exists", "first", "sum")
# Operators that lean to the left, from the weakest row to the strongest; `instanceof` stands in the row of `<`.
ROWS: Tuple[Tuple[str, ...], ...] = (("||",), ("&&",), ("==", "!="), ("<", "<=", ">", ">=", "instanceof"), ("+", "-"), ("*", "/", "%"))
# What follows a `( Name )` that is a cast.
BEHIND_CAST = (("sign", "("), ("reserved", "this"), ("reserved", "null"), *(("reserved", it) for it in FOLDS))


def words_of(forms: str) -> List[str]:
    """The words of a list of forms; all of JastAdd's language takes in circular attributes."""
    words = forms.split(",")
    return [*words, "circular"] if "jastadd" in words else words


class AspectReader(JavaReader):
    """Reads the declarations of a file; with the forms that are read, which are left out else, as `circular`, with commas between them."""

    def __init__(self, text: str, forms: str = "") -> None:
        super().__init__(Scan(text, is_lenient=True))
        self.forms = words_of(forms)
        self.bound: Tuple[Binding, ...] = ()
        self.made: List[Expression] = []
        self.pieces: List[Piece] = []
        self.locals: List[Tuple[Word, Binding]] = []
        self.untaken: List[int] = []

    def file(self) -> List[Declaration]:
        """All declarations, those that this profile doesn't take among them."""
        found: List[Declaration] = []
        while self.next.kind != "end":
            if self.take("reserved", "aspect"):
                self.take("name")
                self.take("sign", "{")
            elif not self.take("sign", "}"):
                found.append(self.declaration())
        return found

    def declaration(self) -> Declaration:
        """The next declaration. What isn't whole ends where it ends in JastAdd2, or before the next word with which one may begin."""
        first, begun = self.next, self.at
        declared = Declaration(self.form(), first.at)
        self.bound, self.made, self.pieces = (), declared.made, declared.pieces
        self.locals, self.untaken = declared.locals, declared.untaken
        declared.sort = self.sort() if declared.form == "other" else ""
        try:
            self._read(declared)
            declared.is_whole = declared.form != "other"
        except (GrammarFault, RecursionError):
            pass
        if not declared.is_whole:
            self.at = max(self.end_of(begun, declared.sort == "contributes"), begun + 1)
        declared.end = self.words[self.at - 1].end
        return declared

    def form(self) -> str:
        """Whether a declaration of syn, inh or eq is next, or another one."""
        return self.next.text if self.next.text in BEGINNINGS and self.next.kind == "reserved" else "other"

    def _read(self, declared: Declaration) -> None:
        if declared.form == "other":
            if declared.sort in ("method", "coll"):
                self.member(declared)
            return
        self.at += 1
        self.equation(declared) if declared.form == "eq" else self.attribute(declared)

    def member(self, declared: Declaration) -> None:
        """The head of a method or of a collection attribute, which might be that of an attribute. Raises GrammarFault."""
        self.at = self._behind_modifiers(self.at + (declared.sort == "coll"))
        self._angles()
        declared.kind = self.kind("kind")
        declared.of = self.want("name")
        self.want("sign", ".")
        declared.name = self.attribute_name()
        self.parameters(declared)

    def attribute(self, declared: Declaration) -> None:
        begun = self.at
        self.front()
        declared.is_lazy = any((it.kind, it.text) == ("reserved", "lazy") for it in self.words[begun:self.at])
        declared.kind = self.kind("kind")
        declared.of = self.want("name")
        self.want("sign", ".")
        declared.name = self.attribute_name()
        self.parameters(declared)
        self.circular(declared)
        if not self.take("sign", ";"):
            self.body(declared)

    def front(self) -> None:
        """Passes over the words between `syn` or `inh` and the kind."""
        is_lazy = False
        while True:
            word, following = self.next, self.word(self.at + 1)
            if self.take("reserved", "nta"):
                self.left_out(word, "nta")
            elif self.take("reserved", "circular"):
                self.pass_brackets("[", "]")
                self.left_out(word, "circular misplaced")
            elif self.take("reserved", "lazy"):
                if is_lazy:
                    self.left_out(word, "modifier")
                is_lazy = True
            elif word.text in MODIFIERS and following.kind in ("name", "reserved"):
                self.at += 1
                self.left_out(word, "modifier")
            else:
                return

    def left_out(self, first: Word, sort: str, plain: Optional[str] = " ", reach: int = 0) -> None:
        """Notes that what stands from a word up to here isn't taken."""
        self.pieces.append(Piece(first.at, self.words[self.at - 1].end, sort, plain, reach))

    def circular(self, declared: Declaration) -> None:
        """Passes over `circular [..]`, which isn't taken unless it is read, the kind is boolean, and it starts from a constant."""
        first = self.next
        if not self.take("reserved", "circular"):
            return
        declared.is_circular, begun = True, self.at
        self.pass_brackets("[", "]")
        is_boolean = declared.kind is not None and declared.kind.text == "boolean"
        is_read = "circular" in self.forms and is_boolean
        start = [it.text for it in self.words[begun + 1:self.at - 1]]
        if not is_read or start not in (["true"], ["false"]):
            self.left_out(first, "circular start" if is_read else "circular", "circular [false]" if is_read else " ", self.next.at)
        while self.next.text == "circular":
            first = self.next
            self.at += 1
            self.pass_brackets("[", "]")
            self.left_out(first, "circular misplaced")

    def equation(self, declared: Declaration) -> None:
        declared.of = self.want("name")
        self.want("sign", ".")
        if self.word(self.at + 1).text == "(" and self._is_for_component():
            declared.getter = self.want("name")
            declared.accessor = self.accessor(declared.getter.text)
            self.want("sign", "(")
            self.index(declared)
            self.want("sign", ")")
            self.want("sign", ".")
        declared.name = self.attribute_name()
        self.parameters(declared)
        if self.next.text == "circular":
            first = self.next
            self.at += 1
            self.pass_brackets("[", "]")
            self.left_out(first, "circular misplaced")
        self.body(declared)

    def index(self, declared: Declaration) -> None:
        """The name of an index; none is taken where the equation is for all components."""
        first = self.next
        if self.take("reserved", "int"):
            declared.index = self.want("name")
            self.bound += (Binding(declared.index),)
            if declared.accessor == "getChild":
                self.left_out(first, "index", "")

    def accessor(self, name: str) -> str:
        """The accessor of the component that an equation names."""
        return name

    def _is_for_component(self) -> bool:
        at = self.at
        while at < len(self.words) - 1 and self.words[at].text not in (")", ";", "{", "}", "="):
            at += 1
        return self.words[at].text == ")" and at + 1 < len(self.words) and self.words[at + 1].text == "."

    def attribute_name(self) -> Word:
        """The name of an attribute; one that is a reserved word isn't taken."""
        word = self.next
        if word.text in FOLDS and word.kind == "reserved" and self.word(self.at + 1).text == "(":
            self.at += 1
            self.left_out(word, "reserved", f"{word.text}__")
            return word
        return self.want("name")

    def parameters(self, declared: Declaration) -> None:
        self.want("sign", "(")
        while not self.take("sign", ")"):
            if declared.parameters:
                self.want("sign", ",")
            self.final()
            kind = self.kind("parameter kind")
            declared.parameters.append(Binding(self.want("name"), kind))
        declared.parameters_end = self.words[self.at - 1].end
        self.bound += tuple(declared.parameters)

    def final(self) -> None:
        """Passes over `final`, which isn't taken."""
        word = self.next
        if self.take("name", "final"):
            self.left_out(word, "modifier")

    def kind(self, sort: str) -> Word:
        """A kind: int, boolean, String or the name of a class. A type of Java isn't taken. Raises GrammarFault where none stands here."""
        first = self.next
        found = self.java_kind()
        if found is None:
            raise self.fault()
        if found.kind == "java":
            self.left_out(first, sort, "boolean" if sort == "kind" else "String")
        return found

    def body(self, declared: Declaration) -> None:
        begun, first = self.at, self.next
        if self.take("sign", "="):
            declared.body = self.expression()
            self.want("sign", ";")
            return
        self.want("sign", "{")
        if self.take("reserved", "return"):
            body = self.expression()
            self.want("sign", ";")
            if self.take("sign", "}"):
                declared.body = body
                return
        sort = self.statement()
        self.at = self.end_of(begun)
        if self.words[self.at - 1].text != "}" or self.at - 1 == begun:
            raise self.fault()
        self.left_out(first, sort, None)

    def make(self, form: Form, start: int, word: Word, parts: List[Expression], has_receiver: bool = False) -> Expression:
        """An expression that ends behind the last word that was read."""
        made = Expression(form, start, self.words[self.at - 1].end, word, parts, self.bound, has_receiver)
        self.made.append(made)
        return made

    def expression(self) -> Expression:
        """An expression of any form."""
        condition = self.row(0)
        sign = self.take("sign", "?")
        if sign is None:
            return condition
        then = self.expression()
        self.want("sign", ":")
        return self.make(Form.CHOICE, condition.start, sign, [condition, then, self.expression()])

    def row(self, number: int) -> Expression:
        if number == len(ROWS):
            return self.unary()
        left = self.row(number + 1)
        while True:
            word = self.next
            if word.text not in ROWS[number] or word.kind not in ("sign", "reserved"):
                return left
            self.at += 1
            if word.text == "instanceof":
                left = self.make(Form.INSTANCE, left.start, self.want("name"), [left])
            else:
                left = self.make(Form.BINARY, left.start, word, [left, self.row(number + 1)])

    def unary(self) -> Expression:
        sign = self.take("sign", "!", "-")
        if sign is not None:
            return self.make(Form.UNARY, sign.at, sign, [self.unary()])
        cast = self._cast()
        if cast is None:
            return self.calls(self.operand())
        start, word = self.words[self.at - 3].at, cast
        return self.make(Form.CAST, start, word, [self.unary()])

    def _cast(self) -> Optional[Word]:
        """The class of a cast, whose parentheses are read then; None where none stands here."""
        ahead = self.words[self.at:self.at + 4]
        if len(ahead) < 4 or [it.text for it in ahead[::2]][:2] != ["(", ")"] or ahead[1].kind != "name":
            return None
        if ahead[3].kind != "name" and (ahead[3].kind, ahead[3].text) not in BEHIND_CAST:
            return None
        self.at += 3
        return ahead[1]

    def operand(self) -> Expression:
        word = self.next
        if word.kind == "other":
            self.at += 1
            return self.make(Form.TEXT if word.text.startswith('"') else Form.NUMBER, word.at, word, [])
        if self.take("reserved", "true", "false", "null", "this"):
            return self.make(Form.CONSTANT, word.at, word, [])
        if self.take("reserved", *FOLDS):
            return self.fold(word) if self.word(self.at + 2).text == ":" or self.next.text != "(" else self.reserved_call(word)
        if self.take("sign", "("):
            inner = self.expression()
            self.want("sign", ")")
            return self.make(Form.GROUP, word.at, word, [inner])
        self.want("name")
        if self.next.text == "(":
            return self.call(word.at, word, [])
        if word.text == "new" and self.next.kind in ("name", "reserved"):
            return self.creation(word)
        return self.make(Form.NAME, word.at, word, [])

    def creation(self, word: Word) -> Expression:
        """What is made by `new`, which isn't taken."""
        self.java_kind()
        for opening, closing in (("(", ")"), ("[", "]"), ("{", "}")):
            self.pass_brackets(opening, closing)
        self.left_out(word, "new", "null")
        return self.make(Form.CONSTANT, word.at, Word("reserved", "null", word.at), [])

    def calls(self, receiver: Expression) -> Expression:
        """The receiver with all calls behind it. A field of Java isn't taken, and neither is what it stands in."""
        null, behind_field = Word("reserved", "null", receiver.start), 0
        while self.take("sign", "."):
            name = self.call_name()
            if self.next.text == "(" or self.next.kind == "end":
                receiver = self.call(receiver.start, name, [receiver])
            else:
                behind_field = behind_field or self.next.at
                receiver = self.make(Form.CONSTANT, receiver.start, null, [])
        if behind_field:
            self.left_out(null, "field of Java", None, behind_field)
            return self.make(Form.CONSTANT, receiver.start, null, [])
        return receiver

    def call_name(self) -> Word:
        """The name of a call; one that is a reserved word isn't taken."""
        word = self.next
        if self.take("reserved", *FOLDS):
            self.left_out(word, "reserved", f"{word.text}__")
            return word
        return self.want("name")

    def reserved_call(self, word: Word) -> Expression:
        """A call of what can't be an attribute, since its name is reserved."""
        self.left_out(word, "reserved", f"{word.text}__", self.word(self.at + 1).end)
        return self.call(word.at, word, [])

    def call(self, start: int, word: Word, parts: List[Expression]) -> Expression:
        has_receiver = bool(parts)
        self.want("sign", "(")
        first = True
        while not self.take("sign", ")"):
            if not first:
                self.want("sign", ",")
            parts.append(self.expression())
            first = False
        return self.make(Form.CALL, start, word, parts, has_receiver)

    def fold(self, word: Word) -> Expression:
        self.want("sign", "(")
        name = self.want("name")
        self.want("sign", ":")
        among = self.calls(self.operand())
        self.want("sign", ")")
        self.want("sign", "{")
        outer = self.bound
        self.bound += (Binding(name, None, among),)
        body = self.expression()
        self.bound = outer
        self.want("sign", "}")
        return self.make(Form.FOLD, word.at, word, [among, body])
