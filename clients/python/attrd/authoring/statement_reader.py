"""Reads bodies of statements. What isn't taken of a body is passed over, so that what stands behind it is known, too."""
from __future__ import annotations

from dataclasses import replace
from typing import List, Optional

from ..errors import GrammarFault
from ..scanning import Word
from .aspect_reader import AspectReader
from .aspect_tree import Binding, Declaration
from .statements import Choice, Each, Statement, meaning, searched


class StatementReader(AspectReader):
    """Reads bodies of statements, each as the expression that it means."""

    def __init__(self, text: str, forms: str = "") -> None:
        super().__init__(text, forms)
        # What the first statement is that isn't taken, if there is one, and how many pieces were noted in front of it.
        self._not_taken, self._noted = "", 0

    def body(self, declared: Declaration) -> None:
        if self.next.text != "{":
            super().body(declared)
            return
        begun, first, bound, self._not_taken = self.at, self.next, self.bound, ""
        statements = self._whole_block()
        self.bound = bound
        if statements is None:
            del self.pieces[self._noted:]
            self.at = self.end_of(begun)
            self.left_out(first, self._not_taken, None)
            return
        body = meaning(statements, None)
        is_written = body is None or body in self.made
        declared.body = body if body is None or is_written else replace(body, start=first.at, end=self.words[self.at - 1].end)

    def _whole_block(self) -> Optional[List[Statement]]:
        """A block; None of one that isn't taken, whatever else is wrong with it. Raises GrammarFault."""
        try:
            return self.block()
        except GrammarFault:
            if not self._not_taken:
                raise
            return None

    def _leave_out(self, sort: str) -> None:
        """Notes what a statement is that isn't taken; the first one counts."""
        if not self._not_taken:
            self._not_taken, self._noted = sort, len(self.pieces)

    def block(self) -> Optional[List[Statement]]:
        """The statements between braces; None where one of them isn't taken. Raises GrammarFault."""
        self.want("sign", "{")
        bound, found = self.bound, list[Optional[Statement]]()
        while not self.take("sign", "}"):
            found.append(self.one_statement())
            if self.next.kind == "end":
                self._leave_out(self.statement())
                return None
        self.bound = bound
        taken = [it for it in found if it is not None]
        return taken if len(taken) == len(found) else None

    def one_statement(self) -> Optional[Statement]:
        """The next statement; None where it isn't taken, of which it is noted what it is. Raises GrammarFault."""
        first = self.next
        if self.next.text == "{":
            return self.block()
        if self.take("sign", ";"):
            return []
        if self.take("reserved", "return"):
            value = self.expression()
            self.want("sign", ";")
            return value
        if self.take("name", "if"):
            return self._choice(first)
        if self.take("name", "for"):
            return self._each(first)
        self._leave_out(self.statement())
        self.untaken.append(first.at)
        self._pass_statement()
        return None

    def _choice(self, first: Word) -> Optional[Statement]:
        self.want("sign", "(")
        condition = self.expression()
        self.want("sign", ")")
        then = self.one_statement()
        other: Optional[Statement] = []
        if self.take("name", "else"):
            other = self.one_statement()
        return None if then is None or other is None else Choice(first, condition, then, other)

    def _each(self, first: Word) -> Optional[Statement]:
        begun, bound = self.at, self.bound
        binding = self._head()
        if binding is None:
            self._leave_out("for")
            self.at = begun
            self._pass_head()
        else:
            self.want("sign", ")")
            self.bound += (binding,)
        inner = self.one_statement()
        self.bound = bound
        each = None if inner is None or binding is None else Each(first, binding, inner)
        if each is None or searched(each) is not None:
            return each
        self._leave_out("for")
        return None

    def _head(self) -> Optional[Binding]:
        """The name of a loop with its list; None where the loop has another form. Raises GrammarFault."""
        self.want("sign", "(")
        self.final()
        kind = self.java_kind()
        name = None if kind is None or kind.kind == "java" else self.take("name")
        if kind is None or name is None or not self.take("sign", ":"):
            return None
        binding = Binding(name, None, self.expression())
        self.locals.append((kind, binding))
        return binding

    def _pass_head(self) -> None:
        """Passes over the parentheses of a loop of another form; its variable is bound in what stands behind them."""
        begun = self.at
        if self.take("sign", "("):
            self._local()
        self.at = begun
        self.pass_brackets("(", ")")

    def _pass_statement(self) -> None:
        """Passes over a statement that isn't taken, up to its semicolon or to a block in it. What it asks is read as far as that goes."""
        if self.take("name", "while"):
            self.want("sign", "(")
            self.expression()
            self.want("sign", ")")
            self.one_statement()
            return
        self.final()
        self._local()
        while self.next.kind != "end" and self.next.text not in ("{", "}") and not self.take("sign", ";"):
            self._pass_word()

    def _pass_word(self) -> None:
        """Passes over an expression, or over a word that begins none."""
        begun = self.at
        try:
            self.expression()
        except GrammarFault:
            self.at = begun
        self.at = max(self.at, begun + 1)

    def _local(self) -> None:
        """Binds a local variable, if `KIND NAME` is next."""
        begun = self.at
        kind = self.java_kind()
        name = None if kind is None else self.take("name")
        if kind is None or name is None:
            self.at = begun
            return
        binding = Binding(name, kind)
        self.locals.append((kind, binding))
        self.bound += (binding,)
