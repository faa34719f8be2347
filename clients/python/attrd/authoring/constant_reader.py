"""Reads constant nonterminal attributes: trees and lists of trees that are written down behind `new`, with nothing in them that is computed."""
from __future__ import annotations

from typing import Callable, List, Optional

from ..errors import GrammarFault
from ..scanning import Word
from .aspect_tree import Declaration, Expression, Form, Piece
from .statement_reader import StatementReader

# What stands for a list or an optional behind `new`.
CONTAINERS = ("List", "Opt")


class ConstantReader(StatementReader):
    """Reads `syn nta T C.name() = new X(..);` and `syn nta List<T> C.getNamesList() = new List<T>()..;`. What isn't written down is one
    piece that isn't taken."""

    def attribute(self, declared: Declaration) -> None:
        begun = self.at
        word = self._nta()
        if word is None or declared.form != "syn":
            self.at = begun
            super().attribute(declared)
            return
        first = self.at
        kind = self.java_kind()
        if kind is None:
            raise self.fault()
        declared.kind = kind
        declared.element = element = self._element(first)
        declared.of = self.want("name")
        self.want("sign", ".")
        declared.name = self.attribute_name()
        self.parameters(declared)
        component = component_named(declared.name.text, element is not None)
        tree = None
        if component and not declared.parameters:
            tree = self._list() if element is not None else self._tree(self._node) if kind.kind == "name" else None
        if tree is None:
            self._leave_body(declared, word)
        else:
            declared.constant, declared.body, declared.component = word, tree, component

    def _element(self, first: int) -> Optional[Word]:
        """The class of the elements, where just `List<Y>` was read from a word on."""
        words = self.words[first:self.at]
        is_list = [it.text for it in words[:2]] == ["List", "<"] and [it.kind for it in words[2:]] == ["name", "sign"]
        return words[2] if is_list else None

    def _nta(self) -> Optional[Word]:
        """The word `nta`, with what stands beside it; None where it isn't there."""
        found: Optional[Word] = None
        while self.next.text in ("lazy", "final") or (found is None and self.next.text == "nta"):
            found = self.take("reserved", "nta") or found
            self.at += self.next.text in ("lazy", "final")
        return found

    def _leave_body(self, declared: Declaration, word: Word) -> None:
        """Passes over a body that isn't taken, of which the expressions are read."""
        noted, begun = len(self.pieces), self.at
        try:
            if not self.take("sign", ";"):
                self.body(declared)
        except GrammarFault:
            self.at = self.end_of(begun)
        del self.pieces[noted:]
        if declared.body is None:
            null = Word("reserved", "null", declared.parameters_end)
            declared.body = Expression(Form.CONSTANT, null.at, null.at, null)
        self.pieces.append(Piece(word.at, word.end, "nta", " ", self.words[self.at - 1].end))

    def _tree(self, written: Callable[[], Optional[Expression]]) -> Optional[Expression]:
        """What is written down, with what stands around it; None where another body stands here."""
        begun, noted = self.at, len(self.made)
        is_block = self.take("sign", "{") is not None
        is_begun = self.take("reserved", "return") if is_block else self.take("sign", "=")
        tree = written() if is_begun else None
        if tree is not None and self.take("sign", ";") and (not is_block or self.take("sign", "}")):
            return tree
        self.at = begun
        del self.made[noted:]
        return None

    def _list(self) -> Optional[Expression]:
        """A list that is written down, or made by statements; None where another body stands here."""
        found = self._tree(self._new_list)
        if found is not None:
            return found
        begun, noted = self.at, len(self.made)
        found = self._built()
        if found is None:
            self.at = begun
            del self.made[noted:]
        return found

    def _new_list(self) -> Optional[Expression]:
        """`new List()` with what is added to it; None where something else stands here."""
        return self._container() if self.next.text == "new" and self.word(self.at + 1).text == "List" else None

    def _built(self) -> Optional[Expression]:
        """The list of a block that makes it, adds elements one by one, and returns it; None where another body stands here."""
        name = self._local_list() if self.take("sign", "{") else None
        made = self._new_list() if name is not None and self.take("sign", "=") else None
        if name is None or made is None or not self.take("sign", ";"):
            return None
        while self.take("name", name):
            node = self._added_one() if self.take("sign", ".") else None
            if node is None or not self.take("sign", ";"):
                return None
            made.parts.append(node)
        is_ended = self.take("reserved", "return") and self.take("name", name) and self.take("sign", ";") and self.take("sign", "}")
        return made if is_ended else None

    def _local_list(self) -> Optional[str]:
        """The name of a local variable of a kind `List<Y>`; None where something else stands here."""
        is_list = self.take("name", "List") and self.take("sign", "<") and self.take("name") and self.take("sign", ">")
        name = self.take("name") if is_list else None
        return None if name is None else name.text

    def _node(self) -> Optional[Expression]:
        """`new Class(..)`; None where something else stands here."""
        first = self.next
        word = self.take("name") if self.take("name", "new") else None
        if word is None or word.text in CONTAINERS or not self.take("sign", "("):
            return None
        parts = self._several(self._part)
        return None if parts is None else self.make(Form.NEW, first.at, word, parts)

    def _several(self, one: Callable[[], Optional[Expression]]) -> Optional[List[Expression]]:
        """What stands up to the closing parenthesis, with commas between; None where one of these is none."""
        found: List[Expression] = []
        while not self.take("sign", ")"):
            part = one() if not found or self.take("sign", ",") else None
            if part is None:
                return None
            found.append(part)
        return found

    def _part(self) -> Optional[Expression]:
        """What stands for a component: a literal, a node, a list or an optional."""
        word = self.next
        if word.text == "new":
            following = self.word(self.at + 1)
            return self._container() if following.kind == "name" and following.text in CONTAINERS else self._node()
        if self.take("reserved", "true", "false"):
            return self.make(Form.CONSTANT, word.at, word, [])
        sign = self.take("sign", "-")
        value = self.next
        if value.kind != "other" or (sign is not None and value.text.startswith('"')):
            return None
        self.at += 1
        literal = self.make(Form.TEXT if value.text.startswith('"') else Form.NUMBER, value.at, value, [])
        return literal if sign is None else self.make(Form.UNARY, word.at, sign, [literal])

    def _container(self) -> Optional[Expression]:
        """`new List()` with what is added to it, or `new Opt()` with its node in the parentheses."""
        first, word = self.next, self.word(self.at + 1)
        self.at += 2
        self._angles()
        if not self.take("sign", "("):
            return None
        inside = self._several(self._node)
        if inside is None or len(inside) > (word.text == "Opt"):
            return None
        added = self._added() if word.text == "List" else []
        return None if added is None else self.make(Form.NEW, first.at, word, [*inside, *added])

    def _added(self) -> Optional[List[Expression]]:
        """What is added to a list, by `.add(..)` each."""
        found: List[Expression] = []
        while self.take("sign", "."):
            node = self._added_one()
            if node is None:
                return None
            found.append(node)
        return found

    def _added_one(self) -> Optional[Expression]:
        """`add(new Class(..))`; None where something else stands here."""
        node = self._node() if self.take("name", "add") and self.take("sign", "(") else None
        return node if node is not None and self.take("sign", ")") else None


def component_named(name: str, is_list: bool) -> str:
    """The component in which a constant of this name stands: what follows `get`, and of a list stands before `List`; empty where a list has
    another name."""
    if is_list:
        return name[len("get"):-len("List")] if len(name) > len("getList") and name.startswith("get") and name.endswith("List") else ""
    return name[len("get"):] if len(name) > len("get") and name.startswith("get") else name
