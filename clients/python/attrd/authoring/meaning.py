"""What the names in a grammar and its aspects mean: where each is declared, where it is used, and what there is to tell of it."""
from __future__ import annotations

import re
from dataclasses import dataclass
from typing import Iterator, List, NamedTuple, Optional, Sequence, Tuple

from ..grammar import Shape
from ..scanning import Word
from .aspect_tree import Binding, Declaration, Expression, Form
from .java_reader import KINDS
from .specification import Placed, Specification

# What a name means: a class, a component of a class, an attribute, or a name that is bound in one declaration.
Key = Tuple[str, ...]
_COMMENT = re.compile(r"(?:[ \t]*//[^\n]*\n|[ \t]*/\*.*?\*/[ \t]*\n)+[ \t]*\Z", re.S)


class Place(NamedTuple):
    """A stretch of a file's text."""

    file: str
    start: int
    end: int


@dataclass(frozen=True)
class Meaning:
    """What a word means: its own place, the places of its declarations, and a text that tells of it."""

    place: Place
    key: Key
    declared: Tuple[Place, ...]
    told: str


class Names:
    """The meanings of all words of a specification."""

    def __init__(self, specification: Specification) -> None:
        self.specification = specification
        self.meanings: List[Meaning] = [*self._of_grammar(), *self._of_aspects()]

    def at(self, file: str, offset: int) -> Optional[Meaning]:
        """The meaning of the word at an offset, or just before it."""
        return next((it for it in self.meanings if it.place.file == file and it.place.start <= offset <= it.place.end), None)

    def references(self, meaning: Meaning) -> List[Place]:
        """All places of words that mean the same, the declaration among them, each once."""
        return list(dict.fromkeys(it.place for it in self.meanings if it.key == meaning.key))

    def _of_grammar(self) -> Iterator[Meaning]:
        file = self.specification.grammar_file.name
        for it in self.specification.whole.declared:
            yield from self._class(file, it.name)
            if it.above is not None:
                yield from self._class(file, it.above)
            for part in it.parts:
                if part.shape is not Shape.TOKEN:
                    yield from self._class(file, part.kind)
                yield from self._component(file, part.name, it.name.text, part.name.text)

    def _of_aspects(self) -> Iterator[Meaning]:
        for placed in self.specification.declarations:
            yield from self._header(placed)
            yield from self._locals(placed)
            for expression in placed.declaration.made:
                yield from self._expression(placed, expression)

    def _header(self, placed: Placed) -> Iterator[Meaning]:
        file, it = placed
        kinds = [it.tree_kind, it.of, *(binding.kind for binding in it.parameters)]
        for word in kinds:
            if word is not None and word.text not in KINDS:
                yield from self._class(file, word)
        if it.getter is not None and it.of is not None:
            yield from self._accessor(file, it.getter, it.accessor, it.of.text)
        if it.name is not None and it.of is not None and self.specification.filled(it) is not None:
            yield from self._component(file, it.name, it.of.text, it.component)
        elif it.name is not None and it.of is not None:
            yield from self._attribute(file, it.name, self._declared(placed, it.name.text, it.of.text))
        for binding in [*it.parameters, *([Binding(it.index)] if it.index is not None else [])]:
            yield self._bound(file, binding.name, binding, it)

    def _locals(self, placed: Placed) -> Iterator[Meaning]:
        """The class and the name where a name is bound in a body."""
        file, declaration = placed
        for kind, binding in declaration.locals:
            yield from self._class(file, kind)
            yield self._bound(file, binding.name, binding, declaration)

    def _expression(self, placed: Placed, it: Expression) -> Iterator[Meaning]:
        file, declaration = placed
        if it.form in (Form.CAST, Form.INSTANCE, Form.NEW):
            yield from self._class(file, it.word)
        elif it.form is Form.NAME:
            binding = next((known for known in reversed(it.bound) if known.name.text == it.word.text), None)
            if binding is not None:
                yield self._bound(file, it.word, binding, declaration)
        elif it.form is Form.FOLD:
            own = it.parts[1].bound[-1]
            yield self._bound(file, own.name, own, declaration)
        elif it.form is Form.CALL:
            yield from self._call(file, it, declaration)

    def _call(self, file: str, it: Expression, within: Declaration) -> Iterator[Meaning]:
        of = self.specification.receiver_kind(it, within)
        if of is not None and it.word.text in self.specification.accessors(of):
            yield from self._accessor(file, it.word, it.word.text, of)
        elif of is None or of in self.specification.grammar:
            name, count = it.word.text, len(it.arguments)
            own = None if of is None else self.specification.attribute(of, name, count)
            if own is not None or of is None:
                yield from self._attribute(file, it.word, self.specification.named(name, count) if own is None else [own])

    def _class(self, file: str, word: Word) -> Iterator[Meaning]:
        known = self.specification.classes.get(word.text)
        if known is not None:
            declared = (Place(self.specification.grammar_file.name, known.name.at, known.name.end),)
            yield Meaning(_place(file, word), ("class", word.text), declared, self.told_of_class(word.text))

    def _accessor(self, file: str, word: Word, name: str, of: str) -> Iterator[Meaning]:
        """The meaning of a word that stands for the accessor of that name."""
        accessor = self.specification.accessors(of).get(name)
        if accessor is not None and accessor.constant is not None and self.specification.filled(accessor.constant.declaration) is None:
            yield from self._attribute(file, word, [accessor.constant])
        elif accessor is not None:
            yield from self._component(file, word, accessor.of, accessor.part.name)

    def _component(self, file: str, word: Word, of: str, part: str) -> Iterator[Meaning]:
        known = self.specification.classes.get(of)
        names = [it.name for it in known.parts if it.name.text == part] if known is not None else []
        if names and of in self.specification.grammar:
            constant = self.specification.constant_in(of, part)
            filled = [constant] if constant is not None and self.specification.filled(constant.declaration) is not None else []
            declared = [(self.specification.grammar_file.name, names[0]), *((it.file, it.declaration.name) for it in filled)]
            places = tuple(_place(file, name) for file, name in declared if name is not None)
            yield Meaning(_place(file, word), ("component", of, part), places, self.told_of_component(of, part))

    def _declared(self, placed: Placed, name: str, of: str) -> List[Placed]:
        """The declarations for which a declaration or an equation may be, with an attribute's name and a class."""
        if placed.declaration.is_declaring or placed.declaration.constant is not None:
            return [placed]
        count = len(placed.declaration.parameters)
        if placed.declaration.getter is not None:
            return self.specification.inherited(name, count)
        own = self.specification.attribute(of, name, count)
        return self.specification.named(name, count) if own is None else [own]

    def _attribute(self, file: str, word: Word, found: Sequence[Placed]) -> Iterator[Meaning]:
        """The meaning of an attribute's name: that of its declaration, or of all for which it may be."""
        if found:
            first = found[0].declaration
            assert first.of is not None
            name = word.text if first.name is None else first.name.text
            number = [str(len(first.parameters))] if self.specification.overloads(name) else []
            key = ("attribute", *number, name) if first.form == "inh" else ("attribute", *number, first.of.text, name)
            declared = tuple(_place(it.file, it.declaration.name) for it in found if it.declaration.name is not None)
            yield Meaning(_place(file, word), key, declared, "\n".join(self.told_of_attribute(it) for it in found))

    def _bound(self, file: str, word: Word, binding: Binding, within: Declaration) -> Meaning:
        kind = self.specification.kind_of_binding(binding, within)
        key = ("bound", file, str(binding.name.at))
        return Meaning(_place(file, word), key, (_place(file, binding.name),), f"{kind or 'unknown kind'} {word.text}")

    def told_of_class(self, name: str) -> str:
        """A class as the grammar declares it, with inherited components, its constants, and what is below it."""
        grammar = self.specification.grammar
        if name not in grammar:
            return f"class {name}"
        it = grammar.class_named(name)
        above = f" : {it.superclass}" if it.superclass else ""
        every = grammar.components(name)
        own = f" ::= {' '.join(map(str, every))}" if every else ""
        below = [sub.name for sub in grammar if sub.superclass == name]
        told = f"{'abstract ' if it.is_abstract else ''}{name}{above}{own};"
        constants = ", ".join(map(_constant_head, self.specification.constants(name)))
        return told + (f"\nconstants: {constants}" if constants else "") + (f"\nbelow it: {', '.join(below)}" if below else "")

    def told_of_component(self, of: str, part: str) -> str:
        """A component and its accessors with their kinds; of one between slashes also the constant that fills it."""
        known = {name: it.kind for name, it in self.specification.accessors(of).items() if it.part.name == part}
        form = next((it for it in self.specification.grammar.components(of) if it.name == part), None)
        if form is None:
            return f"{of} {part}"
        spelled = [f"{kind} {name}({'int' if form.shape is Shape.LIST and name == 'get' + part else ''})" for name, kind in known.items()]
        constant = self.specification.constant_in(of, part) if form.is_fixed else None
        filled = [self.told_of_attribute(constant)] if constant is not None else ["no constant fills it"] if form.is_fixed else []
        return "\n".join([f"{of} ::= {form}", *spelled, *filled])

    def told_of_attribute(self, placed: Placed) -> str:
        """The head of an attribute's declaration, of a constant with its tree, the comment above it, and the classes that have equations."""
        it, text = placed.declaration, self.specification.text(placed.file)
        head = re.sub(r"\s+", " ", text[it.start:it.end if it.constant is not None else it.parameters_end or it.end])
        comment = _COMMENT.search(text[:it.start])
        lines = [line.strip().lstrip("/* ").rstrip("*/ ") for line in comment[0].strip().splitlines()] if comment else []
        by = [] if it.is_named_by_accessor else [_equation_head(equation.declaration) for equation in self.specification.equations(it)]
        return "\n".join([head, *(line for line in lines if line), *([f"equations: {', '.join(by)}"] if by else [])])


def _constant_head(placed: Placed) -> str:
    """How a constant is asked, with its kind."""
    it = placed.declaration
    return f"{'' if it.kind is None else it.kind.text} {'' if it.name is None else it.name.text}()"


def _equation_head(it: Declaration) -> str:
    of = "" if it.of is None else it.of.text
    return of if it.getter is None else f"{of}.{it.getter.text}()"


def _place(file: str, word: Word) -> Place:
    return Place(file, word.at, word.end)
