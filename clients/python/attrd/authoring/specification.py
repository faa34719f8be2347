"""A grammar and its aspects as they are written: classes, attributes and equations, each with its place, and kinds of expressions."""
from __future__ import annotations

from dataclasses import replace
from typing import Dict, Iterator, List, NamedTuple, Optional, Sequence, Set, Tuple

from ..grammar import ClassOf, Grammar, Part, Shape
from ..grammar_reader import Declared
from .aspect_reader import FOLDS, words_of
from .aspect_tree import Binding, Declaration, Expression, Form
from .constant_reader import component_named
from .grammar_faults import WholeGrammar
from .jastadd_reader import read_aspects
from .java_reader import KINDS

# Classes of JastAdd2 that no grammar declares, and of which there are no nodes here.
NODES = ("ASTNode", "List", "Opt")
# A grammar of fewer classes has room for one more.
MOST_CLASSES = 999
# How many parameters an attribute has at most that is read.
MOST_PARAMETERS = 4
BOOLEAN_SIGNS = ("||", "&&", "==", "!=", "<", "<=", ">", ">=")


class Source(NamedTuple):
    """A file: its name and its text."""

    name: str
    text: str


class Placed(NamedTuple):
    """A declaration with the name of its file."""

    file: str
    declaration: Declaration


class Accessor(NamedTuple):
    """An accessor: the class that declares the component, the component, and the kind of its value; that of a list is `Stmt*`. Of a
    component in which a constant stands `constant` is the declaration of that; None where it stands between slashes, and none fills it."""

    of: str
    part: Part
    kind: str
    constant: Optional[Placed] = None


class Specification:
    """What a grammar and aspects declare, whether they are right or not, where these forms are read: what can't be read is passed over."""

    def __init__(self, grammar: Source, aspects: Sequence[Source], forms: str = "") -> None:
        self.grammar_file, self.aspects = grammar, list(aspects)
        self.forms = words_of(forms)
        self.whole = WholeGrammar(grammar.text, forms)
        self.grammar: Grammar = self.whole.grammar or WholeGrammar("Nothing;").grammar  # type: ignore[assignment]
        self.classes: Dict[str, Declared] = {}
        for it in self.whole.declared:
            self.classes.setdefault(it.name.text, it)
        self.declarations = [Placed(file.name, it) for file in self.aspects for it in read_aspects(file.text, forms)]
        self._named: Dict[str, List[Placed]] = {}
        for placed in self.declarations:
            if placed.declaration.is_declaring and placed.declaration.name is not None:
                self._named.setdefault(placed.declaration.name.text, []).append(placed)
        self._accessors: Dict[str, Dict[str, Accessor]] = {}
        self._constants: Dict[str, List[Placed]] = {}
        for placed in self.declarations:
            if placed.declaration.constant is not None and placed.declaration.of is not None:
                self._constants.setdefault(placed.declaration.of.text, []).append(placed)

    def with_any_node(self) -> Specification:
        """Has the class ASTNode above all others in its grammar from now on, where aspects speak of it or its like, so that what else they
        say of it can be looked at; but where the program reads what is declared for it."""
        heads = (it for placed in self.declarations for it in (placed.declaration.of, placed.declaration.kind)
                 if it is not placed.declaration.of or not self.is_everywhere(placed.declaration))
        is_named = any(word is not None and word.text in NODES for word in heads)
        if is_named and "ASTNode" not in self.grammar and len(self.classes) < MOST_CLASSES:
            above = ClassOf("ASTNode", True, None, (), (), {})
            self.grammar = Grammar([*(replace(it, superclass=it.superclass or "ASTNode") for it in self.grammar), above])
        return self

    def is_everywhere(self, it: Declaration) -> bool:
        """Whether an attribute is declared for ASTNode where the program reads that as declarations for classes."""
        return "jastadd" in self.forms and it.form in ("syn", "inh") and it.of is not None and it.of.text == "ASTNode"

    def _stands_for(self, it: Declaration, of: str) -> bool:
        """Whether an attribute is declared for a class: for that one, for one above it, or for ASTNode. An inherited one of ASTNode isn't
        declared for classes above that of the root; and for that one and those below it, where it has no value, only if none of these does."""
        if not self.is_everywhere(it):
            return it.of is not None and self.grammar.is_below(of, it.of.text)
        start = next(iter(self.grammar), None)
        if it.form == "syn" or start is None or not self._is_on_line(of, start.name):
            return True
        assert it.name is not None
        own = (placed.declaration.of for placed in self.named(it.name.text, len(it.parameters)))
        return self.grammar.is_below(of, start.name) and not any(word and self._is_on_line(word.text, start.name) for word in own)

    def _is_on_line(self, of: str, other: str) -> bool:
        """Whether a class is the other one, or above or below it."""
        return self.grammar.is_below(of, other) or self.grammar.is_below(other, of)

    def is_overriding(self, it: Declaration) -> bool:
        """Whether a method would be an equation, since its name is declared for a class above its own."""
        if it.sort != "method" or it.name is None or it.of is None:
            return False
        of = it.of.text
        declared = self.named(it.name.text, len(it.parameters))
        above = [placed.declaration.of.text for placed in declared if placed.declaration.of is not None]
        return any(other != of and self.grammar.is_below(of, other) for other in above)

    def text(self, file: str) -> str:
        """The text of a file of this name; empty where there is none."""
        return next((it.text for it in (self.grammar_file, *self.aspects) if it.name == file), "")

    @property
    def attribute_names(self) -> Set[str]:
        """The names of all attributes that are declared."""
        return set(self._named)

    def overloads(self, name: str) -> List[int]:
        """The numbers of parameters by which attributes of this name are told apart; none where there aren't several, or where the program
        tells none apart."""
        counts = {len(it.declaration.parameters) for it in self.named(name)} & set(range(MOST_PARAMETERS + 1))
        return sorted(counts) if "jastadd" in self.forms and len(counts) > 1 else []

    def named(self, name: str, count: Optional[int] = None) -> List[Placed]:
        """All declarations of attributes of this name; of an overloaded one those with so many parameters, where a number is given."""
        found = self._named.get(name, [])
        if count is None or not self.overloads(name):
            return found
        return [it for it in found if len(it.declaration.parameters) == count]

    def inherited(self, name: str, count: Optional[int] = None) -> List[Placed]:
        """The declarations of inherited attributes of this name, for which equations for components are; all of this name where it has none."""
        found = self.named(name, count)
        return [it for it in found if it.declaration.form == "inh"] or found

    def attribute(self, of: str, name: str, count: Optional[int] = None) -> Optional[Placed]:
        """The declaration of an attribute for a class, or for the nearest class above it that has one."""
        if of not in self.grammar:
            return None
        found = self.named(name, count)
        own = {it.declaration.of.text: it for it in reversed(found) if it.declaration.of is not None}
        everywhere = (it for it in found if self.is_everywhere(it.declaration) and self._stands_for(it.declaration, of))
        return next((own[it] for it in self.grammar.ancestors(of) if it in own), next(everywhere, None))

    def attributes_of(self, of: str) -> List[Placed]:
        """The attributes that a class has, by their names, each once."""
        found: List[Optional[Placed]] = []
        for name in sorted(self._named):
            counts: List[Optional[int]] = [*self.overloads(name)]
            found += [self.attribute(of, name, count) for count in counts or [None]]
        return [it for it in found if it is not None]

    def constants(self, of: str) -> List[Placed]:
        """The constants that stand in each node of a class in components of their own, those of the classes above first."""
        above = self.grammar.ancestors(of) if of in self.grammar else ()
        return [placed for it in reversed(above) for placed in self._constants.get(it, ()) if self.filled(placed.declaration) is None]

    def filled(self, constant: Declaration) -> Optional[Part]:
        """The component between slashes that a constant fills: one that its class itself declares."""
        return None if constant.of is None else self._slashed(constant.of.text, constant.component)

    def _slashed(self, of: str, name: str) -> Optional[Part]:
        own = self.grammar.classes[of].own if of in self.grammar else ()
        return next((it for it in own if it.is_fixed and it.name == name), None)

    def constant_in(self, of: str, part: str) -> Optional[Placed]:
        """The constant that fills a component between slashes of the class that declares it; the first one, where there are several."""
        return next((it for it in self._constants.get(of, ()) if it.declaration.component == part), None)

    def meant(self, it: Declaration) -> Optional[Part]:
        """The component between slashes that a declaration would fill if it were a constant, or one that is a list: it is for that class, and
        has the name of such a constant. None of a constant that fills one."""
        if it.of is None or it.name is None or it.getter is not None or self.filled(it) is not None:
            return None
        names = (component_named(it.name.text, False), component_named(it.name.text, True))
        found = [self._slashed(it.of.text, name) for name in names if name != it.name.text]
        return next((part for part in found if part is not None), None)

    def parts(self, of: str) -> List[Part]:
        """The components of a class, those in which constants stand of a class that is there among them."""
        found = list(self.grammar.components(of)) if of in self.grammar else []
        return [*found, *(component_of(placed) for placed in self.constants(of) if component_of(placed).kind in self.grammar)]

    def accessors(self, of: str) -> Dict[str, Accessor]:
        """The accessors of a class, by their names; none of a class that isn't declared."""
        if of not in self._accessors:
            self._accessors[of] = dict(self._accessors_of(of)) if of in self.grammar else {}
        return self._accessors[of]

    def _accessors_of(self, of: str) -> Iterator[Tuple[str, Accessor]]:
        for part in self.grammar.components(of):
            owner = self.owner(of, part.name)
            plain = Accessor(owner, part, part.kind, self.constant_in(owner, part.name) if part.is_fixed else None)
            yield from _accessors_to(plain)
            if part.shape is Shape.LIST and "jastadd" in self.forms:
                yield f"get{part.name}s", plain._replace(kind=part.kind + "*")
        for placed in self.constants(of):
            part, declared = component_of(placed), placed.declaration
            yield from _accessors_to(Accessor("" if declared.of is None else declared.of.text, part, part.kind, placed))

    def owner(self, of: str, part: str) -> str:
        """The class that declares a component that a class has."""
        above = self.grammar.ancestors(of)
        return next((it for it in above if any(own.name == part for own in self.grammar.classes[it].own)), of)

    def equations(self, attribute: Declaration) -> List[Placed]:
        """The equations for an attribute, that of its declaration among them."""
        assert attribute.name is not None and attribute.of is not None
        found = []
        for placed in self.declarations:
            it = placed.declaration
            if it.name is None or it.of is None or it.name.text != attribute.name.text or not self.is_of_one_number(it, attribute):
                continue
            if it is attribute:
                if it.body is not None:
                    found.append(placed)
            elif (it.form == "eq" or self._is_again(it, attribute)) and self._is_for(it, attribute):
                found.append(placed)
        return found

    def is_of_one_number(self, it: Declaration, other: Declaration) -> bool:
        """Whether two declarations or equations of one name aren't told apart by how many parameters they have."""
        return it.name is None or not self.overloads(it.name.text) or len(it.parameters) == len(other.parameters)

    def _is_again(self, it: Declaration, attribute: Declaration) -> bool:
        """Whether a declaration of a synthesized attribute is read as an equation of this one where it is for a class below."""
        return "jastadd" in self.forms and it.form == attribute.form == "syn" and it.body is not None \
            and _kinds_of(it) == _kinds_of(attribute)

    def declared_above(self, it: Declaration) -> Optional[Placed]:
        """The declaration of a synthesized attribute for a class above, which this one repeats where JastAdd's own language is read."""
        if "jastadd" not in self.forms or it.form != "syn" or it.name is None or it.of is None:
            return None
        of = it.of.text
        above = (placed for placed in self.named(it.name.text) if placed.declaration.form == "syn" and placed.declaration.of is not None)
        return next((placed for placed in above if placed.declaration.of is not None and placed.declaration.of.text != of
                     and self.grammar.is_below(of, placed.declaration.of.text) and _kinds_of(placed.declaration) == _kinds_of(it)), None)

    def _is_for(self, equation: Declaration, attribute: Declaration) -> bool:
        if attribute.form == "inh":
            return equation.getter is not None
        assert equation.of is not None and attribute.of is not None
        return equation.getter is None and self._stands_for(attribute, equation.of.text)

    def kind_of(self, expression: Expression, within: Declaration) -> Optional[str]:
        """The kind of an expression in a declaration: int, boolean, String, null, a class, or a list as `Stmt*`; None where it isn't known."""
        form, word = expression.form, expression.word.text
        if form is Form.CALL:
            return self._kind_of_call(expression, within)
        if form is Form.NAME:
            binding = next((it for it in reversed(expression.bound) if it.name.text == word), None)
            return None if binding is None else self.kind_of_binding(binding, within)
        if form is Form.CONSTANT:
            this = None if within.of is None else within.of.text
            return {"this": this, "null": "null"}.get(word, "boolean")
        if form is Form.FOLD:
            return {"exists": "boolean", "sum": "int"}.get(word) or self._element(expression.parts[0], within)
        if form is Form.BINARY:
            return self._kind_of_binary(expression, within)
        if form in (Form.GROUP, Form.CHOICE):
            return self._wider([self.kind_of(it, within) for it in expression.parts[-2:]])
        return {Form.NUMBER: "int", Form.TEXT: "String", Form.CAST: word, Form.NEW: word, Form.INSTANCE: "boolean"}.get(
            form, "boolean" if word == "!" else "int")

    def _kind_of_binary(self, expression: Expression, within: Declaration) -> str:
        if expression.word.text in BOOLEAN_SIGNS:
            return "boolean"
        is_text = expression.word.text == "+" and self.kind_of(expression.parts[0], within) == "String"
        return "String" if is_text else "int"

    def _wider(self, kinds: List[Optional[str]]) -> Optional[str]:
        told = [it for it in kinds if it not in (None, "null")]
        if len(told) == 2 and told[0] is not None and told[1] is not None and self.grammar.is_below(told[0], told[1]):
            return told[1]
        return told[0] if told else kinds[0]

    def kind_of_binding(self, binding: Binding, within: Declaration) -> Optional[str]:
        """The kind of a bound name: that of a parameter, int of an index, the elements' class of a fold's name."""
        if binding.among is not None:
            return self._element(binding.among, within)
        return "int" if binding.kind is None else binding.kind.text

    def _element(self, among: Expression, within: Declaration) -> Optional[str]:
        kind = self.kind_of(among, within)
        return None if kind is None else kind.rstrip("*")

    def receiver_kind(self, call: Expression, within: Declaration) -> Optional[str]:
        """The kind of that on which a call is made: the class of the declaration where there is no receiver."""
        if call.receiver is None:
            return None if within.of is None else within.of.text
        return self.kind_of(call.receiver, within)

    def _kind_of_call(self, call: Expression, within: Declaration) -> Optional[str]:
        of, name = self.receiver_kind(call, within), call.word.text
        if of == "String":
            return "boolean" if name == "equals" else None
        accessor = self.accessors(of).get(name) if of is not None else None
        if accessor is not None:
            return accessor.kind
        placed = self.attribute(of, name, len(call.arguments)) if of is not None else None
        if placed is None or placed.declaration.kind is None:
            return None
        element = placed.declaration.element
        return placed.declaration.kind.text if element is None else f"{element.text}*"


def _accessors_to(plain: Accessor) -> Iterator[Tuple[str, Accessor]]:
    """The accessors of a component, of which the plain one is given, but for the short name of a list."""
    name = plain.part.name
    yield f"get{name}", plain
    if plain.part.shape is Shape.LIST:
        yield f"getNum{name}", plain._replace(kind="int")
        yield f"get{name}List", plain._replace(kind=plain.part.kind + "*")
    elif plain.part.shape is Shape.OPTIONAL:
        yield f"has{name}", plain._replace(kind="boolean")


def component_of(placed: Placed) -> Part:
    """The component in which a constant stands, as its declaration has it."""
    it = placed.declaration
    assert it.tree_kind is not None
    return Part(it.component, Shape.CHILD if it.element is None else Shape.LIST, it.tree_kind.text, True)


def _kinds_of(it: Declaration) -> List[Optional[str]]:
    """The kinds of a declaration's parameters."""
    return [None if binding.kind is None else binding.kind.text for binding in it.parameters]


def is_class_kind(kind: Optional[str]) -> bool:
    """Whether a kind is that of a class."""
    return kind is not None and kind not in (*KINDS, "null", *FOLDS) and not kind.endswith("*")


def is_java_kind(kind: str) -> bool:
    """Whether a kind is a type of Java: one of several words."""
    return any(sign in kind for sign in "<.[")
