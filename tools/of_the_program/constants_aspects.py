"""Attributes by chance that look through constants: by their accessors, in folds and loops over fixed lists, and inherited by what stands in
them. Most ask those of lower layers, or themselves of nodes below; the others may come to a cycle."""
from __future__ import annotations

import random
from dataclasses import dataclass
from itertools import count
from typing import Callable, Iterator, List, NamedTuple, Optional, Sequence, Tuple

from tools.of_the_program.constants_grammar import START, TEXTS, Language, Made, Written
from tools.of_the_program.specs_grammar import Component
from tools.of_the_program.specs_trees import quoted

# The attribute that each node but the root inherits: the root.
ROOT = "root"
# How many attributes there are beside it, of which sorts and kinds; where a kind is none it is a class.
ATTRIBUTES, SORTS, KINDS = 6, ("syn", "syn", "inh"), ("int", "int", "boolean", None, None)
PARAMETERS = (None, None, None, "String", "class")
# How often a class has an equation of its own, an inherited one, or one that overrides a constant's attribute; a call may lead to a cycle; and
# what is asked of a component is asked of a constant.
OWN, PLACED, OVERRIDDEN, CIRCLES, FIXED = 0.5, 0.25, 0.4, 0.03, 0.6
NUMBERS = ("0", "1", "2", "-1", "7", "2147483647")


class Known(NamedTuple):
    """An expression of nodes: its text, their class, and whether they stand below that at which the equation stands."""

    text: str
    of: str
    is_below: bool = False


@dataclass(frozen=True)
class Attribute:
    """An attribute of all classes: its sort, its kind, and the kind of its parameter, if it has one."""

    layer: int
    sort: str
    kind: str
    parameter: Optional[str]
    lazy: bool

    def name(self) -> str:
        return f"a{self.layer}"

    def taken(self) -> str:
        """Its parameter, as it is declared."""
        return f"{self.parameter} {'t' if self.parameter == 'String' else 'n'}" if self.parameter else ""


class Aspects:
    """The aspects of a language."""

    def __init__(self, language: Language, chance: random.Random) -> None:
        self.language, self.chance, self.grammar = language, chance, language.planted()
        self.classes = [it for it in self.grammar.classes if it != START]
        self.attributes = [self.attribute(layer) for layer in range(ATTRIBUTES)]

    def often(self, share: float) -> bool:
        return self.chance.random() < share

    def attribute(self, layer: int) -> Attribute:
        kind, parameter = self.chance.choice(KINDS) or self.chance.choice(self.classes), self.chance.choice(PARAMETERS)
        taken = self.chance.choice(self.classes) if parameter == "class" else parameter
        return Attribute(layer, self.chance.choice(SORTS), kind, taken, self.often(0.7))

    def texts(self) -> List[str]:
        """Two aspect files: constants and attributes are in either."""
        said = [f"inh {START} ASTNode.{ROOT}();", f"eq {START}.getChild().{ROOT}() = this;"]
        said += map(Written(self.grammar, self.chance).declaration, self.language.constants)
        for it in self.attributes:
            said += self.synthesized(it) if it.sort == "syn" else self.inherited(it)
        for made in self.language.constants:
            said += self.overriding(made)
        cut = self.chance.randrange(len(said))
        self.chance.shuffle(said)
        return [f"aspect A {{\n{''.join(f'  {it}{chr(10)}' for it in part)}}}\n" for part in (said[:cut], said[cut:])]

    def synthesized(self, it: Attribute) -> Iterator[str]:
        """The declaration of an attribute, and its equations."""
        head, front = f"{it.name()}({it.taken()})", "syn lazy" if it.lazy else "syn"
        default = Scope(self, it, None).of(it.kind, 0)
        yield f"{front} {it.kind} ASTNode.{head} = {default};"
        for of in self.grammar.classes:
            if self.often(OWN):
                yield f"eq {of}.{head} {Scope(self, it, of).body(it.kind)}"

    def inherited(self, it: Attribute) -> Iterator[str]:
        """The same of an inherited one: each node has an equation above it."""
        front = "inh lazy" if it.lazy else "inh"
        yield f"{front} {it.kind} ASTNode.{it.name()}({it.taken()});"
        yield self.placed(it, START, "getChild()", ())
        for of in self.grammar.classes:
            for part in self.grammar.named[of].values():
                if part.form != "token" and self.often(2 * PLACED if part.is_fixed else PLACED):
                    yield self.placed(it, of, *self.place(part))
            if of != START and self.often(PLACED):
                yield self.placed(it, of, "getChild()", ())

    def placed(self, it: Attribute, of: str, place: str, ints: Sequence[str]) -> str:
        """An equation of a class for what stands in a place."""
        return f"eq {of}.{place}.{it.name()}({it.taken()}) {Scope(self, it, of, ints).body(it.kind)}"

    def place(self, part: Component) -> Tuple[str, Sequence[str]]:
        """A component as equations name it, and what it binds."""
        name = part.name if self.often(0.3) else f"get{part.name}"
        return (f"{name}(int i)", ("i",)) if part.form == "list" and self.often(0.6) else (f"{name}()", ())

    def overriding(self, made: Made) -> Iterator[str]:
        """Equations of classes below for the attribute of a constant, whose component stays."""
        for of in self.grammar.classes:
            if not made.is_accessor and of != made.of and self.grammar.is_below(of, made.of) and self.often(OVERRIDDEN):
                yield f"eq {of}.{made.name()}() {Scope(self, None, of).body(made.part.kind)}"


class Scope:
    """Expressions by chance, in an equation of a class for an attribute; without one for that of a constant. A default has no class."""

    def __init__(self, aspects: Aspects, attribute: Optional[Attribute], of: Optional[str], ints: Sequence[str] = ()) -> None:
        self.aspects, self.attribute, self.grammar, self.chance = aspects, attribute, aspects.grammar, aspects.chance
        self.numbers, self.ints, self.may_fold = count(), ints, True
        self.nodes = [Known("this", of)] if of else []
        parameter = attribute.parameter if attribute else None
        self.strings = ["t"] if parameter == "String" else []
        if of and parameter and parameter != "String":
            self.nodes.append(Known("n", parameter))

    def often(self, share: float) -> bool:
        return self.chance.random() < share

    def body(self, kind: str) -> str:
        """A body of that kind: an expression, or statements."""
        way = self.chance.choice(("=", "=", "if", "for"))
        lists = self.lists()
        if way == "for" and lists:
            return self.loop(kind, self.chance.choice(lists))
        if way == "if":
            return f"{{ if ({self.boolean(1)}) return {self.cast_to(kind, 1)}; return {self.cast_to(kind, 2)}; }}"
        return f"= {self.of(kind, 3)};"

    def loop(self, kind: str, listed: Known) -> str:
        """A loop that looks for an element, with a return behind it."""
        name = self.bind(listed)
        test, self.may_fold = self.boolean(1), False
        value = self.cast_to(kind, 1)
        self.nodes.pop()
        self.may_fold = True
        return f"{{ for ({listed.of} {name} : {listed.text}) if ({test}) return {value}; return {self.cast_to(kind, 1)}; }}"

    def cast_to(self, kind: str, depth: int) -> str:
        """An expression of just that kind: of the ways of a body one is no class beside the other's."""
        made = self.of(kind, depth)
        return f"(({kind}) {made})" if kind in self.grammar.classes else made

    def bind(self, listed: Known) -> str:
        """Has a name stand for the elements of a list: the name."""
        name = f"x{next(self.numbers)}"
        self.nodes.append(Known(name, listed.of, listed.is_below))
        return name

    def parts(self, of: str, *forms: str) -> List[Component]:
        """The components of a class with one of these forms: those of constants alone, where it has any, as often as not."""
        found = [it for it in self.grammar.named[of].values() if it.form in forms]
        fixed = [it for it in found if it.is_fixed]
        return fixed if fixed and self.often(FIXED) else found

    def lists(self) -> List[Known]:
        """The lists of known nodes, and the classes of their elements."""
        found: List[Known] = []
        for known in self.nodes:
            found += (self.below(known, f"get{it.name}List()", it.kind) for it in self.parts(known.of, "list"))
        return found

    @staticmethod
    def below(known: Known, accessor: str, kind: str) -> Known:
        """What an accessor of a node gives."""
        return Known(f"{known.text}.{accessor}", kind, known.is_below or known.text == "this")

    def of(self, kind: str, depth: int) -> str:
        """An expression of the kind."""
        if kind == "int":
            return self.number(depth)
        return self.boolean(depth) if kind == "boolean" else self.node_of(kind, depth)

    def node(self) -> Optional[Known]:
        """A node that is known, or one that is a few steps away."""
        if not self.nodes:
            return None
        found = self.chance.choice(self.nodes)
        for _ in range(self.chance.choice((0, 1, 1, 2))):
            found = self.step(found) or found
        return found

    def step(self, known: Known) -> Optional[Known]:
        """What stands in a component of the node, is the root, is asked of it, or is the same with another class."""
        ways: Sequence[Callable[[Known], Optional[Known]]] = (self.down, self.down, self.down, self.down, self.to_root, self.asked, self.cast)
        return self.chance.choice(ways)(known)

    def down(self, known: Known) -> Optional[Known]:
        parts = self.parts(known.of, "child", "optional", "list")
        if not parts:
            return None
        it = self.chance.choice(parts)
        if it.form == "list":
            return self.below(known, f"get{it.name}({self.chance.choice(('0', '0', '1', *self.ints))})", it.kind)
        is_attribute = it.name[0].islower() and self.often(0.7)
        return self.below(known, f"{it.name}()" if is_attribute else f"get{it.name}()", it.kind)

    def to_root(self, known: Known) -> Known:
        return Known(f"{known.text}.{ROOT}()", START)

    def asked(self, known: Known) -> Optional[Known]:
        found = [it for it in self.callable(known) if it.kind in self.grammar.classes]
        it = self.chance.choice(found) if found else None
        return Known(self.call(known, it), it.kind) if it else None

    def cast(self, known: Known) -> Known:
        to = self.chance.choice([it for it in self.grammar.classes if self.grammar.is_below(it, known.of)])
        return Known(f"(({to}) {known.text})", to, known.is_below)

    def callable(self, known: Known) -> List[Attribute]:
        """The attributes of lower layers, and its own, where that is asked of what stands below; now and then any."""
        own, all_of = self.attribute, self.aspects.attributes
        if own is None or self.often(CIRCLES):
            return all_of
        is_again = known.is_below and own.sort == "syn"
        return [it for it in all_of if it.layer < own.layer or (it is own and is_again)]

    def call(self, known: Known, it: Attribute) -> str:
        """A call of an attribute."""
        given = "" if it.parameter is None else self.string() if it.parameter == "String" else self.node_of(it.parameter, 0)
        return f"{known.text}.{it.name()}({given})"

    def called(self, kind: str) -> Optional[str]:
        """A call of an attribute of that kind, where one may be called."""
        node = self.node()
        known = [it for it in self.callable(node) if it.kind == kind] if node else []
        return self.call(node, self.chance.choice(known)) if node and known else None

    def token(self, kind: str) -> Optional[str]:
        """A token of that kind of a node that is known."""
        node = self.node()
        known = self.tokens(node.of, kind) if node else []
        return f"{node.text}.get{self.chance.choice(known).name}()" if node and known else None

    def tokens(self, of: str, kind: str) -> List[Component]:
        """The tokens of that kind of a class."""
        return [it for it in self.grammar.parts[of] if it.form == "token" and it.kind == kind]

    def string(self) -> str:
        """A text that isn't computed."""
        return self.chance.choice([quoted(self.chance.choice(TEXTS)), *self.strings, self.token("String") or '"a"'])

    def tried(self, ways: Sequence[Callable[[], Optional[str]]], otherwise: str) -> str:
        """An expression made in one of the ways, where that can be gone."""
        return self.chance.choice(ways)() or otherwise

    def number(self, depth: int) -> str:
        plain = self.chance.choice((*NUMBERS, *self.ints))
        flat: List[Callable[[], Optional[str]]] = [
            lambda: plain, lambda: self.token("int"), self.length, lambda: self.called("int"), lambda: self.called("int")]
        if depth <= 0:
            return self.tried(flat, plain)
        less = depth - 1
        return self.tried([
            *flat, lambda: self.folded("sum", lambda: self.number(less)), lambda: self.folded("sum", lambda: self.number(less)),
            lambda: f"({self.number(less)} {self.chance.choice('++--*/%')} {self.number(less)})",
            lambda: f"({self.boolean(less)} ? {self.number(less)} : {self.number(less)})"], plain)

    def length(self) -> Optional[str]:
        """How many elements a list of a node has."""
        node = self.node()
        known = self.parts(node.of, "list") if node else []
        return f"{node.text}.getNum{self.chance.choice(known).name}()" if node and known else None

    def boolean(self, depth: int) -> str:
        plain = self.chance.choice(("true", "false"))
        flat: List[Callable[[], Optional[str]]] = [
            lambda: self.token("boolean"), self.is_of, self.equal, lambda: self.called("boolean"), self.has, self.compared_text, self.compared_text]
        if depth <= 0:
            return self.tried(flat, plain)
        less = depth - 1
        return self.tried([
            *flat, lambda: self.folded("exists", lambda: self.boolean(less)), lambda: self.folded("exists", lambda: self.boolean(less)),
            lambda: f"({self.number(less)} {self.chance.choice(('<', '<=', '==', '!='))} {self.number(less)})",
            lambda: f"({self.boolean(less)} {self.chance.choice(('&&', '||'))} {self.boolean(less)})", lambda: f"!{self.boolean(less)}"], plain)

    def is_of(self) -> Optional[str]:
        node = self.node()
        return f"({node.text} instanceof {self.chance.choice(self.aspects.classes)})" if node else None

    def equal(self) -> Optional[str]:
        one, other = self.node(), self.node()
        return f"({one.text} {self.chance.choice(('==', '!='))} {other.text if other and self.often(0.7) else 'null'})" if one else None

    def has(self) -> Optional[str]:
        """Whether an optional of a node is filled."""
        node = self.node()
        known = self.parts(node.of, "optional") if node else []
        return f"{node.text}.has{self.chance.choice(known).name}()" if node and known else None

    def compared_text(self) -> Optional[str]:
        text = self.token("String")
        return f"{text}.equals({self.string()})" if text else None

    def folded(self, form: str, inner: Callable[[], str]) -> Optional[str]:
        """A fold over a list of a node that is known, where one may stand."""
        lists = self.lists()
        if not self.may_fold or not lists:
            return None
        return self.fold(form, self.chance.choice(lists), inner)

    def fold(self, form: str, listed: Known, inner: Callable[[], str]) -> str:
        """A fold over the list."""
        name = self.bind(listed)
        made = f"{form} ({name} : {listed.text}) {{ {inner()} }}"
        self.nodes.pop()
        return made

    def node_of(self, kind: str, depth: int) -> str:
        """A node of that class, or null."""
        lists = [it for it in self.lists() if self.grammar.is_below(it.of, kind)]
        if depth > 0 and lists and self.may_fold and self.often(0.5):
            return self.fold("first", self.chance.choice(lists), lambda: self.searched(depth - 1))
        for _ in range(6):
            node = self.node()
            if node and self.grammar.is_below(node.of, kind):
                return node.text
        node = self.node()
        return f"(({kind}) {node.text})" if node and self.often(0.3) else "null"

    def searched(self, depth: int) -> str:
        """What is looked for in a list: as often as not elements by a text of theirs."""
        element = self.nodes[-1]
        known = self.tokens(element.of, "String")
        return f"{element.text}.get{self.chance.choice(known).name}().equals({self.string()})" if known and self.often(0.6) else self.boolean(depth)
