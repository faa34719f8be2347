"""What the definitions say of a grammar with components between slashes and of the constants in aspects over it: the first fault of all, and
where it stands. Like `jastadd_reading.py` it has no limits."""
from __future__ import annotations

from dataclasses import dataclass, replace
from typing import Dict, FrozenSet, List, Optional, Sequence, Tuple

from tools.of_the_program.jastadd_reading import KIND, LEFT_OUT, SYNTAX, Aspects, Constant, Refused, Row, Token, told
from tools.of_the_program.specs_grammar import TOKEN_KINDS, Component, Grammar, accessors
from tools.of_the_program.specs_trees import Refusal, Terms

# The name of the grammar's file.
GRAMMAR = "x.ast"
NAME, TWICE = "J3 unknown name", "J2 attribute twice"
PREDEFINED, COMMON, EVERY = ("ASTNode", "List", "Opt"), ("Child", "Parent", "NumChild"), "ASTNode"
# What is told of files in which no fault was looked for: they have more than constants.
UNKNOWN = "?"


@dataclass(frozen=True)
class Part:
    """A component of a grammar: its name, its form, and the class or the kind of its token."""

    name: Token
    form: str
    kind: Token

    def takes(self, name: str) -> bool:
        """Whether it is a list, and a component of that name would have the names of its accessors."""
        return self.form == "list" and name in (f"Num{self.name.text}", f"{self.name.text}List")

    def clashes(self, other: Part) -> bool:
        """Whether the two can't be components of one class."""
        return self.name.text == other.name.text or self.takes(other.name.text) or other.takes(self.name.text)

    def written(self) -> str:
        """The component, as a grammar has it."""
        typed = f"{self.name.text}:{self.kind.text}"
        return {"token": f"<{typed}>", "optional": f"[{typed}]", "list": f"{typed}*", "child": typed}[self.form]


@dataclass
class Declaration:
    """A class of a grammar: its name, whether it is abstract, its superclass, and its components."""

    name: Token
    is_abstract: bool
    above: Optional[Token]
    parts: List[Part]

    def written(self, marks: FrozenSet[int]) -> str:
        """The class without the components at these places, as a grammar has it."""
        above = f":{self.above.text}" if self.above else ""
        parts = " ".join(it.written() for it in self.parts if it.name.at not in marks)
        return f"{'abstract ' if self.is_abstract else ''}{self.name.text}{above} ::= {parts};"


def slashed(tokens: Sequence[Token], at: int) -> bool:
    """Whether a component between slashes begins here, `/ NAME [: NAME] [*] /`, and no sign is behind it that would go on with it."""
    row = [*tokens[at:at + 7], *[tokens[-1]] * 7]
    end = 2
    if row[end].is_sign(":") and row[end + 1].is_name():
        end += 2
    if row[end].is_sign("*"):
        end += 1
    is_row = row[0].is_sign("/") and row[1].is_name() and row[end].is_sign("/")
    return is_row and not any(row[end + 1].is_sign(it) for it in ":*")


class Classes(Row):
    """Reads a grammar: its classes, and the names that stand behind the first of two slashes. Raises Refused."""

    def __init__(self, text: str) -> None:
        super().__init__(text)
        self.marks: List[Token] = []

    def all(self) -> List[Declaration]:
        found: List[Declaration] = []
        while self.next.kind != "end":
            is_abstract = bool(self.take("abstract"))
            name = self.name()
            above = self.name() if self.take(":") else None
            found.append(Declaration(name, is_abstract, above, self.parts()))
        return found

    def parts(self) -> List[Part]:
        """What stands behind a name, up to the semicolon."""
        found: List[Part] = []
        if self.take(";"):
            return found
        self.want("::=")
        while not self.take(";"):
            found.append(self.part())
        return found

    def part(self) -> Part:
        if self.is_next("/"):
            return self.slashed()
        if self.take("<"):
            return self.token()
        if self.take("["):
            found = self.typed("optional")
            self.want("]")
            return found
        return self.child()

    def slashed(self) -> Part:
        """A component between slashes: what else begins with one is left out there."""
        if not slashed(self.tokens, self.at):
            raise self.wrong("G7 form left out")
        self.want("/")
        self.marks.append(self.next)
        found = self.child()
        self.want("/")
        return found

    def child(self) -> Part:
        """`NAME [: NAME] [*]`"""
        found = self.typed("child")
        return Part(found.name, "list", found.kind) if self.take("*") else found

    def typed(self, form: str) -> Part:
        """`NAME [: NAME]`"""
        name = self.name()
        return Part(name, form, self.name() if self.take(":") else name)

    def token(self) -> Part:
        """What stands behind the `<` of a token."""
        name = self.name()
        if self.take(">"):
            return Part(name, "token", Token("word", "String", name.at))
        self.want(":")
        kind = self.take(*TOKEN_KINDS) or self.name()
        if self.is_next(".", "<"):
            raise self.wrong("G7 form left out")
        self.want(">")
        return Part(name, "token", kind)


class Declared:
    """The classes of a grammar."""

    def __init__(self, classes: Sequence[Declaration]) -> None:
        self.classes = classes
        self.named: Dict[str, Declaration] = {}
        for it in classes:
            self.named.setdefault(it.name.text, it)

    def line(self, name: str) -> List[Declaration]:
        """The class, and those above it; of a circle each once."""
        found: List[Declaration] = []
        it = self.named.get(name)
        while it is not None and it not in found:
            found.append(it)
            it = self.named.get(it.above.text) if it.above else None
        return found

    def is_below(self, name: str, of: str) -> bool:
        """Whether the class is that one or below it."""
        return of in (it.name.text for it in self.line(name))

    def check(self) -> None:
        """Raises Refused where the grammar breaks a rule."""
        if not self.classes:
            raise Refused("G9 no class", 0)
        for rule in (self.class_twice, self.unknown, self.circle, self.token_kind, self.twice):
            rule()

    def class_twice(self) -> None:
        for at, it in enumerate(self.classes):
            if it.name.text in (*PREDEFINED, *(before.name.text for before in self.classes[:at])):
                raise Refused("G2 class twice", it.name.at)

    def unknown(self) -> None:
        for it in self.classes:
            named = [*([it.above] if it.above else []), *(part.kind for part in it.parts if part.form != "token")]
            if any(name.text not in self.named for name in named):
                raise Refused("G3 unknown class", it.name.at)

    def circle(self) -> None:
        for it in self.classes:
            if it.above and self.is_below(it.above.text, it.name.text):
                raise Refused("G4 superclass circle", it.name.at)

    def token_kind(self) -> None:
        for part in (part for it in self.classes for part in it.parts):
            if part.form == "token" and part.kind.text not in TOKEN_KINDS:
                raise Refused("G6 token kind", part.name.at)

    def twice(self) -> None:
        """A component whose class has one before it of its name, or of such a name that they don't go together."""
        for it in self.classes:
            before = [part for above in reversed(self.line(it.name.text)[1:]) for part in above.parts]
            for part in it.parts:
                if part.name.text in COMMON or any(part.clashes(other) for other in before):
                    raise Refused("G5 component twice", part.name.at)
                before.append(part)

    def without(self, marks: FrozenSet[int]) -> Grammar:
        """The grammar without the components at these places."""
        return Grammar("".join(it.written(marks) for it in self.classes))


@dataclass(frozen=True)
class Placed:
    """A constant, and the name of its file."""

    file: str
    it: Constant


@dataclass(frozen=True)
class Wrong(Exception):
    """A fault, and the name of its file."""

    file: str
    fault: Refused


class Judged:
    """Constants over a grammar that breaks no rule."""

    def __init__(self, declared: Declared, marks: FrozenSet[int], constants: Sequence[Placed]) -> None:
        self.declared, self.marks, self.constants = declared, marks, constants
        self.bare = declared.without(marks)

    def check(self) -> None:
        """Raises Wrong, where they are refused."""
        for step in (self.additions, self.unlike, self.again, self.unfilled, self.misshapen, self.encircled):
            step()

    def filled(self, it: Constant) -> Optional[Part]:
        """The component between slashes that the constant fills."""
        of = self.declared.named.get(it.of.text)
        found = next((part for part in of.parts if part.name.text == it.component), None) if of else None
        return found if found and found.name.at in self.marks else None

    def additions(self) -> None:
        """Each that fills none is one more component of its class."""
        classes = Declared([replace(it, parts=list(it.parts)) for it in self.declared.classes])
        for placed in self.constants:
            it = placed.it
            of = classes.named.get(it.of.text)
            if of is None or self.filled(it):
                continue
            of.parts.append(Part(replace(it.name, text=it.component), "list" if it.is_list else "child", it.kind))
            if it.kind.text not in classes.named:
                raise Wrong(placed.file, Refused(NAME, it.kind.at))
            try:
                classes.twice()
            except Refused:
                raise Wrong(placed.file, Refused(TWICE, it.name.at)) from None

    def unlike(self) -> None:
        for placed in self.constants:
            it, part = placed.it, self.filled(placed.it)
            if part and (part.kind.text != it.kind.text or (part.form == "list") is not it.is_list):
                raise Wrong(placed.file, Refused(KIND, it.kind.at))

    def again(self) -> None:
        for at, placed in enumerate(self.constants):
            it = placed.it
            if self.filled(it) and any(self.is_for(before.it, it.of.text, it.component) for before in self.constants[:at]):
                raise Wrong(placed.file, Refused("J6 equation twice", it.name.at))

    @staticmethod
    def is_for(it: Constant, of: str, name: str) -> bool:
        """Whether the constant is one for the component of that class."""
        return (it.of.text, it.component) == (of, name)

    def unfilled(self) -> None:
        for of in self.declared.classes:
            for part in of.parts:
                if part.name.at in self.marks and not any(self.is_for(it.it, of.name.text, part.name.text) for it in self.constants):
                    raise Wrong(GRAMMAR, Refused("J7 class without equation", part.name.at))

    def known(self) -> List[Placed]:
        """Those of classes that are there."""
        return [it for it in self.constants if it.it.of.text in self.declared.named]

    def nowhere(self, it: Constant) -> Optional[Token]:
        """Where it is told that its class isn't there: at its kind, where that isn't either."""
        if it.of.text in self.declared.named:
            return None
        if it.kind.text not in self.declared.named:
            return it.kind
        return it.new if it.of.text == EVERY else it.of

    def misshapen(self) -> None:
        for placed in self.constants:
            it = placed.it
            unknown = self.nowhere(it)
            if unknown:
                raise Wrong(placed.file, Refused(NAME, unknown.at))
            try:
                Terms(self.bare, it.cell).cell(Component(it.component, "list" if it.is_list else "child", it.kind.text))
            except Refusal as refusal:
                raise Wrong(placed.file, Refused(NAME if refusal.code == "6 class" else KIND, it.new.at)) from None

    def encircled(self) -> None:
        for placed in self.known():
            if self.is_endless(placed.it, ()):
                raise Wrong(placed.file, Refused(LEFT_OUT, placed.it.new.at))

    def is_endless(self, it: Constant, above: Tuple[Constant, ...]) -> bool:
        """Whether it stands in itself, or what stands in it does."""
        below = {name for name in Terms(self.bare, it.cell).names()}
        inside = [other.it for other in self.known() if any(self.declared.is_below(name, other.it.of.text) for name in below)]
        return it in above or any(self.is_endless(other, (*above, it)) for other in inside)


def attributes(declared: Declared, constants: Sequence[Placed]) -> None:
    """Raises Wrong where the attribute that a constant declares has the name of an accessor."""
    known = [it for it in constants if not it.it.is_accessor()]
    parts = [Component(part.name.text, part.form, "") for it in declared.classes for part in it.parts]
    taken = {name for part in parts for name in accessors(part)}
    for placed in known:
        if placed.it.name.text == "equals" or placed.it.name.text in taken:
            raise Wrong(placed.file, Refused("J12 name of an accessor", placed.it.at))


def fault_of(grammar: str, aspects: Dict[str, str]) -> Optional[str]:
    """What is told of the files before the tree is looked at, of aspects by their names; None where nothing is, and UNKNOWN where there is
    more than constants."""
    texts = {GRAMMAR: grammar, **aspects}
    try:
        return UNKNOWN if has_more(grammar, aspects) else None
    except Wrong as wrong:
        return f"{wrong.file}: {told(texts[wrong.file], wrong.fault)}"


def has_more(grammar: str, aspects: Dict[str, str]) -> bool:
    """Whether there is more than constants in the aspects. Raises Wrong."""
    declared, marks = read_grammar(grammar)
    read = {name: read_aspects(name, text) for name, text in aspects.items()}
    constants = [Placed(name, it) for name, reading in read.items() for it in reading.constants]
    Judged(declared, marks, constants).check()
    if sum(it.declarations for it in read.values()) > len(constants):
        return True
    attributes(declared, constants)
    return False


def read_grammar(text: str) -> Tuple[Declared, FrozenSet[int]]:
    """The classes, and where the components between slashes stand. Raises Wrong."""
    try:
        reading = Classes(text)
        declared = Declared(reading.all())
        declared.check()
    except Refused as fault:
        raise Wrong(GRAMMAR, replace(fault, code=f"G{fault.code[1:]}") if fault.code == SYNTAX else fault) from None
    return declared, frozenset(it.at for it in reading.marks)


def read_aspects(name: str, text: str) -> Aspects:
    """The file's aspects. Raises Wrong."""
    try:
        found = Aspects(text)
        found.file()
    except Refused as fault:
        raise Wrong(name, fault) from None
    return found
