"""Reads `.ast` texts, and finds the faults that the server finds in them: the first one, or all."""
from __future__ import annotations

from dataclasses import dataclass, field
from typing import Dict, List, NamedTuple, Optional, Set, Tuple

from .errors import GrammarFault, text_of
from .grammar import ClassOf, Grammar, Part, Shape
from .lexical import utf8_bytes
from .scanning import Scan, Word, WordReader

FILE_BYTES, CLASSES, COMPONENTS = 4_194_304, 1_000, 32
TOKEN_KINDS = ("String", "int", "boolean")


class Component(NamedTuple):
    """A component as it is written: its name, and the word of its class or of its kind, which are one where it has no name of its own. One
    that `is_fixed` stands between slashes."""

    name: Word
    shape: Shape
    kind: Word
    is_fixed: bool = False


@dataclass
class Declared:
    """A class as it is written."""

    name: Word
    is_abstract: bool
    above: Optional[Word]
    parts: List[Component] = field(default_factory=list)


def _is_slashed(words: List[Word]) -> bool:
    """Whether words begin with `X`, `Name:X`, `X*` or `Name:X*` between slashes, and no sign is behind them that would go on with it."""
    texts, kinds = [it.text for it in words[:7]], [it.kind for it in words[:7]]
    if texts[:1] != ["/"] or kinds[1:2] != ["name"]:
        return False
    behind = 4 if texts[2:3] == [":"] and kinds[3:4] == ["name"] else 2
    behind += texts[behind:behind + 1] == ["*"]
    return texts[behind:behind + 1] == ["/"] and texts[behind + 1:behind + 2] not in ([":"], ["*"])


class GrammarReader(WordReader):
    """Reads class declarations, where these forms are read: with `jastadd` components may stand between slashes."""

    def __init__(self, scan: Scan, forms: str = "") -> None:
        super().__init__(scan)
        self.declared: List[Declared] = []
        self.has_slashes = "jastadd" in forms.split(",")

    def file(self) -> List[Declared]:
        """All declarations. Raises GrammarFault."""
        while self.next.kind != "end":
            self.declaration()
        return self.declared

    def declaration(self) -> Declared:
        """The next declaration, which is among `declared` as soon as its name is read. Raises GrammarFault."""
        is_abstract = self.take("reserved", "abstract") is not None
        declared = Declared(self.want("name"), is_abstract, None)
        self.declared.append(declared)
        declared.above = self.want("name") if self.take("sign", ":") else None
        if self.take("sign", "::="):
            while not self.take("sign", ";"):
                declared.parts.append(self.part())
        else:
            self.want("sign", ";")
        return declared

    def part(self) -> Component:
        """The next component. Raises GrammarFault."""
        if self.next.kind == "sign" and self.next.text == "/":
            return self.slashed()
        if self.take("sign", "<"):
            return self.token()
        if self.take("sign", "["):
            name, kind = self.named()
            self.want("sign", "]")
            return Component(name, Shape.OPTIONAL, kind)
        return self.child()

    def slashed(self) -> Component:
        """A component between slashes. Raises GrammarFault, at the slash where another form begins with it."""
        if not self.has_slashes or not _is_slashed(self.words[self.at:self.at + 7]):
            raise self.scan.fault("form left out", self.next.at, "G7")
        self.want("sign", "/")
        found = self.child()
        self.want("sign", "/")
        return found._replace(is_fixed=True)

    def child(self) -> Component:
        name, kind = self.named()
        return Component(name, Shape.LIST if self.take("sign", "*") else Shape.CHILD, kind)

    def named(self) -> Tuple[Word, Word]:
        name = self.want("name")
        return name, self.want("name") if self.take("sign", ":") else name

    def token(self) -> Component:
        name = self.want("name")
        kind = Word("reserved", "String", name.at)
        if self.take("sign", ":"):
            kind = self.take("name") or self.want("reserved", *TOKEN_KINDS)
            if self.next.kind == "sign" and self.next.text in (".", "<"):
                raise self.scan.fault("form left out", self.next.at, "G7")
        self.want("sign", ">")
        return Component(name, Shape.TOKEN, kind)


class GrammarChecks:
    """The checks of what was read, in the server's order."""

    def __init__(self, scan: Scan, declared: List[Declared]) -> None:
        self.scan, self.declared = scan, declared
        self.by_name: Dict[str, Declared] = {}

    def run(self) -> Grammar:
        if not self.declared:
            raise GrammarFault("G9", "no class", 1, 1)
        self.twice()
        self.unknown()
        self.circles()
        self.token_kinds()
        self.components()
        self.limits()
        return Grammar([self.class_of(it) for it in self.declared])

    def refuse(self, code: str, name: str, word: Word) -> None:
        raise self.scan.fault(name, word.at, code)

    def twice(self) -> None:
        for it in self.declared:
            if it.name.text in self.by_name or it.name.text in ("ASTNode", "List", "Opt"):
                self.refuse("G2", "class twice", it.name)
            self.by_name.setdefault(it.name.text, it)

    def unknown(self) -> None:
        for it in self.declared:
            used = [it.above] if it.above else []
            used += [part.kind for part in it.parts if part.shape is not Shape.TOKEN]
            if any(word.text not in self.by_name for word in used):
                self.refuse("G3", "unknown class", it.name)

    def circles(self) -> None:
        for it in self.declared:
            seen: Set[str] = set()
            above: Optional[Declared] = it
            while above is not None and above.name.text not in seen:
                seen.add(above.name.text)
                above = self.by_name[above.above.text] if above.above else None
            if above is it:
                self.refuse("G4", "superclass circle", it.name)

    def token_kinds(self) -> None:
        for it in self.declared:
            for part in it.parts:
                if part.shape is Shape.TOKEN and part.kind.text not in TOKEN_KINDS:
                    self.refuse("G6", "token kind", part.name)

    def inherited(self, it: Declared) -> List[Component]:
        above = self.by_name[it.above.text] if it.above else None
        return self.all_parts(above) if above else []

    def all_parts(self, it: Declared) -> List[Component]:
        chain: List[Declared] = []
        above: Optional[Declared] = it
        while above is not None:
            chain.append(above)
            above = self.by_name[above.above.text] if above.above else None
        return [part for one in reversed(chain) for part in one.parts]

    def components(self) -> None:
        for it in self.declared:
            before = [(part.name.text, part.shape) for part in self.inherited(it)]
            for part in it.parts:
                name, shape = part.name, part.shape
                if name.text in ("Child", "Parent", "NumChild") or any(_clash(name.text, shape, *old) for old in before):
                    self.refuse("G5", "component twice", name)
                before.append((name.text, shape))

    def limits(self) -> None:
        for number, it in enumerate(self.declared, 1):
            if number > CLASSES or len(self.all_parts(it)) > COMPONENTS:
                self.refuse("G8", "limit", it.name)

    def class_of(self, it: Declared) -> ClassOf:
        own = tuple(map(part_of, it.parts))
        every = tuple(map(part_of, self.all_parts(it)))
        parts, fixed = tuple(part for part in every if not part.is_fixed), tuple(part for part in every if part.is_fixed)
        places = {part.name: at for at, part in enumerate(parts)}
        return ClassOf(it.name.text, it.is_abstract, it.above.text if it.above else None, own, parts, places, fixed)


def part_of(written: Component) -> Part:
    """The component that is written so."""
    return Part(written.name.text, written.shape, written.kind.text, written.is_fixed)


def _clash(name: str, shape: Shape, other: str, other_shape: Shape) -> bool:
    return (name == other or (shape is Shape.LIST and other in ("Num" + name, name + "List"))
            or (other_shape is Shape.LIST and name in ("Num" + other, other + "List")))


def read_grammar(text: str, forms: str = "") -> Grammar:
    """The grammar that the text declares, where these forms are read. Raises GrammarFault with the server's code and place."""
    if utf8_bytes(text_of("a grammar", text)) > FILE_BYTES:
        raise GrammarFault("G8", "limit", 1, 1)
    reader = GrammarReader(Scan(text), forms)
    return GrammarChecks(reader.scan, reader.file()).run()


def read_grammar_bytes(content: bytes, forms: str = "") -> Grammar:
    """The grammar of a file's bytes, where these forms are read. Raises GrammarFault: G1 at 1:1 where they are no UTF-8."""
    if len(content) > FILE_BYTES:
        raise GrammarFault("G8", "limit", 1, 1)
    try:
        text = content.decode("utf-8")
    except UnicodeDecodeError:
        raise GrammarFault("G1", "syntax", 1, 1) from None
    return read_grammar(text, forms)
