"""Which names may stand at a place of an aspect file or of a grammar."""
from __future__ import annotations

import re
from typing import Dict, Iterable, Optional, Tuple

from ..grammar import Shape
from ..scanning import Scan
from .aspect_tree import Declaration, Expression, Form
from .constant_reader import CONTAINERS
from .jastadd_reader import PLAIN, read_aspects
from .java_reader import KINDS
from .specification import Source, Specification

_BEGUN = re.compile(r"\w*\Z")
# Where the name of a constant stands.
_CONSTANT = re.compile(r"\bsyn\b[^;={}]*\bnta\b[^;={}]*\Z")
# Where the class of a constant's node stands.
_NEW = re.compile(r"\bnew\s+\Z")
_HEAD = re.compile(r"\b(syn|inh|eq)\s+[^;={}]*\Z")
# The same where methods are read, which begin by a modifier or by their kind.
_JASTADD_HEAD = re.compile(rf"\b(syn|inh|eq|{'|'.join((*PLAIN, *KINDS))})\s+[^;={{}}]*\Z")
# Where the name of an inherited attribute stands in an equation for a component.
_GIVEN = re.compile(r"\beq\s+\w+\s*\.\s*get\w+\s*\([^()]*\)\s*\.\s*\Z")
# The same where a component may be named by itself.
_JASTADD_GIVEN = re.compile(r"\beq\s+\w+\s*\.\s*\w+\s*\([^()]*\)\s*\.\s*\Z")
_OWNER = re.compile(r"(\w+)\s*\.\s*\Z")
# Where the class of a loop's element stands, and where a statement begins.
_LOOP = re.compile(r"\bfor\s*\(\s*(?:final\s+)?\Z")
_STATEMENT = re.compile(r"(?:[;{})]|\belse)\s*\Z")
HERE = "here__"


class Completing:
    """The names at a place. What is written there by now is taken for the beginning of a name, and passed over."""

    def __init__(self, specification: Specification, file: str, offset: int) -> None:
        text = specification.text(file)
        self.file = file
        self.front = text[:offset - len(_BEGUN.findall(text[:offset])[0])]
        self.behind = text[offset:]
        self.specification = specification

    def names(self) -> Dict[str, str]:
        """Each name with what it is. A name that is begun already isn't looked at: the editor does that."""
        if self.file == self.specification.grammar_file.name:
            return self._classes()
        if self._is_jastadd() and _NEW.search(self.front):
            grammar = self.specification.grammar
            return {**{it.name: "class" for it in grammar if not it.is_abstract}, **{it: "" for it in CONTAINERS}}
        found = self._here()
        if found is None:
            return self._in_body() if self._depth() > 1 else self._in_head()
        declaration, call = found
        if call.receiver is None and call.start in declaration.untaken:
            return self._in_body()
        if call.receiver is not None:
            return self._on(self.specification.kind_of(call.receiver, declaration))
        of = declaration.of.text if declaration.of is not None else None
        bound = {it.name.text: self.specification.kind_of_binding(it, declaration) or "" for it in call.bound}
        return {**self._on(of), **bound, **{it: "" for it in ("this", "null", "true", "false", "exists", "first", "sum")}}

    def _here(self) -> Optional[Tuple[Declaration, Expression]]:
        """The call that stands at the place when a name is put there, and its declaration; None where no expression can stand."""
        others = [it for it in self.specification.aspects if it.name != self.file]
        text, forms = f"{self.front}{HERE}(){self.behind}", ",".join(self.specification.forms)
        whole = Specification(self.specification.grammar_file, [*others, Source(self.file, text)], forms)
        for declaration in read_aspects(text, forms):
            call = next((it for it in declaration.made if it.form is Form.CALL and it.word.text == HERE), None)
            if call is not None:
                self.specification = whole
                return declaration, call
        return None

    def _depth(self) -> int:
        """How many braces are open at the place: that of the aspect, and those of a body."""
        signs = [it.text for it in Scan(self.front, is_lenient=True).words() if it.kind == "sign"]
        return signs.count("{") - signs.count("}")

    def _is_jastadd(self) -> bool:
        return "jastadd" in self.specification.forms

    def _in_body(self) -> Dict[str, str]:
        """What stands in a body where no expression does: the class of a loop's element, or a word with which a statement begins."""
        if self._is_jastadd() and _LOOP.search(self.front):
            return self._classes()
        if _STATEMENT.search(self.front) is None:
            return {}
        return {it: "" for it in (("return", "if", "else", "for") if self._is_jastadd() else ("return",))}

    def _on(self, kind: Optional[str]) -> Dict[str, str]:
        """What can be asked of a value of a kind; the attributes of all classes where it isn't known."""
        if kind == "String":
            return {"equals": "boolean equals(String)"}
        if kind is None:
            return {name: "" for name in self.specification.attribute_names}
        found = {name: f"{it.kind} {name}" for name, it in self.specification.accessors(kind).items()}
        attributes = self.specification.attributes_of(kind) if kind in self.specification.grammar else []
        return {**found, **_told(it.declaration for it in attributes)}

    def _in_head(self) -> Dict[str, str]:
        """The names in the head of a declaration: of a class, or behind its dot of what it may declare or have an equation for."""
        if (_JASTADD_GIVEN if self._is_jastadd() else _GIVEN).search(self.front):
            declared = (it.declaration for name in self.specification.attribute_names for it in self.specification.named(name))
            return _told(it for it in declared if it.form == "inh")
        head, owner = (_JASTADD_HEAD if self._is_jastadd() else _HEAD).search(self.front), _OWNER.search(self.front)
        kinds = {**self._classes(), **{it: "" for it in KINDS}}
        if head is None and not (owner and self._is_jastadd()):
            words = {it: "" for it in ("syn", "inh", "eq", "lazy", "aspect")}
            return {**words, **{it: "" for it in ("nta", *PLAIN)}, **kinds} if self._is_jastadd() else words
        if owner is None:
            return self._classes() if head and head[1] == "eq" else kinds
        empty = self._unfilled(owner[1]) if self._is_jastadd() and _CONSTANT.search(self.front) else {}
        if empty:
            return empty
        getters = {name: it.kind for name, it in self.specification.accessors(owner[1]).items() if name == "get" + it.part.name}
        attributes = {} if owner[1] not in self.specification.grammar else self._on(owner[1])
        own = {name: told for name, told in attributes.items() if name not in self.specification.accessors(owner[1])}
        return {**getters, "getChild": "", **own}

    def _unfilled(self, of: str) -> Dict[str, str]:
        """The names of constants that may fill what a class has between slashes, where none does but one that stands at the place."""
        own = self.specification.grammar.classes[of].own if of in self.specification.grammar else ()
        others = [it for file, it in self.specification.declarations if not (file == self.file and it.start <= len(self.front) <= it.end)]
        filled = {it.component for it in others if it.constant is not None and it.of is not None and it.of.text == of}
        empty = [it for it in own if it.is_fixed and it.name not in filled]
        lists = {f"get{it.name}List": f"List<{it.kind}>" for it in empty if it.shape is Shape.LIST}
        return {**{f"get{it.name}": it.kind for it in empty if it.shape is Shape.CHILD}, **lists}

    def _classes(self) -> Dict[str, str]:
        return {name: "class" for name in self.specification.classes}


def _told(attributes: Iterable[Declaration]) -> Dict[str, str]:
    """The names of attributes, each with its kind and those of its parameters; of those with other numbers of parameters one by one."""
    found: Dict[str, Dict[int, str]] = {}
    for it in attributes:
        assert it.name is not None and it.kind is not None
        kinds = [binding.kind.text for binding in it.parameters if binding.kind is not None]
        found.setdefault(it.name.text, {})[len(kinds)] = f"{it.kind.text} {it.name.text}({', '.join(kinds)})"
    return {name: "; ".join(known[count] for count in sorted(known)) for name, known in found.items()}


def completions(specification: Specification, file: str, offset: int) -> Dict[str, str]:
    """The names that may stand at an offset of a file, each with what it is: attributes and accessors behind a dot, or where an
    expression may begin; classes; names that are bound there."""
    return Completing(specification, file, offset).names()
