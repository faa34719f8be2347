"""Mends in a copy of aspects what the program refuses, fault by fault, so that it goes on to the next one."""
from __future__ import annotations

from dataclasses import dataclass, replace
from typing import Dict, List, Optional, Set, Tuple

from ..grammar import Part, Shape
from ..scanning import Scan, Word
from .aspect_tree import Declaration, Expression, Form, Piece
from .constant_reader import component_named
from .filling import filler, unfilled
from .java_reader import KINDS
from .patched import Patched
from .reaching import classes_without, way_without
from .refusal import ANY_NODE, OF_GRAMMAR, TOP, Judge, Refusal, offset_of
from .specification import NODES, Specification, is_class_kind, is_java_kind

# An expression of each kind.
DUMMIES = ("0", "(1<2)", '""', "null")
IN_BODY = ("J3", "J4", "J5")
# So many expressions of a declaration are mended one by one; then all of its body is.
MOST_EXPRESSIONS = 20
# What takes the place of a sign of Java.
SIGNS = {"&": "+", "|": "+", "^": "+", "~": "-", '"': '""', "'": '""'}


@dataclass(frozen=True)
class Refused:
    """A fault of the aspects as they are written: the file's number, the code, its name, and the offset in the file's text.

    `declaration` is that in which it stands, None where it stands in none; `expression` the one that is refused, where that is known.
    `follows` is whether it only follows from a fault that was told before. `sort` says which form isn't taken, where that is known: that
    of a piece, or of the declaration; or what of a constant is refused: its component, its tree, that it stands in itself, or how it fills
    a component between slashes.
    """

    file: int
    code: str
    name: str
    offset: int
    declaration: Optional[Declaration]
    expression: Optional[Expression]
    follows: bool
    sort: str = ""


class Mending:
    """The search. `next` finds the next fault, and mends it."""

    def __init__(self, specification: Specification, judge: Judge) -> None:
        self.specification, self.judge = specification, judge
        self.patched = [Patched(it.text) for it in specification.aspects]
        self.names = [it.name for it in specification.aspects]
        # What stands behind the aspects: constants in the place of those that are missing, and equations above the root.
        self.extra: List[str] = []
        self._filled: Set[Tuple[str, str]] = set()
        # Names of what was taken away or has another kind in the copy, of attributes with other parameters there, and with equations less.
        self.tainted: Set[str] = set(specification.whole.broken)
        self.retyped: Set[str] = set()
        self.unequated: Dict[str, List[str]] = {}
        self._kinds: Dict[int, str] = {}
        self._locals: Dict[int, Set[str]] = {}
        self._mended: Dict[int, int] = {}
        self._pieces: Set[int] = set()
        self._plain: Set[int] = set()
        self._blanked: Set[int] = set()
        self._bodies: Set[int] = set()
        self._marred: Set[int] = set()
        self._reserved: Set[str] = set()
        # Expressions in whose place nothing fits, by what stands around them.
        self._unfit: Set[int] = set()
        self._told: Set[Tuple[int, int, str]] = set()
        self._waiting: List[Refused] = []
        # The first fault is the program's first one, unless that is one of the grammar: it follows from none.
        missing = unfilled(specification)
        self._is_first = not specification.whole.faults and not missing
        for it in missing:
            if not it.follows:
                self._fill(it.of, it.part)

    def next(self) -> Optional[Refused]:
        """The next fault, which is mended then; None where the program takes what is left. Raises AttrdError."""
        if self._waiting:
            return self._waiting.pop()
        refusal = self._ask(self.patched)
        if refusal is None or refusal.file >= len(self.patched):
            return None
        before = (self.patched[refusal.file].text, len(self.extra))
        found = self._mended_refusal(refusal)
        patched = self.patched[refusal.file]
        if (patched.text, len(self.extra)) == before and not self._waiting:
            patched.put(0, len(patched.original), "")
        is_first, self._is_first = self._is_first, False
        return replace(found, follows=found.follows and not is_first) if found is not None else None

    def _mended_refusal(self, refusal: Refusal) -> Optional[Refused]:
        """Mends what is refused; the fault as it stands in the aspects, None where nothing of the file is left."""
        offset = self.patched[refusal.file].original_offset(refusal.offset)
        word = self._bad_word(refusal.file, offset) if refusal.code == "J1" else None
        if word is not None:
            return self._mend_word(refusal, offset, word)
        it = self._declaration(refusal, offset)
        if it is None or id(it) in self._blanked:
            return self._outside(refusal, offset)
        piece = self._piece(refusal, offset, it)
        meant = self.specification.meant(it)
        if meant is not None and (piece is not None or (refusal.code in ("J9", "J12") and not it.pieces)):
            return self._mend_meant(refusal, offset, it, meant)
        if piece is not None:
            return self._mend_piece(refusal, offset, it, piece)
        sort = self._sort_of_constant(refusal, offset, it)
        if sort:
            return self._mend_constant(refusal, offset, it, sort)
        if it.form == "other" and id(it) not in self._plain:
            self._put_plain(refusal, it)
            return Refused(refusal.file, refusal.code, refusal.name, offset, it, None, False, it.sort)
        if refusal.code == "J9" and self._put_any_node(it):
            return Refused(refusal.file, refusal.code, refusal.name, offset, it, None, True)
        of_any = self._put_any_kind(refusal, offset, it)
        if of_any is not None:
            return of_any
        before = set(self.tainted)
        told = self._key(refusal, offset)
        expression = self._mend(refusal, offset, it)
        follows = self._follows(refusal, offset, it, expression, before)
        self._told.update([(refusal.file, it.start, refusal.code), told])
        return Refused(refusal.file, refusal.code, refusal.name, offset, it, expression, follows)

    def _key(self, refusal: Refusal, offset: int) -> Tuple[int, int, str]:
        return refusal.file, offset, f"{refusal.code} at"

    def _ask(self, patched: List[Patched]) -> Optional[Refusal]:
        while True:
            extra = [f"aspect Mended {{ {' '.join(self.extra)} }}"] if self.extra else []
            refusal = self.judge.refusal([*(it.text for it in patched), *extra])
            component = self.judge.component_at(refusal.offset) if refusal is not None and refusal.file == OF_GRAMMAR else None
            if component is None:
                return refusal
            self._fill(*component)

    # Constants of components between slashes.

    def _fill(self, of: str, part: Part, file: int = 0, it: Optional[Declaration] = None) -> None:
        """Has another constant fill a component between slashes, in the place of a declaration where one is given, unless yet another one fills
        it. Where none is found the component goes: what asks for it only follows."""
        plain = None if (of, part.name) in self._filled else filler(self.specification, of, part)
        if it is not None:
            other = self.specification.constant_in(of, part.name)
            is_filled = (of, part.name) in self._filled or (other is not None and other.declaration is not it)
            self._put_away(file, it, "" if is_filled or plain is None else plain)
            if is_filled:
                return
        elif plain is not None:
            self.extra.append(plain)
        self._filled.add((of, part.name))
        if plain is None:
            self.judge.drop(of, part.name)
            self.tainted.update(accessors_of(part))

    def _put_away(self, file: int, it: Declaration, plain: str = "") -> None:
        """Puts a text in the place of a whole declaration, of which nothing more is told."""
        self.patched[file].put(it.start, it.end, plain or " ")
        self._blanked.add(id(it))

    # Where a fault stands.

    def _own(self, file: int) -> List[Declaration]:
        return [it.declaration for it in self.specification.declarations if it.file == self.names[file]]

    def _declaration(self, refusal: Refusal, offset: int) -> Optional[Declaration]:
        """The declaration in which a fault stands, or behind whose beginning reading didn't go on."""
        own = self._own(refusal.file)
        inside = next((it for it in own if it.start <= offset < it.end), None)
        if refusal.code in ("J1", "J10") and (inside is None or inside.start == offset):
            before = [it for it in own if it.start < offset]
            if before and before[-1].form != "other" and not before[-1].is_whole and id(before[-1]) not in self._blanked | self._bodies:
                return before[-1]
        return inside

    def _piece(self, refusal: Refusal, offset: int, it: Declaration) -> Optional[Piece]:
        """The smallest piece in which a fault stands, of those that weren't mended yet."""
        if refusal.code not in ("J1", "J10"):
            return None
        found = [piece for piece in it.pieces if id(piece) not in self._pieces and piece.start <= offset <= piece.reach]
        found.sort(key=lambda piece: (offset >= piece.end, piece.end - piece.start))
        return found[0] if found else None

    def _bad_word(self, file: int, offset: int) -> Optional[Word]:
        """The word at an offset, where it can't be one."""
        patched = self.patched[file]
        scan = Scan(patched.original, is_lenient=True)
        words = scan.words()
        if offset not in [offset_of(patched.original, it.line, it.column) for it in scan.faults]:
            return None
        word = next((it for it in words if it.at <= offset < it.end), Word("bad", patched.original[offset:], offset))
        return word if patched.is_free(word.at, word.end) else None

    # What is no word, and what stands in no declaration.

    def _mend_word(self, refusal: Refusal, offset: int, word: Word) -> Refused:
        """Mends what can't be cut into words. Of a declaration that isn't taken anyway, the first such word alone is told."""
        patched = self.patched[refusal.file]
        it = next((it for it in self._own(refusal.file) if it.start <= offset < it.end), None)
        is_left_out = it is not None and (it.form == "other" or any(piece.start <= offset < piece.end for piece in it.pieces))
        follows = is_left_out and it is not None and id(it) in self._marred
        patched.put(word.at, word.end, SIGNS.get(word.text[:1], " "))
        if it is not None:
            self._marred.add(id(it))
        return Refused(refusal.file, refusal.code, refusal.name, offset, it, None, follows, "word")

    def _outside(self, refusal: Refusal, offset: int) -> Optional[Refused]:
        """A fault between declarations: the word that is refused goes. Where that is no word, or it went before, all of the file goes,
        and the fault only follows where others were told of the file; None where nothing of it is left."""
        patched = self.patched[refusal.file]
        word = next((it for it in Scan(patched.original, is_lenient=True).words() if it.at == offset), None)
        follows = any(file == refusal.file for file, _, _ in self._told)
        if not patched.text:
            return None
        if word is not None and word.kind != "end" and patched.is_free(word.at, word.end):
            patched.put(word.at, word.end, " ")
        else:
            patched.put(0, len(patched.original), "")
        self._told.add((refusal.file, offset, refusal.code))
        return Refused(refusal.file, refusal.code, refusal.name, offset, None, None, follows)

    # Forms that aren't taken.

    def _mend_piece(self, refusal: Refusal, offset: int, it: Declaration, piece: Piece) -> Refused:
        """Puts what is plain in the place of a piece. That a name is a reserved word is told once, where it stands first."""
        empty = self._empty_list(it) if piece.sort == "nta" else None
        if empty is not None:
            self._put_away(refusal.file, it, empty)
            return Refused(refusal.file, refusal.code, refusal.name, offset, it, None, False, piece.sort)
        self._put_piece(refusal.file, it, piece)
        follows = False
        if piece.sort == "kind":
            self._kinds[id(it)] = piece.plain or ""
            self._taint(it)
        elif piece.sort == "parameter kind":
            self._retype(it, {known.name.text for known in it.parameters if known.kind is not None and known.kind.at == piece.start})
        elif piece.sort in ("nta", "index") and it.body is not None:
            if it.kind is not None and is_java_kind(it.kind.text):
                self._put_kind(refusal.file, it, it.kind)
            self._put_body(refusal.file, it)
            self._pieces.update(id(other) for other in it.pieces if other.start >= it.parameters_end)
        elif piece.sort == "reserved":
            word = self.patched[refusal.file].original[piece.start:piece.end]
            follows = word in self._reserved
            self._reserved.add(word)
        self._told.add((refusal.file, it.start, piece.sort))
        return Refused(refusal.file, refusal.code, refusal.name, offset, it, None, follows, piece.sort)

    def _empty_list(self, it: Declaration) -> Optional[str]:
        """The empty list that may stand in the place of a constant which is a list that isn't taken, so that what asks for it is looked at."""
        name, of = "" if it.name is None else component_named(it.name.text, True), "" if it.of is None else it.of.text
        is_known = it.element is not None and it.element.text in self.specification.grammar and of in self.specification.grammar
        if not name or not is_known or it.element is None or f"get{name}" in self.specification.accessors(of):
            return None
        return filler(self.specification, of, Part(name, Shape.LIST, it.element.text))

    # Constants.

    def _sort_of_constant(self, refusal: Refusal, offset: int, it: Declaration) -> str:
        """What of a constant is refused that is one yet; empty where that is something that might be refused of any attribute."""
        if it.constant is None or it.name is None or id(it) in self._bodies:
            return ""
        is_named, is_in_body = offset == it.name.at, offset >= it.parameters_end
        is_kind = it.tree_kind is not None and offset == it.tree_kind.at
        if refusal.code == "J3" and it.of is not None and (is_in_body if it.of.text == "ASTNode" else offset == it.of.at):
            return "class of a constant"
        if refusal.code in ("J2", "J11") and is_named:
            return "component"
        if refusal.code in ("J3", "J4") and is_in_body:
            return "tree"
        if refusal.code in ("J3", "J4") and is_kind:
            return "kind of tree" if refusal.code == "J3" else "kind of component"
        if refusal.code == "J6" and is_named:
            return "filled"
        return "itself" if refusal.code == "J10" and is_in_body else ""

    def _mend_constant(self, refusal: Refusal, offset: int, it: Declaration, sort: str) -> Refused:
        """Has another constant in the place of one that fills a component between slashes, and of any other one an attribute, so that its class
        has no such component, or nothing where it declares none: what asks for that only follows."""
        assert it.constant is not None and it.name is not None and it.of is not None
        part = self.specification.filled(it)
        if sort == "filled":
            self._put_away(refusal.file, it)
        elif sort == "class of a constant":
            self._put_away(refusal.file, it)
            self._taint_accessors(it)
            self.tainted.add(it.name.text)
        elif part is not None:
            self._fill(it.of.text, part, refusal.file, it)
        else:
            self._unplant(refusal, it)
        self._told.update([(refusal.file, it.start, refusal.code), self._key(refusal, offset)])
        return Refused(refusal.file, refusal.code, refusal.name, offset, it, None, False, sort)

    def _unplant(self, refusal: Refusal, it: Declaration) -> None:
        """Takes a constant away that is a component of its own, or has an attribute in its place."""
        assert it.constant is not None and it.name is not None
        if it.is_named_by_accessor:
            self._put_away(refusal.file, it)
        else:
            self.patched[refusal.file].put(it.constant.at, it.constant.end, " ")
            self._put_body(refusal.file, it)
        self._taint_accessors(it)

    def _taint_accessors(self, it: Declaration) -> None:
        """Has what asks for a constant's component only follow."""
        known = self.specification.grammar.components(it.of.text) if it.of is not None and it.of.text in self.specification.grammar else ()
        own = Part(it.component, Shape.CHILD if it.element is None else Shape.LIST, "")
        self.tainted.update(accessors_of(own) - {name for part in known for name in accessors_of(part)})

    def _mend_meant(self, refusal: Refusal, offset: int, it: Declaration, part: Part) -> Refused:
        """Has a constant in the place of a declaration that would fill a component between slashes if it were one. Where all of it is read,
        only that is told which it doesn't fill."""
        assert it.of is not None
        piece = self._piece(refusal, offset, it)
        if it.pieces:
            self._fill(it.of.text, part, refusal.file, it)
        else:
            self._put_away(refusal.file, it)
        return Refused(refusal.file, refusal.code, refusal.name, offset, it, None, not it.pieces, "" if piece is None else piece.sort)

    def _put_piece(self, file: int, it: Declaration, piece: Piece) -> None:
        self._pieces.add(id(piece))
        if piece.plain is not None:
            self.patched[file].put(piece.start, piece.end, piece.plain)
        elif it.body is None and piece.start >= it.parameters_end:
            self._put_body(file, it, piece.start)
        else:
            self.patched[file].put(piece.start, piece.end, self._dummy(it) or "null")

    def _put_body(self, file: int, it: Declaration, start: Optional[int] = None) -> None:
        """Puts a plain body in the place of a declaration's, or of what stands from an offset on."""
        self._bodies.add(id(it))
        value = self._dummy(it) or "null"
        # the body of a method is a block
        plain = f"{{ return {value}; }}" if "jastadd" in self.specification.forms else f"= {value};"
        body = ";" if it.form == "inh" else f" {plain}"
        self.patched[file].put(it.parameters_end if start is None else start, it.end, body)

    def _put_plain(self, refusal: Refusal, it: Declaration) -> None:
        """Puts a plain declaration of the same name and kind in the place of one that isn't taken, if it might be one of an attribute."""
        self._plain.add(id(it))
        is_void = it.kind is not None and it.kind.text == "void"
        if it.kind is None or it.of is None or it.name is None or not it.parameters_end or is_void:
            return self._blank(refusal, it)
        patched = self.patched[refusal.file]
        if self.specification.is_overriding(it):
            patched.put(it.start, it.of.at, "eq ")
            self._pieces.update(id(piece) for piece in it.pieces if piece.sort == "kind")
        else:
            patched.put(it.start, it.kind.at, "syn ")
            if is_java_kind(it.kind.text):
                self._kinds[id(it)] = "boolean"
        self._put_body(refusal.file, it)
        return None

    # Faults of what is read.

    def _mend(self, refusal: Refusal, offset: int, it: Declaration) -> Optional[Expression]:
        """Mends a declaration, each time with less of it left; the expression that is refused, where that is found."""
        tried = self._mended.get(id(it), 0)
        in_body = it.parameters_end > 0 and offset >= it.parameters_end
        if tried < MOST_EXPRESSIONS and in_body and refusal.code in IN_BODY and it.body is not None:
            found = self._mend_expression(refusal, offset, it)
            if found is not None:
                self._mended[id(it)] = tried + 1
                return found
        if not in_body and self._mend_head(refusal, offset, it):
            return None
        if tried <= MOST_EXPRESSIONS and self._mend_part(refusal, it, in_body):
            self._mended[id(it)] = MOST_EXPRESSIONS + 1
        else:
            self._blank(refusal, it)
        return None

    def _mend_head(self, refusal: Refusal, offset: int, it: Declaration) -> bool:
        """Puts another word in the place of one in the head, or another head; whether that could be done, and was not done before."""
        patched, code = self.patched[refusal.file], refusal.code
        before = patched.text
        heads = (it.kind, it.of, *(binding.kind for binding in it.parameters))
        word = next((word for word in heads if word is not None and word.at == offset), None)
        if code == "J3" and word is not None and word is not it.of:
            self._put_kind(refusal.file, it, word)
        elif code == "J3" and word is not None and word.text in NODES:
            patched.put(offset, word.end, ANY_NODE)
        elif code == "J5":
            self._put_parameters(refusal.file, it, offset)
        elif code in ("J2", "J12") and not _binds_twice(it) and patched.is_free(offset, offset + 1):
            self._rename(refusal.file, it)
        elif code in ("J3", "J6", "J9") and self._put_apart(refusal.file, it) and (code == "J3" or _is_of_any_node(it)):
            self._unequate(it)
        return patched.text != before

    def _put_kind(self, file: int, it: Declaration, word: Word) -> None:
        """Puts another kind in the place of a class that isn't there: that of the attribute, or of a parameter."""
        if word.text in NODES:
            self.patched[file].put(word.at, word.end, ANY_NODE)
        elif word is it.kind:
            self._kinds[id(it)] = "boolean"
            self.patched[file].put(word.at, word.end, "boolean")
            if it.form == "other":
                self._put_body(file, it)
            self._taint(it)
        else:
            self._put_parameters(file, it, word.at)

    def _rename(self, file: int, it: Declaration) -> None:
        """Gives another name to an attribute that is declared already, or has the name of an accessor."""
        if it.name is not None:
            self.patched[file].put(it.name.at, it.name.end, f"{it.name.text}__{it.start}")
            self._taint(it)
            if it.constant is not None:
                self.tainted.add(f"get{it.component}")

    def _put_any_node(self, it: Declaration) -> bool:
        """Whether what an equation is for is declared for ASTNode or its like alone, of which that is told then; it is put right."""
        for placed in self.specification.named("" if it.name is None else it.name.text):
            other, file = placed.declaration, self.names.index(placed.file)
            if other.of is None or other.of.text not in NODES or not self.patched[file].is_free(other.of.at, other.of.end) \
                    or self.specification.is_everywhere(other):
                continue
            self.patched[file].put(other.of.at, other.of.end, ANY_NODE)
            self._waiting.append(Refused(file, "J3", "unknown name", other.of.at, other, None, False))
            return True
        return False

    def _put_any_kind(self, refusal: Refusal, offset: int, it: Declaration) -> Optional[Refused]:
        """Puts right that the value of an attribute has ASTNode or its like as its kind, where that attribute is asked further up in the
        text; the fault of its kind, which is the cause. None where there is none, or where the program tells no fault before."""
        if refusal.code != "J3" or offset < it.parameters_end or self._is_first:
            return None
        asked = {call.word.text for made in it.made if made.start == offset for call in made.all() if call.form is Form.CALL}
        for name in sorted(asked):
            for placed in self.specification.named(name):
                other, file = placed.declaration, self.names.index(placed.file)
                kind = other.kind
                if kind is None or kind.text not in NODES or other.form not in ("syn", "inh"):
                    continue
                if self.patched[file].is_free(kind.at, kind.end):
                    self.patched[file].put(kind.at, kind.end, ANY_NODE)
                    return Refused(file, "J3", "unknown name", kind.at, other, None, False)
        return None

    def _put_parameters(self, file: int, it: Declaration, offset: int) -> None:
        """Gives a declaration parameters that may stand there: those of the attribute to an equation, else a String in the place of the one
        that is refused, and none in that of one too many."""
        if it.name is None:
            return
        bindings = [(known.kind, known.name) for known in it.parameters if known.kind is not None]
        known = self._attribute(it) if it.form == "eq" else None
        if known is None:
            self._put_parameter(file, it, offset, bindings)
            return
        kinds = self._kinds_of(known)
        names = [name.text for _, name in bindings] + [f"more{number}__" for number in range(len(kinds))]
        spelled = ", ".join(f"{_spelled(kind)} {name}" for kind, name in zip(kinds, names))
        self.patched[file].put(it.name.end, it.parameters_end, f"({spelled})")
        self._retype(it, {name.text for at, (kind, name) in enumerate(bindings) if at >= len(kinds) or kinds[at] != kind.text})

    def _put_parameter(self, file: int, it: Declaration, offset: int, bindings: List[Tuple[Word, Word]]) -> None:
        at = next((at for at, (kind, _) in enumerate(bindings) if kind.at == offset), None)
        if at is None:
            return
        most = self._most_parameters()
        if at >= most:
            self.patched[file].put(bindings[most - 1][1].end, it.parameters_end, ")")
            self._retype(it, {name.text for _, name in bindings[most:]})
        else:
            self.patched[file].put(offset, bindings[at][0].end, "String")
            self._retype(it, {bindings[at][1].text})

    def _kinds_of(self, it: Declaration) -> List[str]:
        """The kinds of a declaration's parameters that may stand there."""
        kinds = [known.kind.text for known in it.parameters if known.kind is not None]
        return [kind if self._is_parameter(kind) or kind in NODES else "String" for kind in kinds[:self._most_parameters()]]

    def _put_apart(self, file: int, it: Declaration) -> bool:
        """Has an equation declare an attribute of its own, so that its body is looked at; whether that could be done."""
        if it.form != "eq" or it.body is None or it.index is not None or it.of is None or it.name is None \
                or it.of.text not in self.specification.grammar:
            return False
        declared = self._attribute(it)
        kind = None if declared is None or declared.kind is None else self._kinds.get(id(declared), declared.kind.text)
        if kind is None or (is_class_kind(kind) and kind not in self.specification.grammar):
            told = self.specification.kind_of(it.body, it) or ""
            kind = self._kinds[id(it)] = told if told in KINDS or told in self.specification.grammar else "boolean"
        allowed = [binding for binding in it.parameters if binding.kind is not None and self._is_parameter(binding.kind.text)]
        allowed = allowed[:self._most_parameters()]
        spelled = ", ".join(f"{_spelled(binding.kind.text)} {binding.name.text}" for binding in allowed if binding.kind is not None)
        head = f"syn {_spelled(kind)} {_spelled(it.of.text)}.{it.name.text}__{it.start}({spelled})"
        self._names_of(it).update(binding.name.text for binding in it.parameters if binding not in allowed)
        self.patched[file].put(it.start, it.parameters_end, head)
        return True

    def _most_parameters(self) -> int:
        return 4 if "jastadd" in self.specification.forms else 2

    def _is_parameter(self, kind: str) -> bool:
        return kind == "String" or kind in self.specification.grammar or "jastadd" in self.specification.forms and kind in ("int", "boolean")

    def _mend_expression(self, refusal: Refusal, offset: int, it: Declaration) -> Optional[Expression]:
        patched = self.patched[refusal.file]
        begun = sorted((made for made in it.made if made.start == offset and patched.is_free(made.start, made.end)), key=lambda made: made.end)
        for expression in begun:
            places: Set[Tuple[str, int]] = set()
            for dummy in (*DUMMIES, *self._lists(refusal.file, expression, it)):
                other = patched.with_put(expression.start, expression.end, dummy)
                files = [other if number == refusal.file else known for number, known in enumerate(self.patched)]
                after = self._ask(files)
                if after is None or not self._is_before(after, other, refusal, offset, it):
                    self.patched = files
                    return expression
                places.add((after.code, other.original_offset(after.offset)))
            # What is told before it, whatever stands there, is a fault of its own.
            if len(places) == 1 and min(places)[1] < offset:
                patched.put(expression.start, expression.end, DUMMIES[0])
                self._unfit.add(id(expression))
                return expression
        return None

    def _lists(self, file: int, expression: Expression, it: Declaration) -> List[str]:
        """What may stand in the place of the list of a fold: that of a component, where it was spelled in another way."""
        of = self.specification.receiver_kind(expression, it) if expression.form is Form.CALL else None
        lists = [name for name, known in self.specification.accessors(of or "").items() if known.kind.endswith("*")]
        front = self.patched[file].original[expression.start:expression.word.at]
        return [f"{front}{name}()" for name in lists if expression.word.text == name[:-len("List")] + "s"]

    def _is_before(self, after: Refusal, other: Patched, refusal: Refusal, offset: int, it: Declaration) -> bool:
        """Whether the fault that is told then is still one of this declaration, no further on than before. That of a name which stands
        before is another one: arguments come before the name of what is called."""
        if after.file != refusal.file or after.code not in IN_BODY:
            return False
        place = other.original_offset(after.offset)
        return it.start <= place <= offset and not (refusal.code == after.code == "J3" and place < offset)

    def _mend_part(self, refusal: Refusal, it: Declaration, in_body: bool) -> bool:
        """Puts an equation in the place of one that is refused or missing; whether that could be done."""
        if refusal.code == "J8":
            return self._give_equation(it)
        if self._dummy(it) is None:
            return False
        if refusal.code == "J7" or (in_body and refusal.code in ("J1", "J10", "J11", *IN_BODY)) or (refusal.code == "J2" and _binds_twice(it)):
            self._put_body(refusal.file, it)
            return True
        return False

    def _give_equation(self, it: Declaration) -> bool:
        """Gives an inherited attribute an equation above the root, unless one stands there."""
        assert it.name is not None
        spelled = ", ".join(f"{_spelled(kind)} p{number}" for number, kind in enumerate(self._kinds_of(it)))
        equation = f"eq {TOP}.getChild().{it.name.text}({spelled}) = {self._dummy(it)};"
        if self._dummy(it) is None or equation in self.extra or not self.judge.has_top:
            return False
        self.extra.append(equation)
        return True

    # What stands in the place of what is taken away.

    def _attribute(self, it: Declaration) -> Optional[Declaration]:
        """The declaration of the attribute that an equation is for."""
        if it.name is None or it.of is None:
            return None
        name, count = it.name.text, len(it.parameters)
        known = self.specification.attribute(it.of.text, name, count) if it.getter is None else None
        named = [known] if known is not None else self.specification.inherited(name, count) if it.getter else self.specification.named(name, count)
        return named[0].declaration if named else None

    def _dummy(self, it: Declaration) -> Optional[str]:
        """An expression of the kind of a declaration's attribute; None where that isn't known."""
        declared = self._attribute(it) if it.form == "eq" or self.specification.is_overriding(it) else it
        if declared is None:
            declared = it
        kind = self._kinds.get(id(declared), None if declared.kind is None else declared.kind.text)
        if kind is not None and is_class_kind(kind):
            return "null" if kind in self.specification.grammar or kind in NODES else None
        return {"int": "0", "boolean": "(1<2)", "String": '""'}.get(kind or "")

    def _taint(self, it: Declaration) -> None:
        if it.name is not None:
            self.tainted.add(it.name.text)

    def _unequate(self, it: Declaration) -> None:
        """Notes that an attribute has an equation less, and for which class."""
        if it.name is not None:
            self.unequated.setdefault(it.name.text, []).append("" if it.of is None else it.of.text)

    def _retype(self, it: Declaration, names: Set[str]) -> None:
        """Notes that an attribute has other parameters now, and which names of its own aren't what they were."""
        if it.name is not None:
            self.retyped.add(it.name.text)
        self._names_of(it).update(names)

    def _names_of(self, it: Declaration) -> Set[str]:
        return self._locals.setdefault(id(it), set())

    def _blank(self, refusal: Refusal, it: Declaration) -> None:
        """Takes a declaration away. What it declares is missed then, and what misses it isn't told."""
        patched = self.patched[refusal.file]
        name = _named(patched.original[it.start:it.end], it) if it.name is None else it.name.text
        if name is not None and it.form != "eq":
            self.tainted.add(name)
        elif name is not None and refusal.code not in ("J6", "J9"):
            self._unequate(it)
        patched.put(it.start, it.end, " ")
        self._blanked.add(id(it))

    # Whether a fault only follows from another one.

    def _follows(self, refusal: Refusal, offset: int, it: Declaration, expression: Optional[Expression], before: Set[str]) -> bool:
        if self._key(refusal, offset) in self._told:
            return True
        if expression is not None:
            return self._expression_follows(refusal, it, expression, before)
        text, code = self.patched[refusal.file].original, refusal.code
        name = None if it.name is None else it.name.text
        if code == "J7":
            missing, gone = classes_without(self.specification, it), self.unequated.get(name or "", [])
            return name in before or 0 < len(missing) <= len(gone) or not set(gone).isdisjoint(NODES)
        if code == "J8":
            gone = self.unequated.get(name or "", [])
            is_known = all(of in self.specification.grammar for of in gone)
            return name in before or (bool(gone) and not (is_known and way_without(self.specification, it, gone)))
        if code == "J9":
            return name in before
        if code in ("J2", "J6", "J12"):
            return (refusal.file, it.start, code) in self._told
        if code == "J1" and (id(it) in self._marred or (refusal.file, it.start, code) in self._told):
            return True
        if code == "J5" and offset < it.parameters_end and name in self.retyped and it.form == "eq":
            return True
        if code not in IN_BODY:
            return False
        if it.getter is not None and it.getter.at == offset:
            is_of_constant = it.accessor.startswith("get") and it.accessor in before
            return is_of_constant or (it.of is not None and it.of.text in before)
        words = {word.text for word in _words(text[it.start:it.parameters_end or it.end]) if word.at + it.start == offset}
        return bool(words & before) or (code == "J4" and self._is_marred(it))

    def _expression_follows(self, refusal: Refusal, it: Declaration, expression: Expression, before: Set[str]) -> bool:
        text = self.patched[refusal.file].original
        names = {word.text for word in _words(text[expression.start:expression.end])}
        if any(self._is_of_java(made, it) for made in expression.all()):
            return False
        if names & (before | self._names_of(it)) or (refusal.code == "J5" and self._is_of_retyped(expression, it)):
            return True
        if any(id(piece) in self._pieces and expression.start <= piece.start < expression.end for piece in it.pieces):
            return True
        return refusal.code == "J4" and (self._is_marred(it) or self._is_of_unfit(expression))

    def _is_of_unfit(self, expression: Expression) -> bool:
        """Whether it is a call of what stands between parentheses and was refused itself."""
        inner = expression.receiver
        while inner is not None and inner.form is Form.GROUP:
            inner = inner.parts[0]
        return inner is not expression.receiver and id(inner) in self._unfit

    def _is_of_retyped(self, expression: Expression, it: Declaration) -> bool:
        """Whether it is an argument, or a call, of an attribute with parameters that aren't taken."""
        calls = [made for made in it.made if made.form is Form.CALL and (made is expression or expression in made.arguments)]
        return any(made.word.text in self.retyped or self._has_other_parameters(made.word.text) for made in calls)

    def _has_other_parameters(self, name: str) -> bool:
        """Whether an attribute of this name is declared with parameters that aren't taken."""
        named = [placed.declaration.parameters for placed in self.specification.named(name)]
        return any(len(them) > self._most_parameters() or not all(it.kind is None or self._is_parameter(it.kind.text) for it in them) for them in named)

    def _is_of_java(self, made: Expression, it: Declaration) -> bool:
        """Whether it is a call of a value whose type is one of Java."""
        return made.form is Form.CALL and made.receiver is not None and is_java_kind(self.specification.kind_of(made.receiver, it) or "")

    def _is_marred(self, it: Declaration) -> bool:
        """Whether a declaration had a word that was none, or its attribute has another kind now."""
        declared = self._attribute(it) if it.form == "eq" else it
        return id(it) in self._marred or id(declared) in self._kinds or id(it) in self._kinds


def accessors_of(part: Part) -> Set[str]:
    """The names of the accessors of a component that is a child or a list."""
    name = part.name
    return {f"get{name}", *((f"getNum{name}", f"get{name}List", f"get{name}s") if part.shape is Shape.LIST else ())}


def _is_of_any_node(it: Declaration) -> bool:
    """Whether it is for ASTNode or its like."""
    return it.of is not None and it.of.text in NODES


def _spelled(kind: str) -> str:
    """A kind as the copy spells it."""
    return ANY_NODE if kind in NODES else kind


def _named(text: str, it: Declaration) -> Optional[str]:
    """The name that a declaration declares which can't be read: that before the first parenthesis, or that of a class or a field."""
    if it.sort in ("contributes", "refine", "cache", "import", "rewrite", "implements", "constructor"):
        return None
    words = _words(text)
    if it.sort in ("class", "interface"):
        at = next((at for at, word in enumerate(words) if word.text in ("class", "interface", "enum", "record")), len(words))
        return words[at + 1].text if at + 1 < len(words) else None
    ends = ("=", ";", ",") if it.sort == "field" else ("(",)
    at = next((at for at, word in enumerate(words) if word.text in ends), 0)
    return words[at - 1].text if at > 0 and words[at - 1].kind == "name" else None


def _words(text: str) -> List[Word]:
    return [it for it in Scan(text, is_lenient=True).words() if it.kind != "end"]


def _binds_twice(it: Declaration) -> bool:
    """Whether a fold in the body binds a name that is bound there already."""
    return any(made.form.value == "fold" and len({known.name.text for known in made.parts[1].bound}) < len(made.parts[1].bound)
               for made in it.made if len(made.parts) == 2)
