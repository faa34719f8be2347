"""What to write instead of what is refused, and the section of the page for users of JastAdd that shows it."""
from __future__ import annotations

import re
from typing import List, Optional

from ..explaining import SENTENCES
from ..grammar import Part, Shape
from .aspect_tree import Declaration, Expression, Form, Piece
from .filling import filler
from .mending import Refused
from .specification import NODES, Placed, Specification, is_java_kind
from .ways import (AT_ROOT, BELOW_ROOT, BY_KINDS, COMPUTED, EQUATION_OF_ANY, FIFTH, FILL, FORMS, IN_JASTADD, JAVA_TYPES, KIND_OF_ANY,
                   LIST_CONSTANT, NAMES, NEVER_FILLED, NO_VALUE, NUMBERS, OF_CONSTANTS, OF_JAVA, OF_LISTS, OF_OBJECTS, OF_OTHERS, OF_SETS,
                   ONE_LINE, OPT_CONSTANT, OTHER_KIND, OTHERWISE, OVERLOADED, OVERRIDDEN, TOO_MANY, TWO_FORMS, TWO_TYPES, Way, way_of_body)

_SEVERAL = re.compile(r"get(\w+)s")
_OPTIONAL = re.compile(r"get(\w+)Opt")
_MADE = re.compile(r"new\s+([\w.]+)")
# What isn't taken and has another way round where JastAdd's own language is read.
_OTHERWISE_IN_JASTADD = ("nta", "new", "interface", "implements")


class Hints:
    """Ways round faults, over what the grammar and the aspects declare."""

    def __init__(self, specification: Specification) -> None:
        self.specification = specification

    def of_grammar(self, code: str, word: str, behind: str = "") -> Way:
        """What helps with a fault of the grammar at a word, with the sign that stands behind it."""
        if code == "G2" and word not in NODES:
            return Way(SENTENCES[code][1])
        is_of_node, is_made = word in ("Child", "Parent", "NumChild"), word == "/"
        if code == "G7" and is_made and self._is_jastadd():
            return IN_JASTADD[{"<": "component token", "[": "component optional"}.get(behind, "component")]
        numbers = {"G2": 2, "G5": 3 if is_of_node else 15, "G6": 1, "G7": 11 if is_made else 1}
        return Way(SENTENCES[code][1], numbers.get(code, 0))

    def of_aspects(self, refused: Refused, text: str, word: str) -> Way:
        """What helps with a fault of the aspects at a word of a text."""
        otherwise = Way(SENTENCES[refused.code][1])
        it = refused.declaration
        if refused.sort in OF_CONSTANTS:
            is_of_list = refused.sort == "component" and it is not None and self.specification.meant(it) is not None
            return OF_CONSTANTS["kind of component" if is_of_list else refused.sort]
        if refused.code == "J10":
            return self._of_form(refused, text) or NAMES.get(word) or OTHERWISE
        if refused.code == "J1":
            return self._of_form(refused, text) or self._of_word(refused, text, word) or otherwise
        if it is None:
            return otherwise
        found = {"J2": self._of_twice, "J8": self._of_root, "J9": self.of_any, "J12": self._of_name}.get(refused.code)
        if found is not None:
            return found(it) or otherwise
        if refused.code == "J4" and word == "}":
            return NO_VALUE
        among = self.loop(refused, it)
        if among is not None:
            return OF_SETS if is_java_kind(self.specification.kind_of(among, it) or "") else OF_LISTS
        if refused.code in ("J3", "J4", "J5"):
            made = refused.expression or self._smallest(refused, it)
            return (self._of_head(refused, it, word) if made is None else self._of_expression(refused.code, made, it)) or otherwise
        return otherwise

    def piece(self, refused: Refused) -> Optional[Piece]:
        """The piece that is refused, where it is one."""
        it = refused.declaration
        pieces = [] if it is None else sorted(it.pieces, key=lambda piece: piece.end - piece.start)
        return next((piece for piece in pieces if piece.sort == refused.sort and piece.start <= refused.offset <= piece.reach), None)

    @staticmethod
    def _smallest(refused: Refused, it: Declaration) -> Optional[Expression]:
        """The smallest expression that begins where something is refused."""
        return next((made for made in sorted(it.made, key=lambda made: made.end) if made.start == refused.offset), None)

    def _of_form(self, refused: Refused, text: str) -> Optional[Way]:
        sort, it, piece = refused.sort, refused.declaration, self.piece(refused)
        meant = None if it is None or sort == "nta" else self.specification.meant(it)
        if meant is not None and it is not None and it.of is not None:
            return self.filling(FILL, it.of.text, meant)
        if piece is not None:
            body = way_of_body(sort, text[piece.start:piece.end], self._is_jastadd())
            if body is not None:
                return body
        if sort == "method" and it is not None and it.kind is not None and it.kind.text == "void":
            return FORMS["void"]
        if sort == "circular" and "circular" in self.specification.forms:
            return FORMS["circular kind" if it is not None and it.kind is not None and it.kind.text != "boolean" else "circular start"]
        if self._is_jastadd() and sort == "nta" and it is not None and it.kind is not None and it.kind.text.partition("<")[0] in NODES:
            return OPT_CONSTANT if it.kind.text.startswith("Opt") else LIST_CONSTANT
        made = _MADE.match(text, refused.offset)
        if sort == "new" and made and made[1] not in (*self.specification.classes, *NODES):
            return OF_OBJECTS
        return IN_JASTADD[sort] if self._is_jastadd() and sort in _OTHERWISE_IN_JASTADD else FORMS.get(sort)

    def filling(self, told: str, of: str, part: Part) -> Way:
        """What helps where nothing fills a component between slashes, with a constant that would; by what is told around that."""
        plain = filler(self.specification, of, part)
        return NEVER_FILLED if plain is None else Way(told.format(plain), 11)

    def _of_word(self, refused: Refused, text: str, word: str) -> Optional[Way]:
        """What helps where no aspect goes on with a word."""
        it = refused.declaration
        if word == "circular":
            return FORMS["circular misplaced"]
        if word in ("int", "boolean", "String") and text[:refused.offset].rstrip().endswith("("):
            return Way("A cast names a class, and numbers and texts aren't cast; a text and a number are joined by `\"\" + n`.", 15)
        if it is not None and it.form == "inh" and word in ("=", "{"):
            return Way("An inherited attribute has its equations with the nodes above: `eq Block.getStmt().level() = 1;`.")
        if word == ">" and text[:refused.offset].endswith("-"):
            return OF_JAVA
        if word == ";" and it is not None and it.form == "other":
            return Way("Take it out: what ends with a brace has no semicolon behind it.")
        return None

    def _of_head(self, refused: Refused, it: Declaration, word: str) -> Optional[Way]:
        if refused.code == "J3" and it.getter is not None and word == it.getter.text:
            return self._of_getter(word, it)
        if refused.code == "J3":
            is_kind = it.of is None or it.of.at != refused.offset
            return self._of_node(word, is_kind) if word in NODES else FORMS["kind"] if word in JAVA_TYPES else None
        if refused.code == "J4" and self.specification.declared_above(it) is not None:
            return OTHER_KIND
        kinds = [binding.kind for binding in it.parameters]
        place = next((at for at, kind in enumerate(kinds) if kind is not None and kind.at == refused.offset), None)
        if place is None or it.form == "eq":
            return None
        if self._is_jastadd():
            return FIFTH
        return TOO_MANY if place > 1 else NUMBERS if word in ("int", "boolean") else None

    @staticmethod
    def _of_node(word: str, is_kind: bool) -> Way:
        """What helps with ASTNode or its like, as a kind or as the class for which something is declared."""
        return KIND_OF_ANY if is_kind and word == "ASTNode" else NAMES[word]

    def of_any(self, it: Declaration) -> Optional[Way]:
        """What helps with an equation of ASTNode, where attributes may be declared for it."""
        return EQUATION_OF_ANY if self._is_jastadd() and it.getter is None and it.of is not None and it.of.text == "ASTNode" else None

    def _is_jastadd(self) -> bool:
        return "jastadd" in self.specification.forms

    def _of_getter(self, name: str, it: Declaration) -> Optional[Way]:
        """What helps where an equation is for a component that isn't there: for what `nta` declares, or `getStmts`."""
        if any(f"get{placed.declaration.component}" == it.accessor for placed in self.specification.declarations
               if placed.declaration.constant is not None):
            return OF_OTHERS
        if any(piece.sort == "nta" for placed in self.specification.named(name) for piece in placed.declaration.pieces):
            return Way(f"`{name}()` is made by an equation: make it a child in the grammar, and let the equation be for its accessor.", 11)
        return self._of_accessor(it.accessor, None)

    def _of_expression(self, code: str, expression: Expression, it: Declaration) -> Optional[Way]:
        unbound = self.unbound(expression, it)
        if unbound is not None:
            word = unbound.word.text
            is_asked = any(made.form is Form.CALL and made.receiver is unbound for made in it.made)
            return NAMES.get(word) or (OF_JAVA if is_asked and word[:1].isupper() else None)
        calls = [made for made in expression.all() if made.form is Form.CALL]
        if any(self.is_of_java(made, it) for made in calls):
            return OF_SETS
        if any(self.is_of_text(made, it) for made in calls):
            return OF_JAVA
        if code == "J5":
            kind = None if self._is_jastadd() else self.specification.kind_of(expression, it)
            return COMPUTED if kind == "String" else NUMBERS if kind in ("int", "boolean") and expression.form is not Form.CALL else None
        if code == "J4":
            whole = self.operation(expression, it)
            kinds = [self.specification.kind_of(part, it) for part in whole.parts]
            return Way(SENTENCES["J4"][1], 1) if whole.form is Form.BINARY and "String" in kinds else None
        if expression.form in (Form.CAST, Form.INSTANCE) and expression.word.text in NODES:
            return self._of_node(expression.word.text, True)
        ways = [self._of_accessor(made.word.text, self.specification.receiver_kind(made, it)) for made in calls]
        return next((way for way in ways if way is not None), None) or self._of_far(calls, it)

    def _of_far(self, calls: List[Expression], it: Declaration) -> Optional[Way]:
        """What helps where an attribute that is asked has a kind that isn't there, or is none of the root's."""
        for call in calls:
            if self.is_missed_at_root(call, it):
                return AT_ROOT
            known = self.attribute_of(call, it)
            kind = None if known is None else known.declaration.kind
            if kind is not None and kind.text in NODES:
                return NAMES[kind.text]
        return None

    def _of_root(self, it: Declaration) -> Optional[Way]:
        return BELOW_ROOT if it.of is not None and it.of.text in NODES and not self.specification.is_everywhere(it) else None

    def _of_accessor(self, name: str, of: Optional[str]) -> Optional[Way]:
        """What helps where an accessor of JastAdd2 is asked that isn't there; of a class, where that is known."""
        if of is not None and name in self.specification.accessors(of):
            return None
        if name in NAMES:
            return NAMES[name]
        owners = [of] if of is not None and of in self.specification.classes else list(self.specification.classes)
        parts = {part.name: part.shape for owner in owners for part in self.specification.parts(owner)}
        several, optional = _SEVERAL.fullmatch(name), _OPTIONAL.fullmatch(name)
        if several and parts.get(several[1]) is Shape.LIST:
            part = several[1]
            return Way(f"`{name}()` is `get{part}List()` here, as the list of a fold; `getNum{part}()` is how many there are.", 15)
        if optional and parts.get(optional[1]) is Shape.OPTIONAL:
            return Way(f"`{name}()` is `has{optional[1]}()` and `get{optional[1]}()` here.", 15)
        return None

    def _of_name(self, it: Declaration) -> Optional[Way]:
        name = "" if it.name is None else it.name.text
        return Way(SENTENCES["J12"][1], 3) if name in NAMES else None

    def _of_twice(self, it: Declaration) -> Optional[Way]:
        found = self.earlier("J2", it)
        if found is None or found.declaration is it:
            return Way("Take a name that isn't bound there yet, by a parameter, an index or a fold.")
        other = found.declaration
        if other.form != it.form and "inh" in (other.form, it.form):
            return ONE_LINE if self._is_jastadd() else TWO_FORMS
        if it.form == "inh":
            return TWO_TYPES
        kinds = [[binding.kind.text for binding in known.parameters if binding.kind is not None] for known in (other, it)]
        return OVERRIDDEN if kinds[0] == kinds[1] else BY_KINDS if self._is_jastadd() and len(kinds[0]) == len(kinds[1]) else OVERLOADED

    def earlier(self, code: str, it: Declaration) -> Optional[Placed]:
        """The declaration of the same before this one, or the equation for the same."""
        for placed in self.specification.declarations:
            other = placed.declaration
            if other is it:
                return None
            if not self.specification.is_of_one_number(it, other):
                continue
            if _heads(other) == _heads(it) or (code == "J2" and other.is_declaring and other.name is not None
                                               and it.name is not None and other.name.text == it.name.text and self._is_related(other, it)):
                return placed
        return None

    def _is_related(self, other: Declaration, it: Declaration) -> bool:
        assert other.of is not None and it.of is not None
        grammar, forms = self.specification.grammar, (other.form, it.form)
        is_compared = forms == ("inh", "inh") if self._is_jastadd() else "inh" in forms
        return is_compared or any(map(self.specification.is_everywhere, (other, it))) \
            or grammar.is_below(other.of.text, it.of.text) or grammar.is_below(it.of.text, other.of.text)

    def unbound(self, expression: Expression, it: Declaration) -> Optional[Expression]:
        """The name that is bound nowhere with which an expression begins, where it begins with one."""
        first: List[Expression] = [made for made in it.made if made.form is Form.NAME and made.start == expression.start]
        return next((made for made in first if made.word.text not in [known.name.text for known in made.bound]), None)

    def operation(self, expression: Expression, it: Declaration) -> Expression:
        """The sum in which an expression stands in front of a text; itself where it stands in none."""
        return next((made for made in it.made if made.form is Form.BINARY and made.word.text == "+" and made.parts[0] is expression
                     and self.specification.kind_of(made.parts[1], it) == "String"), expression)

    def attribute_of(self, call: Expression, it: Declaration) -> Optional[Placed]:
        """The attribute that a call asks, where the class of its receiver is known."""
        of = self.specification.receiver_kind(call, it)
        return None if of is None else self.specification.attribute(of, call.word.text, len(call.arguments))

    def is_missed_at_root(self, call: Expression, it: Declaration) -> bool:
        """Whether a call asks the node itself for an inherited attribute of ASTNode, which isn't declared for the class of the root where a
        class below that one declares it itself, and the declaration is for the root, too."""
        grammar = self.specification.grammar
        if call.receiver is not None or it.of is None or not (it.of.text in NODES or grammar.is_below(grammar.start, it.of.text)):
            return False
        return any(known.declaration.form == "inh" and self.specification.is_everywhere(known.declaration)
                   for known in self.specification.named(call.word.text, len(call.arguments)))

    def loop(self, refused: Refused, it: Declaration) -> Optional[Expression]:
        """What a loop goes over that is refused since that is no list of the tree; None where it is one, or where no loop is refused."""
        folds = [made for made in (it.body.all() if it.body is not None and refused.code == "J4" else ()) if made.form is Form.FOLD]
        among = next((fold.parts[0] for fold in folds if fold.word.at == refused.offset and fold not in it.made), None)
        return None if among is None or (self.specification.kind_of(among, it) or "").endswith("*") else among

    def is_of_java(self, made: Expression, it: Declaration) -> bool:
        """Whether it is a call of a value whose type is one of Java."""
        return made.form is Form.CALL and made.receiver is not None and is_java_kind(self.specification.kind_of(made.receiver, it) or "")

    def is_of_text(self, made: Expression, it: Declaration) -> bool:
        """Whether it is a call of a String that Java alone has."""
        return made.form is Form.CALL and made.receiver is not None and made.word.text != "equals" \
            and self.specification.kind_of(made.receiver, it) == "String"


def _heads(it: Declaration) -> List[Optional[str]]:
    """What a declaration is for: equations of equal heads are for the same."""
    form = "syn" if it.form in ("syn", "eq") and it.getter is None and it.body is not None else it.form
    return [form, it.accessor, *(None if word is None else word.text for word in (it.of, it.name))]
