"""Says of a fault what is wrong just there, what is there instead, and how to go on."""
from __future__ import annotations

import re
from typing import Iterable, List, Optional

from ..errors import GrammarFault
from ..explaining import SENTENCES
from ..grammar import Part, Shape
from ..scanning import Scan
from .aspect_tree import Declaration, Expression, Form
from .constant_reader import CONTAINERS
from .filling import Unfilled
from .finding import Finding
from .hints import Hints
from .mending import Refused
from .reaching import classes_without, way_without
from .specification import NODES, Placed, Specification, is_java_kind
from .ways import FILL, FILLED_BY_NONE, OF_CONSTANTS, section

_WORD = re.compile(r"\w+|\S|\Z")
# What a call of Java names: a package, a class and a method.
_CALLED = re.compile(r"[\w\s]+(\.[\w\s]+)+\(")
SHOWN = 8
# What a form is that its first word doesn't name.
NOUNS = {"method": "a method", "field": "a field", "constructor": "a constructor", "class": "a class of Java",
         "contributes": "a contribution", "implements": "an interface of a class", "local": "a local variable", "statement": "a statement",
         "return": "a second statement", "index": "an index of all components"}
# What is said of a piece at which no aspect goes on; `{}` is the piece.
PIECES = {"kind": "`{}` is a type of Java.", "parameter kind": "`{}` is a type of Java.", "new": "`{}` would make something.",
          "field of Java": "`{}` is Java.", "reserved": "`{}` is a reserved word.", "word": "`{}` is no word and no sign here.",
          "circular misplaced": "`circular` doesn't stand here.", "modifier": "`{}` doesn't stand here.",
          "circular": "`circular` goes on with its start between brackets.",
          "circular start": "`circular` goes on with its start between brackets."}


class Advice:
    """Findings of faults, over what the grammar and the aspects declare."""

    def __init__(self, specification: Specification) -> None:
        self.specification, self.hints = specification, Hints(specification)

    def of_grammar(self, fault: GrammarFault, start: int) -> Finding:
        """The finding of a fault of the grammar, at an offset of its text."""
        text = self.specification.grammar_file.text
        word = _word(text, start)
        sentence = SENTENCES[fault.code][0]
        if fault.code == "G3":
            sentence = f"There is no class {word}. {self._near(word, self.specification.classes)}"
        elif fault.code == "G2" and word in self.specification.classes and word not in NODES:
            place = self._line(self.specification.grammar_file.name, self.specification.classes[word].name.at)
            sentence = f"The class {word} is declared already, at {place}."
        elif fault.code == "G1":
            sentence = f"No grammar goes on with {_shown(word)} here."
        way = self.hints.of_grammar(fault.code, word, text[start + len(word):].lstrip()[:1])
        return Finding(self.specification.grammar_file.name, fault.code, fault.name, fault.line, fault.column, start, start + len(word),
                       sentence.strip(), way.hint, section(way.section))

    def of_unfilled(self, it: Unfilled) -> Finding:
        """The finding of a component between slashes that no constant fills."""
        file, text = self.specification.grammar_file
        line, begin = text.count("\n", 0, it.name.at) + 1, text.rfind("\n", 0, it.name.at) + 1
        way = self.hints.filling(FILLED_BY_NONE if it.meant is None else FILL, it.of, it.part)
        meant = None if it.meant is None else it.meant.declaration
        other = "" if it.meant is None or meant is None or meant.name is None \
            else f" `{meant.name.text}` at {self._line(it.meant.file, meant.start)} is none."
        return Finding(file, "J7", "class without equation", line, it.name.at - begin + 1, it.name.at, it.name.end,
                       f"No constant fills {it.of}'s component {it.part}.{other}", way.hint, section(way.section))

    def of_aspects(self, refused: Refused) -> Finding:
        """The finding of a fault of the aspects."""
        file, text = self.specification.aspects[refused.file]
        word = _word(text, refused.offset)
        end = refused.expression.end if refused.expression is not None else refused.offset + len(word)
        start = text.rfind("\n", 0, refused.offset) + 1
        line = text.count("\n", 0, refused.offset) + 1
        message = self._message(refused, text, word) or SENTENCES[refused.code][0]
        way, column = self.hints.of_aspects(refused, text, word), refused.offset - start + 1
        return Finding(file, refused.code, refused.name, line, column, refused.offset, end, message, way.hint, section(way.section))

    def _message(self, refused: Refused, text: str, word: str) -> Optional[str]:
        it = refused.declaration
        if it is not None and refused.sort in OF_CONSTANTS:
            return self._of_constant(refused, it, word)
        if refused.code == "J10":
            return self._of_form(refused, text, word)
        if refused.code == "J1":
            return self._of_piece(refused, text) or f"No aspect goes on with {_shown(word)} here."
        if it is None:
            return None
        if refused.code in ("J3", "J4", "J5"):
            expression = refused.expression or _smallest(it, refused.offset)
            loop = self.hints.loop(refused, it)
            if loop is not None:
                return self._of_loop(loop, it)
            return self._of_head(refused, it, word) if expression is None else self._of_expression(refused.code, expression, it)
        return self._of_declaration(refused, it)

    def _of_form(self, refused: Refused, text: str, word: str) -> str:
        """What is said of a form that is left out; of a body of statements, also what else it asks that isn't there."""
        noun = NOUNS.get(refused.sort)
        told = f"{_shown(word)} begins a form that is left out here{f': {noun}' if noun else ''}."
        piece = self.hints.piece(refused)
        if piece is None or piece.plain is not None:
            return told
        missing = [it for it in _asked(text[piece.start:piece.end]) if not self._is_somewhere(it)]
        return f"{told} The body asks {_listed(missing)}, too: there is no such accessor." if missing else told

    def _of_constant(self, refused: Refused, it: Declaration, word: str) -> Optional[str]:
        """What is said of a constant that can't stand in its component."""
        name = "" if it.name is None else it.name.text
        if refused.code == "J11":
            return "A class has more than 32 components with this one."
        if refused.sort == "component":
            return f"{self._line_of_component(it)} has a component already of this name, or of a name that doesn't go with it."
        if refused.sort in ("kind of component", "filled"):
            return self._of_filling(refused, it)
        if refused.sort == "class of a constant" and it.of is not None:
            return self._no_class(it.of.text)
        if refused.sort == "kind of tree":
            return self._no_class(word)
        made = [made for made in it.made if made.form is Form.NEW and made.word.text not in CONTAINERS]
        if refused.sort == "itself":
            return f"A node of {_listed(sorted({known.word.text for known in made}))} has {name} in it, or a constant that has: it would stand in itself."
        grammar = self.specification.grammar
        missing = [known.word.text for known in made if known.word.text not in grammar or grammar.class_named(known.word.text).is_abstract]
        if refused.code == "J3" and missing:
            return f"No nodes are made of {_listed(missing)}: there is no such class, or it is abstract."
        kind, of = "" if it.kind is None else it.kind.text, made[-1].word.text if made else ""
        if of in grammar and kind in grammar and not grammar.is_below(of, kind):
            return f"This is {_article(of)}, and {_article(kind)} is wanted."
        forms = [f"{known} ::= {' '.join(map(str, grammar.parts(known)))}" for known in dict.fromkeys(made.word.text for made in made) if known in grammar]
        return f"An argument doesn't fit its component: {'; '.join(forms)}."

    def _of_filling(self, refused: Refused, it: Declaration) -> Optional[str]:
        """What is said of a constant that doesn't fit the component between slashes, or fills one that another constant fills."""
        part, of = self.specification.filled(it), "" if it.of is None else it.of.text
        if part is None:
            return None
        first = self.specification.constant_in(of, part.name)
        if refused.sort == "filled" and first is not None:
            return f"The component {part} of {of} is filled already, at {self._line(first.file, first.declaration.start)}."
        own = "" if it.tree_kind is None else it.tree_kind.text
        return f"This is {_article(own + ('' if it.element is None else '*'))}, and the component is {part}."

    def _line_of_component(self, it: Declaration) -> str:
        """The class of a constant, or one below it that has a component of that name."""
        of, grammar = "" if it.of is None else it.of.text, self.specification.grammar
        below = grammar.concrete_below(of) if of in grammar else ()
        return next((known for known in below if any(part.name == it.component for part in grammar.components(known))), of)

    def _is_somewhere(self, name: str) -> bool:
        known = self.specification
        return name in known.attribute_names or any(name in known.accessors(it) for it in known.classes)

    def _of_piece(self, refused: Refused, text: str) -> Optional[str]:
        said = PIECES.get(refused.sort)
        piece = self.hints.piece(refused)
        shown = _word(text, refused.offset) if piece is None else text[piece.start:piece.end]
        if piece is not None and piece.sort == "field of Java" and not _CALLED.match(shown):
            shown = text[piece.start:piece.reach].strip()
        else:
            shown = shown.split("(")[0].strip()
        return None if said is None else said.format(shown)

    def _of_declaration(self, refused: Refused, it: Declaration) -> Optional[str]:
        if it.name is None or it.of is None:
            return None
        name, of = it.name.text, it.of.text
        if refused.code == "J7":
            without = classes_without(self.specification, it)
            return f"{_listed(without)} {'comes' if len(without) == 1 else 'come'} to no equation for {name}." if without else None
        if refused.code == "J8":
            way = way_without(self.specification, it)
            return f"A node can stand without an equation for {name} above it{f': {way}' if way else ''}."
        if refused.code == "J9" and it.getter is not None and self.specification.overloads(name):
            heads = _either(self._head(placed) for placed in self.specification.inherited(name) if placed.declaration.form == "inh")
            return f"No class has an inherited attribute {name} with {_parameters(len(it.parameters))}.{f' There is {heads}.' if heads else ''}"
        if refused.code == "J9" and it.getter is not None:
            inherited = {known for known in self.specification.attribute_names
                         if any(it.declaration.form == "inh" for it in self.specification.named(known))}
            return f"No class has an inherited attribute {name}. {self._near(name, inherited)}".strip()
        if refused.code == "J9" and self.hints.of_any(it) is not None:
            return "ASTNode has no equations of its own."
        if refused.code == "J9":
            return self._of_number(of, name, len(it.parameters)) \
                or f"{of} has no synthesized attribute {name}. {self._near(name, self._attributes(of))}".strip()
        if refused.code in ("J2", "J6"):
            return self._of_twice(refused, it)
        if refused.code == "J12":
            owners = [known for known in self.specification.classes if name in self.specification.accessors(known)]
            return f"{name} is an accessor of {_listed(owners)}." if owners else None
        return None

    def _of_twice(self, refused: Refused, it: Declaration) -> Optional[str]:
        """Where the earlier declaration or equation of the same stands."""
        other = self.hints.earlier(refused.code, it)
        if other is None:
            return None
        form = other.declaration.form
        as_form = f", as `{form}`" if refused.code == "J2" and form != it.form and form in ("syn", "inh") else ""
        return f"It stands already at {self._line(other.file, other.declaration.start)}{as_form}."

    def _of_head(self, refused: Refused, it: Declaration, word: str) -> Optional[str]:
        if refused.code == "J5":
            return self._of_parameters(it)
        above = self.specification.declared_above(it) if refused.code == "J4" else None
        if above is not None:
            return f"The attribute is declared as {self._head(above)}."
        if it.getter is not None and word == it.getter.text and it.of is not None:
            front = it.accessor[:len(it.accessor) - len(word)]
            own = [f"get{part.name}"[len(front):] for part in self._parts(it.of.text)]
            return f"{it.of.text} has no component {'' if front else 'of the accessor '}{word}. {self._near(word, own)}".strip()
        if it.index is not None and word == it.index.text:
            return f"{word} stands for the index of an element, and {it.getter.text if it.getter else 'it'} is no list."
        return self._no_class(word) if refused.code == "J3" else None

    def _no_class(self, word: str) -> str:
        return f"There is no class {word}. {'' if word in NODES else self._near(word, self.specification.classes)}".strip()

    def _parts(self, of: str) -> List[Part]:
        return [part for part in self.specification.parts(of) if part.shape is not Shape.TOKEN]

    def _of_parameters(self, it: Declaration) -> Optional[str]:
        if it.form != "eq" or it.name is None or it.of is None:
            return "A parameter is a String, an int, a boolean or a node of a class, and there are at most four." \
                if "jastadd" in self.specification.forms else "A parameter is a String or a node of a class, and there are at most two."
        count = len(it.parameters)
        known = self.specification.attribute(it.of.text, it.name.text, count) if it.getter is None else None
        named = [known] if known is not None else self.specification.named(it.name.text, count)
        return f"The attribute is declared as {self._head(named[0])}." if named else None

    def _of_expression(self, code: str, expression: Expression, it: Declaration) -> Optional[str]:
        unbound = self.hints.unbound(expression, it)
        if unbound is not None:
            return self._of_unbound(unbound, it)
        calls = sorted((made for made in expression.all() if made.form is Form.CALL), key=lambda made: made.end)
        of_java = [made for made in calls if self.hints.is_of_java(made, it)]
        if of_java:
            return self._of_call("J3", of_java[0], it)
        if code == "J4":
            return self._of_kind(expression, it)
        if code == "J5" and not calls:
            kind = self.specification.kind_of(expression, it)
            return None if kind is None else f"This is {_article(kind)}, and no argument of this kind is taken here."
        word = expression.word.text
        if expression.form in (Form.CAST, Form.INSTANCE) and word not in self.specification.classes:
            return f"There is no class {word}. {self._near(word, self.specification.classes)}".strip()
        unknown = [made for made in calls if code == "J3" and self._is_unknown(made, it)]
        unknown.sort(key=lambda made: made.start != expression.start)
        if code == "J3" and calls and not unknown:
            return self._of_far(calls, it)
        return self._of_call(code, (unknown or calls[-1:])[0], it) if calls else None

    def _of_far(self, calls: List[Expression], it: Declaration) -> Optional[str]:
        """What is said of calls of attributes each of which is declared: one has a kind that isn't there, or is none of the root's."""
        for call in calls:
            if self.hints.is_missed_at_root(call, it):
                return f"The class of the root, {self.specification.grammar.start}, has no {call.word.text}: no node stands above it."
            known = self.hints.attribute_of(call, it)
            kind = None if known is None else known.declaration.kind
            if kind is not None and kind.text in NODES:
                return f"{call.word.text} has the kind {kind.text}, and no such class is declared."
        return None

    def _of_loop(self, among: Expression, it: Declaration) -> str:
        """What is said of a loop over what is no list of the tree."""
        kind = self.specification.kind_of(among, it)
        return f"A loop goes over a list of the tree, as `getStmtList()`{f', and this is {_article(kind)}' if kind else ''}."

    def _of_unbound(self, name: Expression, it: Declaration) -> str:
        """What is said of a name that is none: with a call behind it that of a class of Java, or `super`."""
        word = name.word.text
        call = next((made for made in it.made if made.form is Form.CALL and made.receiver is name), None)
        if call is not None and word == "super":
            return f"There is no `super` here, and so no `super.{call.word.text}`."
        if call is not None and word[:1].isupper():
            return f"`{word}.{call.word.text}` is Java: no name {word} is bound here."
        return f"No name {word} is bound here. {self._near(word, [known.name.text for known in name.bound])}".strip()

    def _is_unknown(self, call: Expression, it: Declaration) -> bool:
        """Whether a call is of what its receiver hasn't, where the receiver's class is known."""
        of, name = self.specification.receiver_kind(call, it), call.word.text
        return of in self.specification.grammar and of is not None and name not in self.specification.accessors(of) \
            and self.specification.attribute(of, name, len(call.arguments)) is None

    def _of_kind(self, expression: Expression, it: Declaration) -> Optional[str]:
        whole = self.hints.operation(expression, it)
        kinds = [self.specification.kind_of(part, it) for part in whole.parts]
        kind = self.specification.kind_of(expression, it)
        if whole.form is Form.BINARY and len(kinds) == 2 and kinds[0] and kinds[1] and not _fit(whole.word.text, *kinds):
            return f"`{whole.word.text}` doesn't stand between {_article(kinds[0])} and {_article(kinds[1])}."
        of_text = next((made for made in expression.all() if self.hints.is_of_text(made, it)), None)
        if of_text is not None:
            return f"A String has no {of_text.word.text}."
        if expression is it.body and it.kind is not None and kind is not None:
            return f"This is {_article(kind)}, and {_article(it.kind.text)} is wanted."
        return None if kind is None else f"This is {_article(kind)}, and another kind is wanted here."

    def _of_call(self, code: str, call: Expression, it: Declaration) -> Optional[str]:
        of, name = self.specification.receiver_kind(call, it), call.word.text
        if of is None:
            return None
        if code == "J5":
            known = self.specification.attribute(of, name, len(call.arguments))
            return None if known is None else f"The attribute is declared as {self._head(known)}."
        if is_java_kind(of):
            return f"`{of}` is a type of Java, and nothing is asked of it here: there is no {name}."
        if of not in self.specification.grammar:
            return f"{_article(of).capitalize()} has no {name}."
        return self._of_number(of, name, len(call.arguments)) or f"{of} has no attribute or accessor {name}. " \
            f"{self._near(name, [*self.specification.accessors(of), *self._attributes(of)])}".strip()

    def _of_number(self, of: str, name: str, count: int) -> Optional[str]:
        """What is said where attributes of a name are told apart by how many parameters they have, and a class has others than those with
        so many; None where it has none of the name at all, or the name isn't overloaded."""
        found = [it for it in self.specification.attributes_of(of) if it.declaration.name is not None and it.declaration.name.text == name] \
            if of in self.specification.grammar and self.specification.overloads(name) else []
        return f"{of} has no {name} with {_parameters(count)}. It has {_either(map(self._head, found))}." if found else None

    def _attributes(self, of: str) -> List[str]:
        return [it.declaration.name.text for it in self.specification.attributes_of(of) if it.declaration.name is not None] \
            if of in self.specification.grammar else []

    def _head(self, placed: Placed) -> str:
        it, text = placed.declaration, self.specification.text(placed.file)
        head = re.sub(r"\s+", " ", text[it.start:it.parameters_end or it.end])
        return f"`{head}` at {self._line(placed.file, it.start)}"

    def _line(self, file: str, offset: int) -> str:
        return f"{file}:{self.specification.text(file).count(chr(10), 0, offset) + 1}"

    def _near(self, word: str, known: Iterable[str]) -> str:
        """What is there instead: the names that are most like it, and then others, up to some."""
        import difflib  # of an unknown name alone

        names = sorted(set(known))
        near = difflib.get_close_matches(word, names, SHOWN, 0.5)
        shown = near or names[:SHOWN]
        more = len(names) - len(shown)
        return f"There is {_listed(shown)}{f', and {more} more' if more > 0 else ''}." if shown else ""


def _smallest(it: Declaration, offset: int) -> Optional[Expression]:
    """The smallest expression that begins at an offset."""
    return next((made for made in sorted(it.made, key=lambda made: made.end) if made.start == offset), None)


def _asked(text: str) -> List[str]:
    """The names that a text of Java asks as accessors are named, each once."""
    words = Scan(text, is_lenient=True).words()
    found = [it.text for it, behind in zip(words, words[1:]) if behind.text == "(" and re.match(r"(get|has)[A-Z]", it.text)]
    return list(dict.fromkeys(found))


def _parameters(count: int) -> str:
    """So many parameters."""
    return f"{count} parameter{'s' * (count != 1)}"


def _either(heads: Iterable[str]) -> str:
    """Heads of declarations, one behind the other."""
    return ", and ".join(heads)


def _fit(sign: str, left: Optional[str], right: Optional[str]) -> bool:
    """Whether values of these kinds may stand on the two sides of an operator."""
    if sign in ("||", "&&"):
        return left == right == "boolean"
    if sign in ("==", "!="):
        return left != "String" and (left in ("int", "boolean")) == (right in ("int", "boolean"))
    return (sign == "+" and left == "String" and right in ("String", "int")) or left == right == "int"


def _word(text: str, offset: int) -> str:
    found = _WORD.match(text, offset)
    return "" if found is None else found[0]


def _shown(word: str) -> str:
    return f"`{word}`" if word else "the end of the file"


def _listed(names: List[str]) -> str:
    return ", ".join(names[:SHOWN]) + (f", and {len(names) - SHOWN} more" if len(names) > SHOWN else "")


def _article(kind: str) -> str:
    if kind.endswith("*"):
        return f"a list of {kind[:-1]}"
    return {"null": "null", "int": "an int"}.get(kind, f"a {kind}")
