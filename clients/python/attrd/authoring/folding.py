"""Which folds over lists are searches where the program looks names up by key (`--index`), and why the others are none.

The rules are those of the manual, section 10, "Names looked up by key". Beside these the program wants to know the class of the node that
has the list: it knows that of names, casts, children and attributes without arguments. Where JastAdd's own language is read, a loop that
looks for an element is the fold that it means, and is told once. A body that can't be read to its end is passed over.
"""
from __future__ import annotations

from typing import Dict, Iterable, Iterator, List, NamedTuple, Optional, Sequence, Tuple

from ..grammar import Part, Shape
from .aspect_tree import Declaration, Expression, Form
from .specification import Placed, Source, Specification, component_of

# The folds that may be searches.
LOOKING = ("exists", "first")
# The word of a loop that is read as such a fold.
LOOP = "for"
# The program notes in 32 bits which classes compare a token, from a number on that is a multiple of four.
WINDOW, STEP = 32, 4
TOO_FAR = "the classes stand too far apart in the grammar"
OTHER_TEXT = "the text isn't a literal or a parameter"
NOT_REACHED = "isn't reached by names, casts, children and attributes without arguments alone"


class FoldNote(NamedTuple):
    """Of an `exists` or a `first`, or a loop that is read as one, at a place of a file: its text up to the braces, and why it is no search.
    The reason is empty where it is one, and `tokens` are then those by which it looks, by the classes of the list. Its word stands from
    `start` to before `end`."""

    file: str
    line: int
    column: int
    start: int
    end: int
    head: str
    reason: str
    tokens: Tuple[str, ...]

    @property
    def told(self) -> str:
        """What there is to tell of it, without its place."""
        told = f"no search: {self.reason}" if self.reason else f"a search by the token {' or '.join(self.tokens)}"
        return f"`{self.head}` is {told}."

    def __str__(self) -> str:
        return f"{self.file}:{self.line}:{self.column}: note. {self.told}"


def searches(grammar: Source, aspects: Sequence[Source], forms: str = "") -> List[FoldNote]:
    """A note for each `exists` and each `first`, where these forms are read, in the order of the texts; none where the grammar has a
    fault."""
    return searches_of(Specification(grammar, aspects, forms))


def searches_of(specification: Specification) -> List[FoldNote]:
    """The same of what was read already."""
    if specification.whole.faults:
        return []
    judge = _Judge(specification)
    return [note for placed in specification.declarations for note in judge.notes(placed)]


class _Element(NamedTuple):
    """What a fold goes over: the name of an element, and the class of the list."""

    name: str
    of: str


class _Token(NamedTuple):
    """A token that is compared: its name, and where it stands among the components of its class."""

    name: str
    position: int


class _Verdict(NamedTuple):
    """Why a fold is no search; where it is one the reason is empty, and there are the names of the tokens by which it looks."""

    reason: str
    tokens: Tuple[str, ...] = ()


class _Judge:
    """Tells which folds are searches."""

    def __init__(self, specification: Specification) -> None:
        self.specification, self.grammar = specification, specification.grammar
        self.numbers: Dict[str, int] = {name: number for number, name in enumerate(self.grammar.classes)}

    def notes(self, placed: Placed) -> Iterator[FoldNote]:
        """Those of the folds in the body of a declaration, in the order of the text."""
        file, it = placed
        text = self.specification.text(file)
        for fold in _folds(it.body):
            at = fold.word.at
            line, begin = text.count("\n", 0, at) + 1, text.rfind("\n", 0, at) + 1
            head = " ".join(text[at:fold.parts[0].end].split()) + ")"
            end = at + len(LOOP if text.startswith(LOOP, at) else fold.word.text)
            verdict = self._verdict(fold, it)
            yield FoldNote(file, line, at - begin + 1, at, end, head, verdict.reason, verdict.tokens)

    def _verdict(self, fold: Expression, within: Declaration) -> _Verdict:
        """Whether a fold is a search."""
        among, test = fold.parts
        kind = self.specification.kind_of(among, within)
        if among.form is not Form.CALL or kind is None or not kind.endswith("*"):
            return _Verdict("it goes over no list")
        if not _is_reached(among.receiver):
            return _Verdict(f"the node with the list {NOT_REACHED}")
        if not all(_is_reached(it.among.receiver) for it in fold.bound if it.among is not None):
            return _Verdict(f"the node with the list of a fold around it {NOT_REACHED}")
        element = _Element(test.bound[-1].name.text, kind.rstrip("*"))
        first, *others = [self._of_test(it, element) for it in _conjuncts(test)]
        return _Verdict("the test isn't first") if first.reason and any(not it.reason for it in others) else first

    def _of_test(self, test: Expression, element: _Element) -> _Verdict:
        """Whether elements are looked for by a test."""
        if test.form is Form.CALL and test.receiver is not None and len(test.arguments) == 1:
            receiver, argument = _plain(test.receiver), _plain(test.arguments[0])
            if _is_name(receiver, element.name):
                return self._of_call(test.word.text, argument, element)
            names = [self._token_of(it, element) for it in (receiver, argument)]
            if test.word.text == "equals" and any(names):
                return self._of_token(names[0] or names[1] or "", argument if names[0] else receiver, element)
        return _nothing_compared(element)

    def _of_token(self, name: str, text: Expression, element: _Element) -> _Verdict:
        """The same of a comparison of a token of the element with a text."""
        classes = self.grammar.concrete_below(element.of)
        places = {self._position(it, name) for it in classes}
        if len(places) != 1 or None in places:
            return _Verdict(f"not each class below {element.of} has the token {name} at one position")
        return self._near(classes, (name,)) if _is_given(text) else _Verdict(OTHER_TEXT)

    def _of_call(self, name: str, text: Expression, element: _Element) -> _Verdict:
        """The same of an attribute of the element that is asked with a text."""
        placed = self.specification.attribute(element.of, name, 1)
        if placed is None:
            return _nothing_compared(element)
        it, above = self._declared(placed.declaration, element.of)
        kinds = [None if binding.kind is None else binding.kind.text for binding in it.parameters]
        for is_wrong, reason in ((kinds != ["String"], f"`{name}` doesn't have one parameter, a String"),
                                 (it.form == "inh", f"`{name}` is inherited"),
                                 (it.is_lazy, f"`{name}` is lazy"),
                                 (it.is_circular, f"`{name}` is circular"),
                                 (not _is_given(text), OTHER_TEXT)):
            if is_wrong:
                return _Verdict(reason)
        return self._of_equations(name, self._equations(it, above))

    def _of_equations(self, name: str, equations: Dict[str, Optional[Declaration]]) -> _Verdict:
        """The same of an attribute of which classes have these equations."""
        compared: Dict[str, _Token] = {}
        for of, equation in equations.items():
            if equation is None or equation.of is None or equation.body is None:
                return _Verdict(f"the class {of} has no equation for `{name}`")
            token, body = self._compared(equation), _plain(equation.body)
            if token is not None:
                compared[of] = token
            elif (body.form, body.word.text) != (Form.CONSTANT, "false"):
                return _Verdict(f"the class {equation.of.text} has another equation for `{name}`")
        if not compared:
            return _Verdict(f"no equation for `{name}` compares a token with its parameter")
        if len({it.position for it in compared.values()}) > 1:
            return _Verdict(f"the tokens that `{name}` compares don't stand at one position")
        return self._near(compared, tuple(dict.fromkeys(it.name for it in compared.values())))

    def _near(self, classes: Iterable[str], tokens: Tuple[str, ...]) -> _Verdict:
        """The same of classes that compare these tokens, of which there are some."""
        numbers = [self.numbers[it] for it in classes]
        return _Verdict(TOO_FAR) if max(numbers) - min(numbers) // STEP * STEP >= WINDOW else _Verdict("", tokens)

    def _declared(self, it: Declaration, of: str) -> Tuple[Declaration, str]:
        """The declaration of which this one, asked of nodes of a class, is an equation, or itself, and the class for which that is."""
        name = "" if it.name is None else it.name.text
        above = self.specification.declared_above(it)
        while above is not None:
            it, above = above.declaration, self.specification.declared_above(above.declaration)
        own, top = "" if it.of is None else it.of.text, self.grammar.ancestors(of)[-1]
        named = [placed.declaration for placed in self.specification.named(name, 1)]
        everywhere = next((other for other in named if other.form == it.form == "syn" and self.specification.is_everywhere(other)), None)
        return (it, own) if everywhere is None or own == top else (everywhere, top)

    def _equations(self, attribute: Declaration, above: str) -> Dict[str, Optional[Declaration]]:
        """By each class below one that may have nodes its equation for an attribute: that of the nearest class upward."""
        found = {it.declaration.of.text: it.declaration for it in self.specification.equations(attribute) if it.declaration.of is not None}
        default = found.get("ASTNode")
        return {of: next((found[it] for it in self.grammar.ancestors(of) if it in found), default)
                for of in self.grammar.concrete_below(above)}

    def _compared(self, equation: Declaration) -> Optional[_Token]:
        """The token of `this` that an equation compares with its parameter; None where it does something else."""
        if equation.body is None or equation.of is None or not equation.parameters:
            return None
        body, parameter = _plain(equation.body), equation.parameters[0].name.text
        if body.word.text != "equals" or body.receiver is None or len(body.arguments) != 1:
            return None
        one, other = _plain(body.receiver), _plain(body.arguments[0])
        if _is_name(other, parameter):
            one, other = other, one
        name = _component(other) if _is_name(one, parameter) and _is_this(other.receiver) else ""
        position = self._position(equation.of.text, name)
        return None if position is None else _Token(name, position)

    def _token_of(self, it: Expression, element: _Element) -> Optional[str]:
        """The token of the element that an expression is; None where it is none of any class below."""
        if it.receiver is None or not _is_name(_plain(it.receiver), element.name):
            return None
        name = _component(it)
        classes = (element.of, *self.grammar.concrete_below(element.of))
        return name if name and any(self._position(of, name) is not None for of in classes) else None

    def _position(self, of: str, name: str) -> Optional[int]:
        """Where among the components of a class its token of this name is, which is a String; None where it has none."""
        parts = self._parts(of) if of in self.grammar else []
        return next((place for place, it in enumerate(parts) if (it.name, it.shape, it.kind) == (name, Shape.TOKEN, "String")), None)

    def _parts(self, of: str) -> List[Part]:
        """The components of a class, inherited ones first; the constants of each class stand behind what it declares itself."""
        found: List[Part] = []
        for above in reversed(self.grammar.ancestors(of)):
            found += self.grammar.classes[above].own
            constants = self.specification.constants(above)
            found += [component_of(it) for it in constants if it.declaration.of is not None and it.declaration.of.text == above]
        return found


def _all(body: Optional[Expression]) -> List[Expression]:
    """A body and all expressions in it. Ways through statements share what stands behind them, so nothing is gone through twice."""
    seen: Dict[int, Expression] = {}
    left = [] if body is None else [body]
    while left:
        it = left.pop()
        if id(it) not in seen:
            seen[id(it)] = it
            left += it.parts
    return list(seen.values())


def _folds(body: Optional[Expression]) -> List[Expression]:
    """The folds in a body that may be searches, in the order of the text, one of those that a loop means."""
    found = {it.word.at: it for it in _all(body) if it.form is Form.FOLD and it.word.text in LOOKING}
    return [found[at] for at in sorted(found)]


def _conjuncts(test: Expression) -> List[Expression]:
    """What stands between the `&&` of a test, from the left."""
    it = _plain(test)
    if (it.form, it.word.text) != (Form.BINARY, "&&"):
        return [it]
    return [*_conjuncts(it.parts[0]), *_conjuncts(it.parts[1])]


def _plain(it: Expression) -> Expression:
    """An expression without the parentheses around it."""
    return _plain(it.parts[0]) if it.form is Form.GROUP else it


def _is_name(it: Expression, name: str) -> bool:
    return (it.form, it.word.text) == (Form.NAME, name)


def _is_this(receiver: Optional[Expression]) -> bool:
    """Whether a call on that, or with no receiver, is asked of `this`."""
    plain = None if receiver is None else _plain(receiver)
    return plain is None or (plain.form, plain.word.text) == (Form.CONSTANT, "this")


def _is_reached(node: Optional[Expression]) -> bool:
    """Whether the program knows the class of a node where it looks for searches."""
    if node is None or node.form is Form.NAME:
        return True
    if node.form in (Form.GROUP, Form.CAST):
        return _is_reached(node.parts[0])
    return not node.arguments and _is_reached(node.receiver) if node.form is Form.CALL else _is_this(node)


def _is_given(text: Expression) -> bool:
    """Whether a text is a literal or a parameter."""
    binding = next((it for it in reversed(text.bound) if it.name.text == text.word.text), None) if text.form is Form.NAME else None
    return text.form is Form.TEXT or (binding is not None and binding.kind is not None and binding.kind.text == "String")


def _component(it: Expression) -> str:
    """The component of which a call may be the accessor; empty where there is none."""
    name = it.word.text
    return name[3:] if it.form is Form.CALL and not it.arguments and name.startswith("get") else ""


def _nothing_compared(element: _Element) -> _Verdict:
    return _Verdict(f"no token of {element.name} is compared with a text")
