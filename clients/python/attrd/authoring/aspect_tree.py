"""What an aspect file is made of: declarations and expressions, each with its stretch of the text."""
from __future__ import annotations

from dataclasses import dataclass, field
from enum import Enum
from typing import Iterator, List, Optional, Tuple

from ..scanning import Word


class Form(Enum):
    """The forms of expressions. `CALL` is also a fold's list; `GROUP` is a pair of parentheses; `NEW` stands in constants alone."""

    NUMBER = "number"
    TEXT = "text"
    CONSTANT = "constant"
    NAME = "name"
    CALL = "call"
    FOLD = "fold"
    CAST = "cast"
    INSTANCE = "instanceof"
    UNARY = "unary"
    BINARY = "binary"
    CHOICE = "choice"
    GROUP = "group"
    NEW = "new"


@dataclass(eq=False)
class Binding:
    """A name that is bound: a parameter or an index has a `kind`, that of a fold the call of its list."""

    name: Word
    kind: Optional[Word] = None
    among: Optional[Expression] = None


@dataclass(eq=False)
class Expression:
    """An expression from `start` to before `end`. `word` is its name, operator, class or constant.

    `parts` are the expressions in it, in order: a call that has a receiver has it first, and `has_receiver` says so; a fold has
    its list and its body. `bound` are the names that are bound where it stands, inner ones last.
    """

    form: Form
    start: int
    end: int
    word: Word
    parts: List[Expression] = field(default_factory=list)
    bound: Tuple[Binding, ...] = ()
    has_receiver: bool = False

    @property
    def receiver(self) -> Optional[Expression]:
        """The receiver of a call, where it has one."""
        return self.parts[0] if self.has_receiver else None

    @property
    def arguments(self) -> List[Expression]:
        """The arguments of a call."""
        return self.parts[1:] if self.has_receiver else self.parts

    def all(self) -> Iterator[Expression]:
        """It and all expressions in it, each before those in it."""
        yield self
        for part in self.parts:
            yield from part.all()


@dataclass(eq=False)
class Piece:
    """A stretch of a declaration that isn't taken, from `start` to before `end`, and `sort` says what it is. `plain` may stand in its
    place; where it is None, something of the declaration's kind may. The program tells the fault at an offset up to `reach`.
    """

    start: int
    end: int
    sort: str
    plain: Optional[str] = " "
    reach: int = 0

    def __post_init__(self) -> None:
        self.reach = max(self.reach, self.end)


@dataclass(eq=False)
class Declaration:
    """A declaration, as far as it could be read, from `start` to before `end`. `form` is syn, inh, eq or other.

    `of` is its class and `name` its attribute; an equation for a component has the word that names it in `getter`, the `accessor` for
    which that stands (`getStmt`), and perhaps the name of an `index`. `is_lazy` is whether it says `lazy`, `is_circular` whether it says
    `circular [..]`. Where a tree is written down that stands in each node of the class, or a list of some, `constant` is the word `nta`, the
    body what is written down, and `component` the name of the component in which that stands; `element` is the class of a list's elements. `pieces` are stretches that this profile leaves out (`circular [..]`, `nta`, types of Java). `locals` are the names that are
    bound in its body, each behind the kind that is written in front of it, and `untaken` the offsets of statements in it that aren't
    taken. `made` are all expressions that were read, whole ones and those of what could not be read to its end. Of the form other, `sort`
    says what it is in JastAdd2: method, field, coll and the like, or nothing where that isn't known.
    """

    form: str
    start: int
    end: int = 0
    is_whole: bool = False
    kind: Optional[Word] = None
    of: Optional[Word] = None
    getter: Optional[Word] = None
    accessor: str = ""
    index: Optional[Word] = None
    name: Optional[Word] = None
    parameters: List[Binding] = field(default_factory=list)
    parameters_end: int = 0
    body: Optional[Expression] = None
    is_lazy: bool = False
    is_circular: bool = False
    constant: Optional[Word] = None
    component: str = ""
    element: Optional[Word] = None
    pieces: List[Piece] = field(default_factory=list)
    locals: List[Tuple[Word, Binding]] = field(default_factory=list)
    untaken: List[int] = field(default_factory=list)
    made: List[Expression] = field(default_factory=list)
    sort: str = ""

    @property
    def is_declaring(self) -> bool:
        """Whether it declares an attribute, or what may stand for one: a method, or a collection attribute. A constant with the name of an
        accessor declares none: it is asked by that."""
        return (self.form in ("syn", "inh") or self.sort in ("method", "coll")) and self.name is not None and self.of is not None \
            and not self.is_named_by_accessor

    @property
    def is_named_by_accessor(self) -> bool:
        """Whether it is a constant with the name of an accessor of its component, as `getOne` or `getNamesList`."""
        return self.constant is not None and self.name is not None and self.component != self.name.text

    @property
    def tree_kind(self) -> Optional[Word]:
        """The class of a constant's tree, or of the elements of its list."""
        return self.element or self.kind
