"""The commands of lines, as text: everything behind the session and `at VERSION`."""
from __future__ import annotations

from typing import Any, Iterable, Union

from .errors import LineFault
from .lexical import GREATEST_INT, GREATEST_VERSION, LEAST_INT, is_name, quoted
from .paths import FromMark, Path
from .terms import Node, Token, write_term, write_token

Place = Union[str, Path, FromMark, Any]
Argument = Union[str, bool, int, Path, FromMark, None, Any]


def place_text(place: Place) -> str:
    """The place as a line spells it. Texts are read, so that a wrong one isn't sent; marks give their place.

    Raises SyntaxFault where a text is no place, LineFault where the value is none.
    """
    if isinstance(place, str):
        return str(FromMark.read(place) if place.startswith("$") else Path.read(place))
    if isinstance(place, (Path, FromMark)):
        return str(place)
    marked = getattr(place, "place", None)
    if isinstance(marked, (Path, FromMark)):
        return str(marked)
    raise LineFault(f"a place is a str that spells one, a Path, a mark or a View, and not {_told(place)}")


def _told(value: object) -> str:
    return "None" if value is None else f"{type(value).__name__} {value!r}"[:60]


def name_text(name: str) -> str:
    """The name, where it is one. Raises LineFault."""
    if not isinstance(name, str) or not is_name(name):
        raise LineFault(f"no name of a line: {name!r}")
    return name


def argument_text(argument: Argument) -> str:
    """An argument: a `str` is a text, an `int` or a `bool` is one, a place is a Path, a FromMark, a mark or a View, and None is null. Raises
    LineFault."""
    if argument is None:
        return "null"
    if isinstance(argument, str):
        return quoted(argument)
    if isinstance(argument, int) and LEAST_INT <= argument <= GREATEST_INT:
        return write_token(argument)
    try:
        return place_text(argument)
    except LineFault:
        raise LineFault("an argument is a str (for a text), an int of 32 bits, a bool, a Path, a mark or a View (for a node), or None (for null), "
                        f"and not {_told(argument)}") from None


def index_text(index: int) -> str:
    """The index. Raises LineFault where it is no index of at most nine digits."""
    if type(index) is not int or not 0 <= index <= 999_999_999:
        raise LineFault(f"no index: {index!r}")
    return str(index)


def value_text(value: Token) -> str:
    """The value of a token. Raises LineFault where it is none."""
    if not isinstance(value, (str, int)) or (isinstance(value, int) and not LEAST_INT <= value <= GREATEST_INT):
        raise LineFault(f"a token is a str, an int of 32 bits or a bool, and not {_told(value)}")
    return write_token(value)


def term_text(term: Union[str, Node]) -> str:
    """The term of a tree; a `str` is sent as it is. Raises LineFault."""
    if not isinstance(term, (str, Node)):
        raise LineFault(f"a term is a Node, or a str that spells one, and not {_told(term)}")
    return term if isinstance(term, str) else write_term(term)


def ask(place: Place, attribute: str, arguments: Iterable[Argument] = ()) -> str:
    """A question. Raises LineFault and SyntaxFault, as all of these do, where a part of the line can't be spelled."""
    return f"ask {place_text(place)} {name_text(attribute)}({','.join(map(argument_text, arguments))})"


def post(place: Place, attribute: str, arguments: Iterable[Argument] = ()) -> str:
    """A question that is gone on with between lines."""
    return f"post {place_text(place)} {name_text(attribute)}({','.join(map(argument_text, arguments))})"


def wait(number: int) -> str:
    """Has the server go on with a posted question until it is answered."""
    if type(number) is not int or not 1 <= number <= GREATEST_VERSION:
        raise LineFault(f"no number of a question: {number!r}")
    return f"wait {number}"


def show(place: Place) -> str:
    """The term of a node."""
    return f"show {place_text(place)}"


def set_node(place: Place, term: Union[str, Node]) -> str:
    """A tree in the place of a node."""
    return f"set {place_text(place)} {term_text(term)}"


def put(place: Place, part: str, term: Union[str, Node]) -> str:
    """A tree into an empty optional."""
    return f"put {place_text(place)} {name_text(part)} {term_text(term)}"


def drop(place: Place) -> str:
    """An element, or what stands in an optional, goes."""
    return f"drop {place_text(place)}"


def insert(place: Place, part: str, index: int, term: Union[str, Node]) -> str:
    """A tree into a list."""
    return f"insert {place_text(place)} {name_text(part)} {index_text(index)} {term_text(term)}"


def token(place: Place, part: str, value: Token) -> str:
    """Another value for a token."""
    return f"token {place_text(place)} {name_text(part)} {value_text(value)}"


def move(place: Place, target: Place, part: str, index: int) -> str:
    """An element to another place of a list; the index counts without it."""
    return f"move {place_text(place)} to {place_text(target)} {name_text(part)} {index_text(index)}"


def mark(name: str, place: Place) -> str:
    """A name for a node."""
    return f"mark {name_text(name)} {place_text(place)}"


def unmark(name: str) -> str:
    """Removes a name."""
    return f"unmark {name_text(name)}"


def where(name: str) -> str:
    """The path of a marked node."""
    return f"where {name_text(name)}"


def version() -> str:
    """How many edits were accepted."""
    return "version"
