"""What is answered of a place in a grammar or in aspects."""
from __future__ import annotations

from pathlib import Path
from typing import Any, Dict, List, Optional

from attrd.authoring import Finding, Meaning, Names, Place, Specification, completions
from attrd.authoring.aspect_tree import Declaration
from attrd_lsp.positions import Span, Text

from .folder import Folder

Json = Dict[str, Any]
ERROR = 1
# The protocol's numbers for kinds of completions and of symbols.
CLASS, FIELD, FUNCTION, KEYWORD, VALUE = 7, 5, 3, 14, 12
SYMBOLS = {"class": 5, "syn": 6, "inh": 6, "eq": 12}


def range_of(text: Text, start: int, end: int) -> Json:
    """The stretch of the text, for the editor."""
    return {"start": text.position(start)._asdict(), "end": text.position(end)._asdict()}


def location_of(folder: Folder, place: Place) -> Json:
    """A place, for the editor."""
    path = Path(place.file)
    return {"uri": path.as_uri(), "range": range_of(folder.text(path), place.start, place.end)}


def hover(folder: Folder, path: Path, offset: int) -> Optional[Json]:
    """What there is to tell of the name at an offset, or of the fold whose word stands there; None where neither does."""
    meaning, text = folder.names().at(str(path), offset), folder.text(path)
    if meaning is not None:
        return _hover(meaning.told, range_of(text, meaning.place.start, meaning.place.end))
    fold = next((it for it in folder.folds() if it.file == str(path) and it.start <= offset <= it.end), None)
    return None if fold is None else _hover(f"With --index {fold.told}", range_of(text, fold.start, fold.end))


def _hover(told: str, place: Json) -> Json:
    return {"contents": {"kind": "plaintext", "value": told}, "range": place}


def definition(folder: Folder, path: Path, offset: int) -> List[Json]:
    """Where the name at an offset is declared."""
    meaning = folder.names().at(str(path), offset)
    return [] if meaning is None else [location_of(folder, it) for it in meaning.declared]


def equations(folder: Folder, path: Path, offset: int) -> List[Json]:
    """Where the equations of the attribute at an offset stand, or the constant of a component."""
    names = folder.names()
    meaning = names.at(str(path), offset)
    found = _constants(names, meaning)
    for placed in _declarations(folder, meaning):
        for it in names.specification.equations(placed):
            word = it.declaration.name
            if word is not None and Place(it.file, word.at, word.end) not in found:
                found.append(Place(it.file, word.at, word.end))
    return [location_of(folder, it) for it in found]


def _constants(names: Names, meaning: Optional[Meaning]) -> List[Place]:
    """Where the constants of what is meant have their names."""
    words = ((it.file, it.declaration.name) for it in names.specification.declarations if it.declaration.constant is not None)
    places = [Place(file, word.at, word.end) for file, word in words if word is not None]
    return [] if meaning is None else [it for it in meaning.declared if it in places]


def _declarations(folder: Folder, meaning: Optional[Meaning]) -> List[Declaration]:
    if meaning is None or meaning.key[0] != "attribute":
        return []
    declared = set(meaning.declared)
    return [it.declaration for it in folder.names().specification.named(meaning.key[-1])
            if it.declaration.name is not None and Place(it.file, it.declaration.name.at, it.declaration.name.end) in declared]


def references(folder: Folder, path: Path, offset: int) -> List[Json]:
    """Where all names stand that mean what the one at an offset means."""
    meaning = folder.names().at(str(path), offset)
    return [] if meaning is None else [location_of(folder, it) for it in folder.names().references(meaning)]


def completion(folder: Folder, path: Path, offset: int) -> List[Json]:
    """The names that may stand at an offset."""
    found = completions(folder.names().specification, str(path), offset)
    return [{"label": name, "detail": told, "kind": _kind(name, told)} for name, told in sorted(found.items())]


def _kind(name: str, told: str) -> int:
    if told == "class":
        return CLASS
    if not told:
        return KEYWORD
    return FUNCTION if "(" in told else FIELD if name.startswith(("get", "has")) else VALUE


def symbols(folder: Folder, path: Path) -> List[Json]:
    """The classes or the declarations of a file, in the order of its text."""
    text, specification = folder.text(path), folder.names().specification
    if path.suffix == ".ast":
        return [_symbol(text, it.name.text, "class", it.name.at, it.name.end) for it in specification.whole.declared]
    own = [it.declaration for it in specification.declarations if it.file == str(path) and it.declaration.name is not None]
    return [_symbol(text, _head(it, specification), it.form, it.start, it.end) for it in own]


def _head(it: Declaration, specification: Specification) -> str:
    """What a declaration is for; with the kinds of its parameters where others of its name have other numbers of them."""
    getter, name = "" if it.getter is None else f"{it.getter.text}().", "" if it.name is None else it.name.text
    kinds = [binding.kind.text for binding in it.parameters if binding.kind is not None]
    behind = f"({', '.join(kinds)})" if specification.overloads(name) else ""
    return f"{'' if it.of is None else it.of.text}.{getter}{name}{behind}"


def _symbol(text: Text, name: str, form: str, start: int, end: int) -> Json:
    stretch = range_of(text, start, end)
    return {"name": name, "detail": form, "kind": SYMBOLS.get(form, VALUE), "range": stretch, "selectionRange": stretch}


def diagnostic(text: Text, it: Finding) -> Json:
    """A fault, for the editor: at its word, or at the character before where it stands at the end."""
    span = Span(it.start, it.end) if it.end > it.start else Span(max(0, it.start - 1), it.start)
    return {"range": range_of(text, span.start, span.end), "severity": ERROR, "source": "attrd", "code": it.code,
            "message": f"{it.code} {it.name}. {it.message} {it.hint}{f' (docs/FROM_JASTADD.md, {it.section})' if it.section else ''}"}
