"""Diagnostics, symbols and folds of a file, as the editor's protocol has them."""
from __future__ import annotations

from typing import Dict, Iterator, List, Sequence, Tuple

from .editor import ERROR, INFORMATION, WARNING
from .phrases import Phrase
from .positions import Span
from .project import Project
from .protocol import Json, diagnostic, range_of
from .source import Spot


def location_of(project: Project, spot: Spot) -> Json:
    """Where the phrase's name stands."""
    return {"uri": project.uris[spot.file], "range": range_of(project.texts[spot.file], spot.name)}


def diagnostics_of(project: Project, file: str) -> Sequence[Json]:
    """All that is to be told of a file: why nothing is known, where it is open; faults of its syntax, parts that are held, problems."""
    text, reading = project.texts[file], project.source.files[file]
    top = Span(0, len(text.line(0)))
    trouble = project.trouble if file in project.versions else None
    told = [(top, it, ERROR) for it in (trouble, reading.trouble) if it is not None]
    told += [(it.span, it.text, ERROR) for it in reading.faults]
    told += [(it.name, held_text(it, is_last_good), INFORMATION) for it, is_last_good in project.source.held(file)]
    told += [(it.span, it.text, ERROR if it.is_error else WARNING) for it in project.problems if it.file == file]
    source = project.source.language.source
    return [diagnostic(text, span, message, severity, source) for span, message, severity in told]


def held_text(spot: Spot, is_last_good: bool) -> str:
    """What is told of a part that the tree doesn't have as its text is."""
    version = "its last version that parsed" if is_last_good else "what could be read of it"
    return f"{spot.phrase.identifier or 'this'} has a syntax error: other messages are from {version}"


def symbols_of(project: Project, file: str) -> List[Json]:
    """The declarations of a file, each with those below it, in the order of the text."""
    source = project.source
    found: List[Json] = []
    around: List[Tuple[str, Json]] = []
    whole = Span(0, len(project.texts[file].text))
    for spot in source.in_file(file, whole, lambda number, path, _: source.declares(number, path) is not None):
        told = symbol(project, spot)
        while around and not spot.path.startswith(around[-1][0]):
            around.pop()
        (around[-1][1]["children"] if around else found).append(told)
        around.append((spot.path.rstrip("/") + "/", told))
    return found


def symbol(project: Project, spot: Spot) -> Json:
    """The symbol of a declaration, as yet without those below it."""
    text = project.texts[spot.file]
    return {
        "name": spot.phrase.identifier or spot.phrase.kind,
        "kind": project.source.symbol_kind(spot),
        "detail": detail_of(project, spot),
        "range": range_of(text, spot.span),
        "selectionRange": range_of(text, spot.name),
        "children": [],
    }


def detail_of(project: Project, spot: Spot) -> str:
    """What stands beside a symbol: the name of the component that the language says."""
    component = project.source.of_class(project.source.language.details, spot.phrase.kind)
    told = spot.phrase.child(component) if component is not None else None
    return "" if told is None else told.identifier


def matching_symbols(project: Project, query: str) -> Iterator[Json]:
    """The declarations of all files whose names have the query in them, whatever the case of letters."""
    source, wanted = project.source, query.casefold()
    for number in range(source.count):
        named = source.piece(number).named
        for below in [it for name, paths in named.items() if wanted in name.casefold() for it in paths]:
            kind = source.declares(number, below)
            if kind is not None:
                spot = source.located(number, below)
                yield {"name": spot.phrase.identifier, "kind": kind, "location": location_of(project, spot)}


def folds_of(project: Project, file: str) -> List[Json]:
    """The stretches of lines that can be folded: each phrase of more than one line, the longest one of those that begin in a line. The
    phrase of a whole file is none: its fold would hide the file."""
    text = project.texts[file]
    longest: Dict[int, int] = {}
    whole = Span(0, len(text.text))
    source, listed = project.source, project.source.language.listed
    has_parts = listed is not None and listed.starts is not None

    def is_foldable(number: int, below: str, it: Phrase) -> bool:
        return (has_parts or below != "") and "\n" in source.piece(number).text[it.span[0] : it.span[1]]

    for spot in source.in_file(file, whole, is_foldable):
        start, end = text.position(spot.span.start).line, text.position(spot.span.end).line
        if end > longest.get(start, start):
            longest[start] = end
    return [{"startLine": start, "endLine": end} for start, end in sorted(longest.items())]
