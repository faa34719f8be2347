"""The source text beside the tree, for a language that has a parser: the hook, and what is known of the text."""
from __future__ import annotations

import importlib.util
from itertools import accumulate
from pathlib import Path as FilePath
from typing import Any, Callable, Iterable, Iterator, List, Optional, Tuple

from attrd import AttrdError, Grammar, Node, Path, difference
from attrd.grammar import read_file
from attrd.lexical import MOST_NODES
from attrd.replies import Ok

from .hub import Hub, Member
from .mirror import Astray, Mirror
from .views import Json

# The path of a node, and the offsets of its first character and behind its last.
Place = Tuple[str, int, int]
# A parser gives for a text its tree, and places of nodes; or what one of the language server gives, `attrd_lsp.Parsed`, which has these in
# its phrase. Where it can't read the text it raises any exception, with a text for the reader, or gives faults.
Parser = Callable[[str], Any]


def load_parser(spelled: str) -> Parser:
    """The function of `FILE.py` or `FILE.py:FUNCTION`, `parse` where none is named. Raises AttrdError where there is none."""
    file, colon, name = spelled.rpartition(":")
    file, name = (file, name) if colon and not name.endswith(".py") else (spelled, "parse")
    try:
        spec = importlib.util.spec_from_file_location(FilePath(file).stem, file)
        if spec is None or spec.loader is None:
            raise ImportError("it is no Python file")
        module = importlib.util.module_from_spec(spec)
        spec.loader.exec_module(module)
        found: Parser = getattr(module, name)
    except Exception as fault:
        raise AttrdError(f"{spelled}: the parser can't be loaded: {type(fault).__name__}: {fault}") from fault
    return found


def tree_and_places(answer: Any, text: str) -> Tuple[Node, Iterable[Place]]:
    """What a parser answered as a tree and places. Raises ValueError with the first fault of the text, where the answer has faults."""
    if not hasattr(answer, "faults"):
        tree, places = answer
        return tree, places
    if answer.faults or answer.phrase is None:
        raise ValueError(told_fault(answer.faults, text) or "nothing could be read")
    return answer.phrase.tree, places_of(answer.phrase)


def told_fault(faults: Iterable[Any], text: str) -> str:
    """The first of these faults with its line and column, from 1, and how many more there are; empty where there is none."""
    found = list(faults)
    if not found:
        return ""
    at = found[0].span[0]
    more = f" (and {len(found) - 1} more)" if len(found) > 1 else ""
    return f"{text.count(chr(10), 0, at) + 1}:{at - text.rfind(chr(10), 0, at)}: {found[0].text}{more}"


def places_of(top: Any) -> Iterator[Place]:
    """The places of a phrase, which is the root, and of those below it."""
    waiting = [("/", top)]
    for path, phrase in waiting:
        yield path, phrase.span[0], phrase.span[1]
        waiting += [(f"{path.rstrip('/')}/{step}", child) for step, child in phrase.children]


class SourceText:
    """A text and what the parser says of it. `version` is that of the tree when it was that of the text; `fault` why it can't be read."""

    def __init__(self, parser: Parser, grammar: Grammar, text: str) -> None:
        self.parser, self.grammar = parser, grammar
        self.text, self.fault = "", ""
        self.version: Optional[int] = None
        self.places: List[Tuple[Path, int, int]] = []
        self.tree: Optional[Node] = None
        self.take(text)

    @classmethod
    def load(cls, parser: str, grammar: Grammar, file: str) -> SourceText:
        """The text of a file. Raises AttrdError where it or the parser can't be loaded."""
        return cls(load_parser(parser), grammar, read_file(file).decode("utf-8", "replace"))

    def take(self, text: str) -> Optional[Node]:
        """Reads another text; its tree, or None where it has a fault: then there are no places."""
        self.text, self.fault, self.places, self.tree, self.version = text, "", [], None, None
        try:
            tree, places = tree_and_places(self.parser(text), text)
            self.grammar.check(tree, nodes=MOST_NODES)
            self.places = [(Path.read(path), int(start), int(end)) for path, start, end in places]
        except Exception as fault:
            self.fault = str(fault) or type(fault).__name__
            return None
        self.tree = tree
        return tree

    async def send(self, tree: Node, member: Member, hub: Hub, mirror: Mirror) -> bool:
        """Makes the server's tree the one of the text, by few edits; whether no other client came between. Raises ServerLost."""
        version = hub.version
        edits = difference(self.grammar, mirror.term(mirror.root), tree, nodes=MOST_NODES)
        self.version = version + len(edits)
        replies = await member.replies([(0, f"at {version + at} {it.command()}") for at, it in enumerate(edits)])
        if not all(isinstance(it, Ok) for it in replies):
            self.version = None
        return self.version is not None

    def match(self, mirror: Mirror, version: int) -> None:
        """Whether the tree of this version is that of the text is looked at anew."""
        self.version = version if self.tree is not None and self.tree == mirror.term(mirror.root) else None

    def view(self, mirror: Mirror, version: int) -> Json:
        """What a window shows: the text, its fault, and where nodes stand in it, as long as the tree is that of the text."""
        is_current = self.version == version
        places = self._numbered(mirror) if is_current else []
        return {"kind": "source", "text": self.text, "fault": self.fault, "isCurrent": is_current, "places": places}

    def _numbered(self, mirror: Mirror) -> List[Tuple[int, int, int]]:
        """The numbers of nodes with their places, in units of UTF-16, as browsers count them. Places of no node are passed over."""
        units = [0, *accumulate(2 if it > "\uffff" else 1 for it in self.text)]
        found: List[Tuple[int, int, int]] = []
        for path, start, end in self.places:
            try:
                item: Any = mirror.at(path)
            except Astray:
                continue
            if 0 <= start <= end < len(units):
                found.append((item.number, units[start], units[end]))
        return found
