"""A program with its hub and its page, from its start to its end; and the next one, when a file of the language is another one."""
from __future__ import annotations

import argparse
import asyncio
import os
import tempfile
from pathlib import Path as FilePath
from typing import TYPE_CHECKING, Any, Dict, List, Optional, Sequence

from attrd import (AttrdError, Grammar, forms_options, gathering_options, kept_for, known_options, lasting_options, sizing_options,
                   write_term)

from .hub import Hub
from .page import Page
from .upstream import Upstream, connect, start_program

if TYPE_CHECKING:
    from .source import SourceText

LOOK_SECONDS = 0.5
# About how few bytes of a tree's file a node takes.
BYTES_A_NODE = 8


class NoTree(AttrdError):
    """The parser makes no tree of the source text, and there is no other tree to begin with."""


class Running:
    """A server that answers, with its hub and its page. `replies` ends when the server does."""

    def __init__(self, stream: Upstream, hub: Hub, replies: asyncio.Future[Any], page: Page) -> None:
        self.stream, self.hub, self.replies, self.page = stream, hub, replies, page

    @classmethod
    async def begin(cls, given: argparse.Namespace, tree: Optional[str] = None) -> Running:
        """Starts the program over the files, or over a tree in the place of that which is named; or takes the one that is told. Where no
        tree is named, it begins with that of the source text.

        Raises StartFault where a file is refused, NoTree, and AttrdError.
        """
        if tree is None and given.tree is None and not given.connect:
            with tempfile.TemporaryDirectory(prefix="attrd-page-") as folder:
                return await cls.begin(given, _tree_of_source(given, FilePath(folder)))
        files = [given.grammar, tree or given.tree or given.source, *given.aspects]
        stream = await _upstream(given, files)
        hub = Hub(stream)
        replies = asyncio.ensure_future(hub.run())
        try:
            try:
                first = hub.member()
                await first.reply("version")
                first.leave()
            except AttrdError:
                raise await stream.fault() if stream.process is not None else AttrdError(f"{given.connect}: the server has ended") from None
            source = _source(given) if given.source else None
            program = given.program if stream.process is not None else None
            page = Page(hub, [given.grammar, given.tree or given.source, *given.aspects], program, source, given.forms)
            await page.begin()
        except BaseException:
            replies.cancel()
            await hub.close()
            raise
        return cls(stream, hub, replies, page)

    async def renewed(self, given: argparse.Namespace) -> Running:
        """Another one over the files as they are now, with the tree as it is now. Raises as `begin`; this one stays what it is."""
        while True:
            version, mirror = self.hub.version, self.page.mirror
            with tempfile.TemporaryDirectory(prefix="attrd-page-") as folder:
                tree = FilePath(folder) / "tree.txt"
                tree.write_text(write_term(mirror.term(mirror.root)), "utf-8")
                other = await Running.begin(given, str(tree))
            if self.hub.version == version:
                if self.page.source is not None and other.page.source is not None:
                    other.page.source.take(self.page.source.text)
                    other.page.source.match(other.page.mirror, other.hub.version)
                return other
            await other.end()

    async def end(self) -> str:
        """Ends the page and the server; what a program that was started here wrote on standard error."""
        await self.page.end()
        self.replies.cancel()
        return await self.hub.close()


def _source(given: argparse.Namespace) -> SourceText:
    """The source text, as it stands in its file. Raises AttrdError where it, the parser or the grammar can't be loaded."""
    from .source import SourceText  # loads what makes edits of texts, which few pages have

    return SourceText.load(given.parser, Grammar.load(given.grammar, given.forms), given.source)


def _tree_of_source(given: argparse.Namespace, folder: FilePath) -> str:
    """A file in the folder with the tree of the source text. Raises NoTree where the text has none, and AttrdError."""
    source = _source(given)
    if source.tree is None:
        raise NoTree(f"{given.source}: it can't be read, and no TREE is given to begin with: {source.fault}")
    file = folder / "tree.txt"
    file.write_text(write_term(source.tree), "utf-8")
    return str(file)


async def _upstream(given: argparse.Namespace, files: Sequence[str]) -> Upstream:
    if given.connect:
        return await connect(given.connect)
    known = known_options(given.program)
    kept = kept_for(_most_nodes(files[1])) if given.keep is None else given.keep
    options = ["--work", *lasting_options(known, kept), *sizing_options(known), *gathering_options(known), *forms_options(given.forms)]
    return await start_program(given.program, files, options)


def _most_nodes(tree: str) -> int:
    """About how many nodes a tree of this file has; 0 where it can't be read, which the program tells."""
    try:
        return os.path.getsize(tree) // BYTES_A_NODE
    except OSError:
        return 0


class Watched:
    """Files that are looked at again and again."""

    def __init__(self, files: Sequence[str]) -> None:
        self.files = list(files)
        self._seen = self._stamps()

    def _stamps(self) -> Dict[str, Any]:
        found: Dict[str, Any] = {}
        for file in self.files:
            try:
                status = os.stat(file)
                found[file] = (status.st_mtime_ns, status.st_size, status.st_ino)
            except OSError:
                found[file] = None
        return found

    async def changed(self) -> List[str]:
        """Waits until a file is another one than it was when this was called last; the names of those that are."""
        while True:
            await asyncio.sleep(LOOK_SECONDS)
            before, self._seen = self._seen, self._stamps()
            found = [it for it in self.files if before[it] != self._seen[it] and self._seen[it] is not None]
            if found:
                return found
