"""The command line: `python -m attrd_page GRAMMAR TREE ASPECT..`."""
from __future__ import annotations

import argparse
import asyncio
import os
import re
import signal
import sys
from contextlib import suppress
from typing import Any, List, Optional, Union

from attrd import KEPT, AttrdError, GrammarFault, StartFault, explain
from attrd.programs import FORMS_HELP
from attrd.versions import VERSION

from .front import listen
from .running import NoTree, Running, Watched
from .web import Web

LONGEST_NAME = 1 << 16
# How the file of a tree begins, and no file of aspects does.
TERM = re.compile(r"\ufeff?\s*[^\W\d]\w*\s*\(")


def options(words: Optional[List[str]] = None) -> argparse.Namespace:
    """The words of the command line. Ends the process with status 2 where they are wrong."""
    reader = argparse.ArgumentParser(prog="python -m attrd_page", description="Opens a page with the tree and probes of its attributes. "
                                     "With --listen editors and other clients share the server with it.")
    reader.add_argument("grammar", metavar="GRAMMAR")
    reader.add_argument("tree", metavar="TREE", help="may be left out with --source, whose text has a tree")
    reader.add_argument("aspects", metavar="ASPECT", nargs="*")
    reader.add_argument("--program", default="attrd", help="the program (attrd on the PATH, where none is given)")
    reader.add_argument("--keep", metavar="N", type=int,
                        help=f"how many values the program keeps at most, if it has the option ({KEPT} where none is given, more for large trees)")
    reader.add_argument("--forms", metavar="WORDS", default="", help=FORMS_HELP)
    reader.add_argument("--connect", metavar="SOCKET", help="takes the program that runs at this socket already, over these files")
    reader.add_argument("--listen", metavar="SOCKET", help="has other clients speak the server's protocol at this socket, all at once")
    reader.add_argument("--port", type=int, default=0, help="the page's port at 127.0.0.1 (a random one, where none is given)")
    reader.add_argument("--source", metavar="FILE", help="a source text, which is shown beside the tree, and can be edited; the tree follows it")
    reader.add_argument("--parser", metavar="FILE.py[:FUNCTION]",
                        help="the function that reads such a text, to the tree and the places of nodes; or one of a language server")
    reader.add_argument("--no-browser", action="store_true", help="tells the page's address, and opens no browser")
    reader.add_argument("--version", action="version", version=f"attrd-page {VERSION}")
    given = reader.parse_args(words)
    if (given.source is None) is not (given.parser is None):
        reader.error("--source and --parser belong together")
    if given.source is not None and not (given.aspects and is_tree_file(given.tree)):
        given.tree, given.aspects = None, [given.tree, *given.aspects]
    if not given.aspects:
        reader.error("the following arguments are required: ASPECT")
    return given


def is_tree_file(name: str) -> bool:
    """Whether the file is one of a tree and not one of aspects: it begins with a term, or can't be read, which the program tells."""
    try:
        with open(name, "rb") as file:
            return TERM.match(file.read(LONGEST_NAME).decode("utf-8", "replace")) is not None
    except (OSError, ValueError):
        return True


class Service:
    """What is served: a page at an address that stays, and where it is wanted the hub's own socket."""

    def __init__(self, given: argparse.Namespace, running: Running) -> None:
        self.given, self.running = given, running
        self.web = Web(running.page)
        self._front: Optional[asyncio.AbstractServer] = None

    async def begin(self) -> None:
        """Serves the page, tells its address, and opens it. Raises AttrdError where that can't be."""
        await self.web.begin(self.given.port)
        await self._listen()
        print(f"page: {self.web.address}", flush=True)
        if not self.given.no_browser:
            import webbrowser

            asyncio.get_running_loop().run_in_executor(None, webbrowser.open, self.web.address)

    async def _listen(self) -> None:
        if self.given.listen:
            self._front = await listen(self.running.hub, self.given.listen)

    def _close_front(self) -> None:
        if self._front is not None:
            self._front.close()
            with suppress(OSError):
                os.unlink(self.given.listen)

    async def serve(self, stop: asyncio.Event) -> int:
        """Serves until it is to stop, or until the server ends; the status."""
        watched = Watched([self.given.grammar, *self.given.aspects])
        while True:
            waited: List[asyncio.Future[Any]] = [asyncio.ensure_future(stop.wait()), asyncio.ensure_future(watched.changed())]
            await asyncio.wait([*waited, self.running.replies], return_when=asyncio.FIRST_COMPLETED)
            is_changed = waited[1].done()
            for it in waited:
                it.cancel()
            if stop.is_set():
                return 0
            if self.running.replies.done():
                print(f"{self.running.hub.lost}", file=sys.stderr, flush=True)
                return 3
            if is_changed and not self.given.connect:
                await self._renew()

    async def _renew(self) -> None:
        """Goes on with the files as they are now, over the tree as it is. Where one is refused, that is told, and all stays as it was."""
        try:
            other = await self.running.renewed(self.given)
        except (AttrdError, OSError) as fault:
            self.running.page.tell_files(told(fault, self.given))
            return
        before, self.running = self.running, other
        self._close_front()
        await self._listen()
        self.web.take(other.page)
        with suppress(AttrdError):
            await before.page.empty()
        await before.end()

    async def end(self) -> None:
        """Serves no more, and tells what the program told at its end."""
        await self.web.close()
        self._close_front()
        message = await self.running.end()
        if message:
            print(f"attrd: {message.strip()}", flush=True)


async def serve(given: argparse.Namespace) -> int:
    """Serves the page until a signal, or until the server ends; the status. Raises AttrdError."""
    service = Service(given, await Running.begin(given))
    stop = asyncio.Event()
    for number in (signal.SIGINT, signal.SIGTERM, signal.SIGHUP):
        asyncio.get_running_loop().add_signal_handler(number, stop.set)
    try:
        await service.begin()
        return await service.serve(stop)
    finally:
        await service.end()


def told(fault: Union[AttrdError, OSError], given: argparse.Namespace) -> str:
    """A fault in words; of a file with its place and a hint, and of the system what it says."""
    if isinstance(fault, (StartFault, GrammarFault)):
        with suppress(AttrdError):
            return str(explain(fault, [given.grammar, given.tree or given.source, *given.aspects]))
    return str(fault)


def status_of(fault: Union[AttrdError, OSError]) -> int:
    """The status with which a fault ends the page: that of the program, where it has one."""
    if isinstance(fault, (NoTree, GrammarFault)):
        return 1
    return (fault.status if isinstance(fault, StartFault) else None) or 3


def main(words: Optional[List[str]] = None) -> int:
    """Serves the page; the status: 0, 1 where a file is refused, 3 where the server is lost or nothing can be served."""
    given = options(words)
    try:
        return asyncio.run(serve(given))
    except (AttrdError, OSError) as fault:
        print(told(fault, given), file=sys.stderr)
        return status_of(fault)
    except KeyboardInterrupt:
        return 0
