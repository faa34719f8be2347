"""Starts the program, or connects to one."""
from __future__ import annotations

import os
import shutil
import subprocess
import tempfile
import warnings
from dataclasses import dataclass
from functools import lru_cache
from pathlib import Path as FilePath
from typing import List, Optional, Union

from .channel import Program, open_socket
from .connection import Connection
from .errors import AttrdError, ServerLost, ServerRestarted, text_of
from .lexical import TREE_NODES
from .programs import cannot_start, path_of, program_version, start_fault
from .terms import Node, write_term
from .versions import VersionWarning, misfit


@dataclass(frozen=True)
class Text:
    """A file that isn't there: its text, under a name that messages tell."""

    name: str
    text: str


Source = Union[str, "os.PathLike[str]", Text]


class Server(Connection):
    """A program that was started here; its connection is this object. `files` are its files, as it was given them."""

    files: List[str]


def _put(folder: FilePath, source: Source) -> str:
    if not isinstance(source, Text):
        return path_of(source)
    file = folder / (FilePath(text_of("the name of a file", source.name)).name or "unnamed")
    if file.exists():
        raise AttrdError(f"two files have the name {source.name}")
    try:
        file.write_bytes(text_of(source.name, source.text).encode("utf-8"))
    except UnicodeEncodeError:
        raise AttrdError(f"{source.name}: half of a surrogate pair, which UTF-8 can't spell") from None
    except (OSError, ValueError) as fault:
        raise AttrdError(f"{source.name}: it can't be written: {getattr(fault, 'strerror', None) or fault}") from None
    return str(file)


def start(grammar: Source, tree: Union[Source, Node], *aspects: Source, program: Union[str, "os.PathLike[str]"] = "attrd",
          options: Optional[List[str]] = None, nodes: Optional[int] = None) -> Server:
    """Starts the program with pipes, and waits until it answers.

    Files may be given by path or as a `Text`, the tree also as a Node. The tree may have as many nodes as `nodes` says, by
    `--nodes`; 65,536 where nothing is given. Raises StartFault where a file is refused or can't be read,
    or the program ends in another way; AttrdError where it can't be started. A VersionWarning tells, once for each program, where
    its version isn't this library's.
    """
    folder = _folder()
    try:
        source = Text("tree.txt", write_term(tree)) if isinstance(tree, Node) else tree
        files = [_put(folder, it) for it in (grammar, source, *aspects)]
        sized = [] if nodes is None else ["--nodes", str(nodes)]
        server = Server(_run([path_of(program), *(options or []), *sized, "--", *files]))
        server.files, server.nodes = files, server.nodes if nodes is None else nodes
        server.started_with = tree if isinstance(tree, Node) else None
        server.on_close(lambda: shutil.rmtree(folder, ignore_errors=True))
    except BaseException:
        shutil.rmtree(folder, ignore_errors=True)
        raise
    try:
        server.send(0, "version").version()
        _warn_of_misfit(path_of(program))
    except ServerLost as lost:
        server.close()
        raise start_fault(lost.status, lost.message) from None
    except BaseException:
        server.close()
        raise
    return server


def _folder() -> FilePath:
    try:
        return FilePath(tempfile.mkdtemp(prefix="attrd-"))
    except OSError as fault:
        raise AttrdError(f"no folder can be made for the program's files: {fault.strerror}") from None


@lru_cache(maxsize=None)
def _warn_of_misfit(program: str) -> None:
    try:
        told = misfit(program_version(program))
    except AttrdError:
        return
    if told:
        warnings.warn(f"{program}: {told}", VersionWarning, stacklevel=3)


def _run(words: List[str]) -> Program:
    try:
        errors = tempfile.TemporaryFile()
    except OSError as fault:
        raise cannot_start(words[0], fault) from None
    try:
        process = subprocess.Popen(words, stdin=subprocess.PIPE, stdout=subprocess.PIPE, stderr=errors)
    except (OSError, ValueError, UnicodeError) as fault:
        errors.close()
        raise cannot_start(words[0], fault) from None
    return Program(process, errors)


def connect(path: Union[str, "os.PathLike[str]"], seconds: float = 0.0, known: Optional[int] = None, nodes: int = TREE_NODES) -> Connection:
    """A connection to the socket at this path, which is waited for so long.

    The server serves one connection after the other: replies come when those before this one have ended. `known` is the last
    version of an earlier connection: then the first reply is waited for. `nodes` is how many nodes the server's tree may have, where
    it was started with `--nodes`. Raises AttrdError where no connection can be made, and
    ServerRestarted where the tree has a version below `known`. Another server that has had as many edits since isn't told apart
    by that; but nothing of an earlier connection is sent to it, and `Document` reads the tree that is there.
    """
    connection = Connection(open_socket(path, seconds))
    connection.nodes = nodes
    try:
        version = None if known is None else connection.send(0, "version").version()
        if version is not None and known is not None and version < known:
            raise ServerRestarted(f"the server is another one: its version is {version}, and {known} was known")
    except BaseException:
        connection.close()
        raise
    return connection
