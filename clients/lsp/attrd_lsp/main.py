"""The server of a language, and its command line: `[--program PROGRAM] [--keep N] [--check FILE ..]`."""
from __future__ import annotations

import argparse
import gc
import sys
from pathlib import Path
from typing import List, Optional

import attrd
from attrd.versions import VERSION

from .checking import check_files
from .desk import Program
from .editor import Editor, EditorGone
from .language import Language
from .language_files import LanguageFiles
from .rpc import Inbox
from .server import LanguageServer
from .workspace import Workspace

# Expressions and blocks nest as deep as a tree may be, with a few calls for each level.
CALLS = 20_000
# How many objects come before the collector looks at them: a key makes some thousands, of which few are in cycles.
OBJECTS = 20_000


def serve(language: Language, words: Optional[List[str]] = None) -> int:
    """Serves an editor on standard input and output, by the words of the command line; the exit status."""
    parser = command_line("A language server over attrd.")
    return serve_editor(language, parser.parse_args(words))


def command_line(description: str) -> argparse.ArgumentParser:
    """The options that the server of each language has."""
    parser = argparse.ArgumentParser(description=description)
    parser.add_argument("--program", default="attrd", help="the program attrd (found on the PATH if it isn't given)")
    keep_help = f"how many values attrd keeps at most, if it has the option ({attrd.KEPT} if it isn't given, more for a large tree)"
    parser.add_argument("--keep", type=int, metavar="N", help=keep_help)
    check_help = "tells what is wrong with these files, and serves no editor; the status is 1 where there is an error"
    parser.add_argument("--check", type=Path, nargs="+", metavar="FILE", help=check_help)
    parser.add_argument("--version", action="version", version=f"attrd-lsp {VERSION}")
    return parser


def serve_editor(language: Language, options: argparse.Namespace) -> int:
    """Serves an editor on standard input and output, or checks files; the exit status."""
    sys.setrecursionlimit(max(CALLS, sys.getrecursionlimit()))
    gc.set_threshold(OBJECTS)
    program = Program(options.program, options.keep)
    if options.check:
        return check_files(language, program, options.check)
    editor = Editor(sys.stdout.buffer)
    files = LanguageFiles(program, language, editor)
    try:
        return LanguageServer(Inbox(sys.stdin.fileno()), editor, Workspace(files, editor)).serve()
    except EditorGone:
        return 1
