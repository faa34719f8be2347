"""The command line: `python3 -m attrd_aspects [--program PROGRAM] [--forms WORDS]`."""
from __future__ import annotations

import argparse
import sys
from typing import List, Optional

from attrd.programs import FORMS_HELP
from attrd.versions import VERSION
from attrd_lsp.editor import Editor, EditorGone
from attrd_lsp.rpc import Inbox

from .server import Server


def main(words: Optional[List[str]] = None) -> int:
    """Serves an editor on standard input and output; the exit status: 0 where the editor said before that it ends, else 1."""
    parser = argparse.ArgumentParser(prog="attrd_aspects", description="A language server for grammars (.ast) and aspects (.jrag) of attrd.")
    parser.add_argument("--program", default="attrd", help="the program attrd (found on the PATH if it isn't given)")
    parser.add_argument("--forms", metavar="WORDS", default="", help=FORMS_HELP)
    parser.add_argument("--version", action="version", version=f"attrd-aspects {VERSION}")
    options = parser.parse_args(words)
    try:
        return Server(Inbox(sys.stdin.fileno()), Editor(sys.stdout.buffer), options.program, options.forms).serve()
    except EditorGone:
        return 1
