"""The command line: `python3 -m attrd_lsp [--program PROGRAM] [--keep N] [--language FOLDER]`."""
from __future__ import annotations

import sys
from pathlib import Path
from typing import List, Optional

from ..main import command_line, serve_editor
from .language import NoLanguage, in_folder, tutorials


def main(words: Optional[List[str]] = None) -> int:
    """Serves an editor on standard input and output; the exit status."""
    parser = command_line("A language server for the tutorial's language, over attrd.")
    language_help = "a folder with the grammar and the aspects (the tutorial's if none is given)"
    parser.add_argument("--language", type=Path, help=language_help)
    options = parser.parse_args(words)
    try:
        language = tutorials() if options.language is None else in_folder(options.language)
    except NoLanguage as fault:
        print(f"attrd_lsp: {fault}", file=sys.stderr)
        return 2
    return serve_editor(language, options)
