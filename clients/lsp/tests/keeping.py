#!/usr/bin/env python3
"""A program for tests: `attrd` as it is with the option `--keep`, whether or not the program behind it has that.

    keeping.py [OPTION ..] --keep N -- GRAMMAR TREE ASPECT..

ATTRD names the program behind it, which gets all words but `--keep N`. WORDS is a file that notes the options."""
from __future__ import annotations

import os
import sys
from pathlib import Path
from typing import List


def main(words: List[str]) -> int:
    """Tells the options, or becomes the program behind it."""
    if words == ["--help"]:
        print("      --slice <N>\n      --keep <N>\n      --work")
        return 0
    Path(os.environ["WORDS"]).write_text(" ".join(words[: words.index("--")]))
    at = words.index("--keep")
    os.execv(os.environ["ATTRD"], [os.environ["ATTRD"], *words[:at], *words[at + 2 :]])


if __name__ == "__main__":
    sys.exit(main(sys.argv[1:]))
