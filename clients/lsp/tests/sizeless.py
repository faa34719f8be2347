#!/usr/bin/env python3
"""A program for tests: `attrd` as it is without the option `--nodes`, whether or not the program behind it has that. ATTRD names it."""
from __future__ import annotations

import os
import subprocess
import sys
from typing import List


def main(words: List[str]) -> int:
    """Tells the options but that one, or becomes the program behind it."""
    if words == ["--help"]:
        told = subprocess.run([os.environ["ATTRD"], "--help"], stdin=subprocess.DEVNULL, stderr=subprocess.PIPE, text=True)
        print("\n".join(it for it in told.stderr.splitlines() if "--nodes" not in it), file=sys.stderr)
        return told.returncode
    if any(it.startswith("--nodes") for it in words):
        return 2
    os.execv(os.environ["ATTRD"], [os.environ["ATTRD"], *words])


if __name__ == "__main__":
    sys.exit(main(sys.argv[1:]))
