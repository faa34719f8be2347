"""The instructions of a program, as `valgrind` counts them."""
from __future__ import annotations

import os
import re
import shutil
import subprocess
from typing import Optional, Sequence, Union

Word = Union[str, "os.PathLike[str]"]


def instructions(words: Sequence[Word], folder: Word, lines: str) -> Optional[int]:
    """How many instructions the program takes for these lines; None where there is no `valgrind`."""
    if shutil.which("valgrind") is None:
        return None
    run = subprocess.run(["valgrind", "--tool=callgrind", "--callgrind-out-file=/dev/null", *words], cwd=folder, input=lines, text=True, capture_output=True)
    counted = re.search(r"Collected : (\d+)", run.stderr)
    if counted is None:
        raise RuntimeError(f"valgrind counted nothing: {run.stderr[-500:]}")
    return int(counted[1])


def instructions_behind(words: Sequence[Word], folder: Word, before: str, lines: str) -> Optional[int]:
    """How many instructions lines take behind others; None where there is no `valgrind`."""
    all_lines = instructions(words, folder, before + lines)
    first = instructions(words, folder, before)
    return None if all_lines is None or first is None else all_lines - first
