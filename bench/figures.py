"""What the benchmarks of the clients share: the program, and tables as docs/PERFORMANCE.md has them."""
from __future__ import annotations

import os
import re
import sys
from pathlib import Path
from typing import List, Optional, Sequence

from history import note

ROOT = Path(__file__).resolve().parent.parent
# The first number of a cell, and its unit.
NUMBER = re.compile(r"([\d,]*\.?\d+) ?(ms|us|s|MiB|MB|GB|KiB|%)?(?![\w.])")
# The heads of the table that is printed.
HEADS: List[str] = []


def program_in(words: Sequence[str], usage: Optional[str]) -> str:
    """The program that the first word names, ./attrd where there is none. Ends the process where there is no such program."""
    program = Path(words[0]) if words else ROOT / "attrd"
    if not os.access(program, os.X_OK) or program.is_dir():
        sys.exit(f"{usage}\n{program}: there is no such program (make build leaves it as ./attrd)")
    return str(program.resolve())


def numbers_in(words: Sequence[str], otherwise: Sequence[int], usage: Optional[str]) -> List[int]:
    """The sizes that these words name, or the others where there are none. Ends the process where one is no number."""
    if not all(it.isdigit() and int(it) for it in words):
        sys.exit(usage)
    return [int(it) for it in words] or list(otherwise)


def table(*heads: object) -> None:
    """Prints the head of a table."""
    print()
    HEADS[:] = map(str, heads)
    for cells in (heads, ["---"] * len(heads)):
        print("| " + " | ".join(map(str, cells)) + " |", flush=True)


def row(*cells: object) -> None:
    """Prints a row of a table, and notes its numbers, each with the heads of the table and of its column."""
    print("| " + " | ".join(str(it) for it in cells) + " |", flush=True)
    for head, cell in zip(HEADS[1:], cells[1:]):
        found = NUMBER.match(str(cell))
        if found:
            note(f"{HEADS[0]}: {cells[0]}: {head}" + (f", in {found[2]}" if found[2] else ""), float(found[1].replace(",", "")))


def ms(number: float) -> str:
    """A time in milliseconds, with three digits or more."""
    return f"{number:.0f} ms" if number >= 100 else f"{number:.1f} ms" if number >= 10 else f"{number:.2f} ms"


def ratio(number: Optional[float], unit: Optional[float]) -> str:
    """How often the one goes into the other; empty where that isn't known."""
    return f"{number / unit:.2f}" if number is not None and unit else ""
