#!/usr/bin/env python3
"""What --keep N costs where N is less than what the client's question needs: keystrokes in a realistic program, and memory.

    python3 bench/bounded.py [PROGRAM] [--nodes N ..] [--part N] [--row NAME] [--cut-off] [--hold]

PROGRAM is ./attrd where none is given. First it is found how many entries the question for all errors leaves: the least bound with which
the next edit folds none. A quarter of these (--part 4) is the bound then. In one session with it, behind an edit that folds, each kind of
keystroke is typed twice, foldings with it, and as often in a session without a bound; instructions are counted by `valgrind`, so that the
machine may be busy. A keystroke with a bound may take three times what it took in version 0.37 without one, which is written down here;
since then most of what an edit may have changed is reused where there is no bound, and that stands beside it. Memory is what the program
holds behind the first edit beside what it holds before the question, against such a part of what it holds without a bound. --row measures
the rows whose names have that in them; --cut-off gives both programs this option. With --hold the status is 1 where a bound doesn't hold;
nothing is wanted with --cut-off. It takes three minutes.
"""
from __future__ import annotations

import argparse
import re
import shutil
import subprocess
import sys
import tempfile
import time
from pathlib import Path
from typing import List, Optional, Sequence

from bounds import Bounds
from figures import program_in, row, table
from keystrokes import ASK, keystrokes
from programs import ASPECTS, GRAMMAR, written
from served import Served

from attrd import Grammar

SIZES, SEED, PART, TYPED = (10_000,), 1, 4, 2
# How many times what it took before without a bound a keystroke may take, and how many times the memory of so many entries may be held.
MOST_TIME, MOST_MEMORY = 3.0, 1.5
# What version 0.37 took without a bound, which forgot what an edit may have changed, in millions of instructions, by a program that isn't proved (a
# proved one takes about a fifth less).
BEFORE = {
    "a number that nothing rests on": 0.007,
    "a use mistyped and corrected": 0.292,
    "a statement in or out at the front of a method": 1.368,
    "a declaration in or out at the front of a method": 1.382,
    "a declaration renamed": 3.815,
    "a field renamed": 2.218,
    "a field in or out": 3.655,
    "a declaration in or out at the front of the largest scope": 25.335,
    "a class renamed": 18.805,
    "a class in or out at the top": 125.681,
    "a class in or out at the end": 125.375,
}
# The processor time that no edit takes by which nothing is folded, in seconds.
FOLDING = 0.002
# What the C library takes beside each block, in bytes.
BESIDE = 8


class Counted(Served):
    """A run of the program whose instructions are counted."""

    def __init__(self, folder: Path, words: Sequence[str]) -> None:
        self.file, self.dumps = folder / "counted", 0
        for it in folder.glob("counted*"):
            it.unlink()
        super().__init__("valgrind", folder, ["--tool=callgrind", f"--callgrind-out-file={self.file}", *words])

    def counted(self, lines: str) -> int:
        """The instructions that the program takes for the lines, with those since the last call."""
        self.spent(lines)
        subprocess.run(["callgrind_control", "--dump", str(self.run.pid)], check=True, capture_output=True)
        self.dumps += 1
        dump, total = self.file.with_name(f"{self.file.name}.{self.dumps}"), None
        while total is None:
            total = re.search(r"^totals: (\d+)", dump.read_text(encoding="utf-8") if dump.exists() else "", re.MULTILINE)
            time.sleep(0.01)
        return int(total[1])


class Bench:
    """One size: the program that is edited, in a folder."""

    def __init__(self, program: str, folder: str, nodes: int, arguments: argparse.Namespace) -> None:
        self.program, self.folder, self.options = program, Path(folder), ["--cut-off"] if arguments.cut_off else []
        grammar, tree = Grammar.load(GRAMMAR), written(nodes, SEED)
        self.size, self.file = tree.size, f"program{nodes}.txt"
        (self.folder / self.file).write_text(f"{tree}\n", encoding="utf-8")
        rows = keystrokes(grammar, tree)
        self.rows = [it for it in rows if arguments.row in it.name]
        # An edit that nothing rests on.
        self.edit = rows[0].lines.split("\n")[0] + "\n"

    def words(self, most: Optional[int]) -> List[str]:
        """The program with its words, with that bound."""
        return [self.program, *self.options, *(["--keep", str(most)] if most else []), str(GRAMMAR), self.file, *map(str, ASPECTS)]

    def folds(self, most: int) -> bool:
        """Whether the first edit behind the question folds with that bound."""
        program, *words = self.words(most)
        run = Served(program, self.folder, words)
        run.spent(ASK)
        spent = run.spent(self.edit)
        run.end()
        return spent > FOLDING

    def entries(self) -> int:
        """How many entries the question leaves."""
        less, enough = 0, self.size
        while self.folds(enough):
            less, enough = enough, 2 * enough
        while enough - less > 1:
            middle = (less + enough) // 2
            less, enough = (middle, enough) if self.folds(middle) else (less, middle)
        return enough

    def typed(self, most: Optional[int]) -> List[float]:
        """The instructions of a keystroke of each row, in one session."""
        run = Counted(self.folder, self.words(most))
        run.counted(ASK + self.edit + ASK)
        taken = [run.counted(it.lines * TYPED) / it.edits / TYPED for it in self.rows]
        run.end()
        return taken

    def held(self, most: Optional[int], lines: str) -> int:
        """How many bytes the program holds behind the lines."""
        words = ["valgrind", "--leak-check=no", "--undef-value-errors=no", *self.words(most)]
        run = subprocess.run(words, cwd=self.folder, input=lines, text=True, capture_output=True, check=True)
        told = re.search(r"in use at exit: ([\d,]+) bytes in ([\d,]+) blocks", run.stderr)
        if told is None:
            sys.exit(f"valgrind told no memory: {run.stderr[-500:]}")
        number, blocks = (int(it.replace(",", "")) for it in told.groups())
        return number + BESIDE * blocks


def share(value: float, bounds: Bounds, what: str, most: Optional[float]) -> str:
    """The ratio, with its bound where there is one."""
    return bounds.at_most(what, value, most) if most else f"{value:.2f}"


def tell_rows(bench: Bench, most: int, bounds: Bounds, is_wanted: bool) -> None:
    """Prints what each kind of keystroke takes."""
    table(f"A keystroke and all errors, {bench.size:,} nodes, millions of instructions", "No bound", f"--keep {most}", "No bound, 0.37", "Ratio")
    for it, free, bounded in zip(bench.rows, bench.typed(None), bench.typed(most)):
        before = BEFORE[it.name]
        told = share(bounded / 1e6 / before, bounds, f"{it.name}, {bench.size:,} nodes, against no bound in 0.37", MOST_TIME if is_wanted else None)
        row(it.name, f"{free / 1e6:,.3f}", f"{bounded / 1e6:,.3f}", f"{before:,.3f}", told)


def tell_memory(bench: Bench, most: int, entries: int, bounds: Bounds, is_wanted: bool) -> None:
    """Prints what is held behind the first edit."""
    begun = bench.held(None, "0 version\n")
    free, bounded = bench.held(None, ASK + bench.edit) - begun, bench.held(most, ASK + bench.edit) - begun
    told = share(bounded / (free * most / entries), bounds, f"memory, {bench.size:,} nodes", MOST_MEMORY if is_wanted else None)
    print(f"\n{bench.size:,} nodes: {entries:,} entries take {free / 1e6:.2f} MB; behind an edit with --keep {most} {bounded / 1e6:.2f} MB are held, "
          f"against so many of these entries {told}")


def read_arguments() -> argparse.Namespace:
    """The words of the command line."""
    parser = argparse.ArgumentParser(description=(__doc__ or "").splitlines()[0])
    parser.add_argument("program", nargs="?")
    parser.add_argument("--nodes", type=int, nargs="+", default=SIZES)
    parser.add_argument("--part", type=int, default=PART)
    parser.add_argument("--row", default="")
    parser.add_argument("--cut-off", action="store_true")
    parser.add_argument("--hold", action="store_true")
    return parser.parse_args()


def main() -> None:
    arguments, bounds = read_arguments(), Bounds()
    program = program_in([arguments.program] if arguments.program else [], __doc__)
    if not shutil.which("valgrind"):
        sys.exit("nothing is measured: there is no valgrind" if arguments.hold else 0)
    is_wanted = not arguments.cut_off and arguments.part == PART
    with tempfile.TemporaryDirectory() as folder:
        for nodes in arguments.nodes:
            bench = Bench(program, folder, nodes, arguments)
            entries = bench.entries()
            most = entries // arguments.part
            tell_rows(bench, most, bounds, is_wanted)
            tell_memory(bench, most, entries, bounds, is_wanted)
    print(f"\n{bounds.looked_at - len(bounds.broken)} of {bounds.looked_at} bounds hold")
    if arguments.hold and bounds.broken:
        sys.exit(bounds.told())


if __name__ == "__main__":
    main()
