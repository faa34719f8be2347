#!/usr/bin/env python3
"""Names looked up by key (`--index`): a class that comes and goes in programs of more and more classes, and look-ups in long lists.

    python3 bench/by_key.py [PROGRAM] [--classes N ..] [--names N ..] [--rounds N] [--hold]

PROGRAM is ./attrd where none is given; it has to know --index. The programs have 180, 750 and 3,000 classes of the tutorial's language, as
people write them (bench/programs.py). A class comes at the top and goes again, with all errors asked behind each act. Instructions are
counted by `valgrind`, so that the machine may be busy: those of the first time, which is held, and of the times behind it.

The lists have 3,000, 10,000 and 30,000 names. As many come at the front, and behind each stands a question that looks up one of the first
names, each of which is asked once: so the list has twice as many at the end, and a walk over it goes past as many as it had at first on
the average. What is told is how much longer the lines take than those with `version` in place of the question, in processor time, the
least of several rounds by turns. Where the attribute isn't lazy nothing is kept, and an insertion costs what it does without questions:
that is held. Where it is lazy, insertions find more and more kept values, and what they take longer by that is told with the question.

What is wanted is told beside what was measured; with --hold the status is 1 where it isn't reached. It takes three minutes.
"""
from __future__ import annotations

import argparse
import os
import shutil
import subprocess
import sys
import tempfile
from pathlib import Path
from typing import Callable, List, NamedTuple, Sequence

from bounded import Counted
from bounds import Bounds
from figures import program_in, row, table
from keystrokes import ASK, CLASS, in_and_out
from programs import ASPECTS, GRAMMAR, written_classes
from served import Served

from attrd import Path as NodePath

CLASSES, SEED = (180, 750, 3_000), 1
NAMES, ROUNDS = (3_000, 10_000, 30_000), 2
# How many times what a class costs in the smallest program it may cost in the largest one, and how many microseconds longer than a
# `version` line a question may take in the longest list.
MOST_GROWTH, MOST_MICROSECONDS = 1.5, 2.0
# A class comes behind the two kinds that are in each program; how often it comes and goes behind the first time.
TOP, AGAIN = 2, 4
LIST = "Names ::= Item*;\nItem ::= <ID>;\n"
LOOKING = "aspect Names {{\n  syn {}Item Names.named(String n) = first (i : getItemList()) {{ i.getID().equals(n) }};\n}}\n"
# What is held, and what is told beside it, with the word of the attribute.
NOT_KEPT, KEPT = "not kept", "kept"
KINDS = {NOT_KEPT: "", KEPT: "lazy "}
# A prime: by steps of so many one comes past each of fewer names once, and spread over the list.
STEP = 1_000_003


class Grown(NamedTuple):
    """What an act took in a program of so many classes and nodes, in instructions: the first time, and on the average behind that."""

    classes: int
    nodes: int
    first: float
    again: float


class Bench:
    """The program that is measured, and a folder for its files."""

    def __init__(self, program: str, folder: Path, rounds: int) -> None:
        self.program, self.folder, self.rounds = program, folder, rounds

    def words(self, nodes: int, *files: object) -> List[str]:
        """The options for a tree that comes to so many nodes, and the files."""
        return ["--index", f"--nodes={nodes}", *map(str, files)]

    def put(self, name: str, text: str) -> str:
        """Writes a file, and gives its name back."""
        (self.folder / name).write_text(text, encoding="utf-8")
        return name

    def grown(self, classes: int) -> Grown:
        """Measures a program of so many classes."""
        tree = written_classes(classes, SEED)
        words = self.words(tree.size + CLASS.size, GRAMMAR, self.put("program.txt", f"{tree}\n"), *ASPECTS)
        acts = in_and_out([NodePath()], "Kind", TOP, CLASS)
        first, again = self.counted(words, ASK, [acts, acts * AGAIN])
        return Grown(classes, tree.size, first / 2, again / 2 / AGAIN)

    def counted(self, words: Sequence[str], before: str, batches: Sequence[str]) -> List[int]:
        """The instructions of each batch, one behind the other. Those of the lines before aren't counted, which would take minutes."""
        run = Counted(self.folder, ["--quiet", "--instr-atstart=no", self.program, *words])
        run.spent(before)
        subprocess.run(["callgrind_control", "--instr=on", str(run.run.pid)], check=True, capture_output=True)
        found = [run.counted(it) for it in batches]
        run.end()
        return found

    def question(self, word: str, names: int) -> float:
        """How many seconds a question by an attribute with this word takes beyond a `version` line, in a list of so many names."""
        items = ",".join(f'Item("old{k}")' for k in range(names))
        words = self.words(2 * names + 1, self.put("names.ast", LIST), self.put("names.txt", f"Names([{items}])\n"),
                           self.put("names.jrag", LOOKING.format(word)))
        asked = inserting(names, lambda k: f'0 ask / named("old{k * STEP % names}")\n')
        others = inserting(names, lambda k: "0 version\n")
        turns = [(self.spent(words, asked), self.spent(words, others)) for _ in range(self.rounds)]
        return (min(it for it, _ in turns) - min(it for _, it in turns)) / names

    def spent(self, words: Sequence[str], lines: str) -> float:
        """The seconds that a new run takes for the lines."""
        run = Served(self.program, self.folder, words)
        seconds = run.spent(lines)
        run.end()
        return seconds


def inserting(names: int, behind: Callable[[int], str]) -> str:
    """Lines by which so many names come at the front of the list, each with a line behind it."""
    return "".join(f'0 insert / Item 0 Item("new{k}")\n{behind(k)}' for k in range(names))


def tell_classes(found: Sequence[Grown], bounds: Bounds) -> None:
    """Prints what a class costs that comes or goes, and holds the last program against the first one."""
    smallest, largest = found[0], found[-1]
    table("A class in or out at the top, and all errors", "Nodes", "Instructions, the first time", "Against the smallest", "Instructions behind that",
          "These against the smallest")
    for it in found:
        row(f"{it.classes:,} classes", f"{it.nodes:,}", f"{it.first:,.0f}", f"{it.first / smallest.first:.2f}", f"{it.again:,.0f}",
            f"{it.again / smallest.again:.2f}")
    what = f"a class in or out at the top, {largest.classes:,} classes against {smallest.classes:,}"
    print(f"\n{what}: {bounds.at_most(what, largest.first / smallest.first, MOST_GROWTH)}")


def tell_names(bench: Bench, kind: str, sizes: Sequence[int], bounds: Bounds) -> None:
    """Measures and prints what a question takes in lists of these sizes, and holds it in the longest one where nothing is kept."""
    table(f"A question by key, {kind}", "Microseconds beyond a version line", "A thousand names", "Against linear growth")
    found = [bench.question(KINDS[kind], it) * 1e6 for it in sizes]
    for names, spent in zip(sizes, found):
        row(f"{names:,} names", f"{spent:.2f}", f"{spent / names * 1e3:.2f}", f"{spent / names / (found[0] / sizes[0]):.2f}")
    if kind == NOT_KEPT:
        what = f"a question by key in a list of {sizes[-1]:,} names, beyond a version line"
        print(f"\n{what}: {bounds.at_most(f'{what}, in microseconds', found[-1], MOST_MICROSECONDS)} microseconds")


def read_arguments() -> argparse.Namespace:
    """The words of the command line."""
    parser = argparse.ArgumentParser(description=(__doc__ or "").splitlines()[0])
    parser.add_argument("program", nargs="?")
    parser.add_argument("--classes", type=int, nargs="*", default=CLASSES)
    parser.add_argument("--names", type=int, nargs="*", default=NAMES)
    parser.add_argument("--rounds", type=int, default=ROUNDS)
    parser.add_argument("--hold", action="store_true")
    return parser.parse_args()


def main() -> None:
    arguments, bounds = read_arguments(), Bounds()
    program = program_in([arguments.program] if arguments.program else [], __doc__)
    if arguments.hold and not shutil.which("valgrind"):
        sys.exit("--hold looks at bounds that take valgrind, which isn't there")
    with tempfile.TemporaryDirectory() as folder:
        bench = Bench(program, Path(folder), arguments.rounds)
        if arguments.classes and shutil.which("valgrind"):
            tell_classes([bench.grown(it) for it in arguments.classes], bounds)
        for kind in KINDS if arguments.names else ():
            tell_names(bench, kind, arguments.names, bounds)
    print(f"\nprocessors {os.cpu_count()}, load {os.getloadavg()[0]:.1f}\n{bounds.told()}")
    sys.exit(1 if arguments.hold and bounds.broken else 0)


if __name__ == "__main__":
    main()
