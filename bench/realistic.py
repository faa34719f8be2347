#!/usr/bin/env python3
"""A realistic program: how fast all errors are told of a program as people write them, and after each keystroke, beside Java.

    python3 bench/realistic.py [PROGRAM] [--nodes N ..] [--rounds N] [--seed N] [--row NAME] [--cut-off]
        [--index] [--keep N] [--quarter] [--instructions] [--before PROGRAM] [--hold]

PROGRAM is ./attrd where none is given; the programs have 1,000, 10,000 and 60,000 nodes of the tutorial's language. The Java program has
the form that JastAdd2 generates, forgets all at each edit, and is warm, in one process; where there is no `javac`, attrd is measured
alone. All answers of the two are compared. Times are processor times, the least of several rounds by turns; values are those of lazy
attributes that --work counts; instructions are counted where there is `valgrind`, of keystrokes only with --instructions, which takes
minutes. --row measures the rows whose names have that in them; --cut-off, --index and --keep give the program these options. With --quarter the
rows are measured with --keep, too, for a quarter of the values that the first question evaluates, foldings with them. With --before that
program, of version 0.23, is measured by turns with the other one, and a keystroke is held to what it takes and not to the multiples of
Java's time that it took once. What is wanted is told beside what was measured, for the programs of the first seed; with --hold the status
is 1 where it isn't reached. It takes ten minutes.
"""
from __future__ import annotations

import argparse
import os
import shutil
import subprocess
import sys
import tempfile
from dataclasses import dataclass, field
from functools import cached_property
from pathlib import Path
from typing import Dict, List, Optional, Tuple

from bounds import Bounds
from figures import program_in, row, table
from full_flush import Keystrokes as Java
from instructions import instructions_behind
from keystrokes import ASK, KINDS, Keystrokes, keystrokes
from programs import ASPECTS, GRAMMAR, written
from served import Served

from attrd import Grammar

SIZES, SEED, ROUNDS = (1_000, 10_000, 60_000), 1, 4
# How long each of the two does the same again in each round, in seconds of its own time.
SECONDS = 0.7
# How often the lines are sent in each round, at least and at most.
REPEATED, MOST_REPEATED = 2, 200
COLD = "all errors, nothing kept"
# What is wanted: instructions of the cold question by the size of the program (those of version 0.37, which verified nothing, times 1.06), and
# the most memory behind it, in megabytes.
MOST_INSTRUCTIONS = {10_000: 1.06 * 136e6, 60_000: 1.06 * 804e6}
MOST_MEMORY = {60_000: 55.0}
# How much of what the first question evaluates is kept with --quarter, and how many times what it takes else a keystroke may take then.
QUARTER = 4
MOST_BOUNDED = {60_000: 3.0}
# The times of version 0.23 as multiples of Java's, for these sizes and this seed, by a program that isn't proved; and how much of them
# a keystroke may take.
SHARE = 0.6
# It is two lines of which nothing is evaluated, in version 0.23 already: it isn't held to that.
TWO_LINES = "a number that nothing rests on"
BEFORE: Dict[str, Tuple[float, ...]] = {
    "a number that nothing rests on": (0.015, 0.0017, 0.00022),
    "a use mistyped and corrected": (0.4, 0.068, 0.016),
    "a statement in or out at the front of a method": (5.1, 0.44, 0.072),
    "a declaration in or out at the front of a method": (5.1, 0.49, 0.068),
    "a declaration renamed": (3.6, 2.1, 0.19),
    "a field renamed": (4, 0.66, 0.42),
    "a field in or out": (6.4, 1.2, 0.43),
    "a declaration in or out at the front of the largest scope": (9.5, 13, 2.9),
    "a class renamed": (6.4, 6.6, 14),
    "a class in or out at the top": (45, 42, 51),
    "a class in or out at the end": (43, 45, 53),
}
# How many times Java's time a keystroke may take, for these sizes.
MOST_TIMES: Dict[str, Tuple[float, ...]] = {
    "a number that nothing rests on": (1, 1 / 20, 1 / 60),
    "a use mistyped and corrected": (1, 1 / 20, 1 / 60),
    "a statement in or out at the front of a method": (1, 1 / 20, 1 / 60),
    "a declaration in or out at the front of a method": (1, 1 / 20, 1 / 60),
    "a declaration renamed": (1, 1 / 7, 1 / 60),
    "a field renamed": (2, 1 / 3, 1 / 15),
    "a field in or out": (1, 1 / 7, 1 / 40),
    "a declaration in or out at the front of the largest scope": (1, 1 / 1.4, 1 / 3.5),
    "a class renamed": (2, 2.5, 1.5),
    "a class in or out at the top": (2, 2.5, 4),
    "a class in or out at the end": (2, 2.5, 4),
}
# And where names are looked up by key.
MOST_INDEXED: Dict[str, Tuple[float, ...]] = {
    "a number that nothing rests on": (0.6, 0.05, 0.05),
    "a use mistyped and corrected": (0.6, 0.05, 0.05),
    "a statement in or out at the front of a method": (0.6, 0.05, 0.05),
    "a declaration in or out at the front of a method": (0.6, 0.05, 0.05),
    "a declaration renamed": (0.6, 1 / 7, 1 / 60),
    "a field renamed": (0.6, 0.3, 0.1),
    "a field in or out": (0.6, 0.05, 0.05),
    "a declaration in or out at the front of the largest scope": (0.6, 0.05, 0.05),
    "a class renamed": (1.2, 0.5, 0.5),
    "a class in or out at the top": (0.6, 0.05, 0.05),
    "a class in or out at the end": (0.6, 0.05, 0.05),
}
# Its instructions, in millions, with 1,000 and 10,000 nodes.
COUNTED_BEFORE: Dict[str, Tuple[float, ...]] = {
    "a number that nothing rests on": (0.006, 0.006),
    "a use mistyped and corrected": (0.273, 0.633),
    "a statement in or out at the front of a method": (3, 2.8),
    "a declaration in or out at the front of a method": (3, 2.8),
    "a declaration renamed": (2.2, 12.9),
    "a field renamed": (2.4, 3.4),
    "a field in or out": (3.6, 5.7),
    "a declaration in or out at the front of the largest scope": (5.2, 82.6),
    "a class renamed": (3.5, 30.4),
    "a class in or out at the top": (21.8, 199.5),
    "a class in or out at the end": (21.8, 199.5),
}


@dataclass
class Figures:
    """The least times that were measured, by row, in seconds."""

    attrd: Dict[str, float] = field(default_factory=dict)
    before: Dict[str, float] = field(default_factory=dict)
    bounded: Dict[str, float] = field(default_factory=dict)
    java: Dict[str, float] = field(default_factory=dict)

    @staticmethod
    def note(least: Dict[str, float], what: str, seconds: float) -> None:
        least[what] = min(seconds, least.get(what, seconds))

    def ratio(self, what: str) -> Optional[float]:
        """What attrd takes against Java; None where there is no Java."""
        return self.attrd[what] / self.java[what] if what in self.java else None


class Bench:
    """One size: the program that is edited, in a folder, and the two that answer."""

    def __init__(self, program: str, folder: str, nodes: int, arguments: argparse.Namespace) -> None:
        self.program, self.folder, self.nodes = program, folder, nodes
        self.before: Optional[str] = arguments.before
        self.is_known = arguments.seed == SEED and not arguments.keep
        self.most = MOST_INDEXED if arguments.index else MOST_TIMES
        self.options = [*(["--cut-off"] if arguments.cut_off else []), *(["--index"] if arguments.index else []), *(["--keep", str(arguments.keep)] if arguments.keep else [])]
        grammar = Grammar.load(GRAMMAR)
        tree = written(nodes, arguments.seed)
        self.size, self.file = tree.size, f"program{nodes}.txt"
        (Path(folder) / self.file).write_text(f"{tree}\n", encoding="utf-8")
        self.rows = [it for it in keystrokes(grammar, tree) if arguments.row in it.name]
        self.java = Java.begun(folder, self.file)
        self.figures, self.peak, self.heap = Figures(), sys.maxsize, 0
        if self.java:
            self.java.warm()

    @property
    def words(self) -> List[str]:
        """What stands behind the program on its command line."""
        return [*self.options, str(GRAMMAR), self.file, *map(str, ASPECTS)]

    def round(self) -> None:
        """Measures each row once, attrd and Java by turns."""
        run = Served(self.program, self.folder, self.words)
        spent, replies = run.answered(ASK)
        self.figures.note(self.figures.attrd, COLD, spent)
        self.peak = min(self.peak, run.peak())
        before = Served(self.before, self.folder, self.words) if self.before else None
        if before:
            before.spent(ASK)
        for it in self.rows:
            self.typed(run, it)
            if before:
                self.measured(before, it, self.figures.before)
        if before:
            before.end()
        if self.java:
            seconds, errors = self.java.cold(SECONDS)
            self.figures.note(self.figures.java, COLD, seconds)
            self.compare(COLD, replies, [errors])
        run.end()

    def bounded_round(self, most: int) -> None:
        """Measures each row once with a bound on what is kept, the foldings of all its edits with it."""
        run = Served(self.program, self.folder, ["--keep", str(most), *self.words])
        run.spent(ASK)
        for it in self.rows:
            self.figures.note(self.figures.bounded, it.name, run.spent(it.lines * REPEATED) / it.edits / REPEATED)
        run.end()

    def measured(self, run: Served, it: Keystrokes, least: Dict[str, float]) -> List[str]:
        """Measures one row: the least time of those that fit, as of Java. A few alone tell too much of what else the machine does. Gives
        the replies."""
        seconds, replies = 0.0, list[str]()
        for count in range(MOST_REPEATED):
            if count >= REPEATED and seconds > SECONDS:
                break
            spent, replies = run.answered(it.lines)
            if spent:
                # Where the system hasn't counted yet no time is told.
                self.figures.note(least, it.name, spent / it.edits)
            seconds += spent
        return replies

    def typed(self, run: Served, it: Keystrokes) -> None:
        """Measures one row, attrd and then Java."""
        replies = self.measured(run, it, self.figures.attrd)
        if self.java:
            file = Path(self.folder) / "lines"
            file.write_text(it.lines, encoding="utf-8")
            seconds, errors = self.java.row(file.name, SECONDS)
            self.figures.note(self.figures.java, it.name, seconds)
            self.compare(it.name, [reply for reply in replies if " = " in reply], errors)

    def compare(self, what: str, replies: List[str], errors: List[int]) -> None:
        """Ends the process where the two tell different numbers of errors."""
        told = [int(reply.split(" = ")[1]) for reply in replies]
        if told != errors:
            sys.exit(f"{what}, {self.size:,} nodes: attrd tells {told} errors and Java {errors}")

    def counted(self, before: str, lines: str, count: int) -> Optional[float]:
        """The instructions of lines behind others, for one of so many."""
        counted = instructions_behind([self.program, *self.words], self.folder, before, lines)
        return None if counted is None else counted / count

    @cached_property
    def quarter(self) -> int:
        """A quarter of the values that the first question evaluates."""
        return self.evaluated(ASK) // QUARTER

    def evaluated(self, lines: str) -> int:
        """How many values of lazy attributes are evaluated for these lines, as the program counts them."""
        return self.told(lines)["work"]

    def told(self, lines: str) -> Dict[str, int]:
        """What the program tells of the work for these lines; with --cut-off also how many values are made, and not kept again."""
        run = subprocess.run([self.program, "--work", *self.words], cwd=self.folder, input=lines, capture_output=True, text=True, check=True)
        words = run.stderr.split()
        return {word: int(number) for word, number in zip(words[::2], words[1::2])}

    def end(self) -> None:
        """Ends the Java program, and notes how many bytes it holds."""
        if self.java:
            self.heap = self.java.heap()
            self.java.end()


def microseconds(seconds: Optional[float]) -> str:
    """A time in microseconds, with three digits or more; empty where there is none."""
    if seconds is None:
        return ""
    number = seconds * 1e6
    return f"{number:,.0f}" if number >= 100 else f"{number:.1f}"


def short(number: Optional[float]) -> str:
    """A ratio with two digits that count; empty where there is none."""
    if number is None:
        return ""
    return f"{number:.0f}" if number >= 10 else f"{number:.2g}"


def millions(count: Optional[float]) -> str:
    """Instructions in millions; empty where they weren't counted."""
    return "" if count is None else f"{count / 1e6:,.1f}" if count >= 1e6 else f"{count / 1e6:.3f}"


def tell_cold(benches: List[Bench], bounds: Bounds) -> None:
    """Prints what the first question takes at each size."""
    table(COLD, "Values", "attrd", "Java behind a flush", "attrd / Java", "Instructions, millions", "Wanted", "Most memory, MB", "Wanted", "Java's heap, MB")
    for bench in benches:
        figures, memory = bench.figures, bench.peak * 1024 / 1e6
        counted = bench.counted("", ASK, 1)
        most, most_memory = (wanted.get(bench.nodes) if bench.is_known else None for wanted in (MOST_INSTRUCTIONS, MOST_MEMORY))
        of = f"{COLD}, {bench.size:,} nodes"
        row(f"{bench.size:,} nodes", f"{bench.evaluated(ASK):,}", f"{figures.attrd[COLD] * 1e3:.2f} ms", f"{figures.java[COLD] * 1e3:.2f} ms" if bench.java else "",
            short(figures.ratio(COLD)), millions(counted), bounds.at_most(f"{of}, millions of instructions", counted / 1e6, most / 1e6) if counted and most else "-",
            f"{memory:.1f}", bounds.at_most(f"{of}, MB", memory, most_memory) if most_memory else "-",
            f"{bench.heap / 1e6:.1f}" if bench.java else "")


def known_of(figures: Dict[str, Tuple[float, ...]], bench: Bench, name: str) -> Optional[float]:
    """The figure of version 0.23 for a row of this bench; None where there is none for its size or seed."""
    return dict(zip(SIZES, figures[name])).get(bench.nodes) if bench.is_known else None


def against(counted: Optional[float], before: Optional[float]) -> str:
    """Instructions in millions, with how many they are of those before; empty where they weren't counted."""
    return millions(counted) + (f" ({counted / 1e6 / before:.2f} of 0.23's)" if counted and before else "")


def share_of(bench: Bench, name: str, before: Optional[float]) -> Optional[float]:
    """What a row takes of what version 0.23 takes: of its program's time where that was measured, else of its multiple of Java's."""
    if bench.before:
        return bench.figures.attrd[name] / bench.figures.before[name]
    ratio = bench.figures.ratio(name)
    return ratio / before if ratio and before else None


def wanted_of(bench: Bench, bounds: Bounds, name: str, before: Optional[float]) -> str:
    """What a row takes against what is wanted: beside Java, and with --before beside that program."""
    most, ratio, share = None if bench.before else known_of(bench.most, bench, name), bench.figures.ratio(name), share_of(bench, name, before)
    if ratio and most:
        return bounds.at_most(f"{name}, {bench.size:,} nodes, against Java", ratio, most)
    if share and name != TWO_LINES:
        return bounds.at_most(f"{name}, {bench.size:,} nodes, against version 0.23", share, SHARE)
    return "-" if share is None else short(share)


def anew(cold: Dict[str, int], told: Dict[str, int], edits: int) -> List[str]:
    """How many values an edit costs, and how many are made, where that is told."""
    return [f"{(told[it] - cold[it]) / edits:,.1f}" if it in told else "" for it in ("work", "made")]


def tell_rows(benches: List[Bench], bounds: Bounds, is_counted: bool) -> None:
    """Prints what each kind of keystroke takes at each size, with all errors asked behind it."""
    for bench in benches:
        table(f"A keystroke and all errors, {bench.size:,} nodes", "attrd, us", "Java, us", "attrd / Java", "Version 0.23", "Wanted", "Values anew",
              "Made", "Instructions, millions")
        cold = bench.told(ASK)
        for it in bench.rows:
            ratio, before = bench.figures.ratio(it.name), known_of(BEFORE, bench, it.name)
            told = wanted_of(bench, bounds, it.name, before)
            counted = bench.counted(ASK, it.lines, it.edits) if is_counted else None
            row(it.name, microseconds(bench.figures.attrd[it.name]), microseconds(bench.figures.java.get(it.name)), short(ratio), short(before), told,
                *anew(cold, bench.told(ASK + it.lines), it.edits), against(counted, known_of(COUNTED_BEFORE, bench, it.name)))


def tell_bounded(benches: List[Bench], bounds: Bounds) -> None:
    """Prints what each kind of keystroke takes with a bound on what is kept, against what it takes without one."""
    for bench in benches:
        table(f"A keystroke and all errors with --keep {bench.quarter}, {bench.size:,} nodes", "attrd, us", "Without --keep, us", "Ratio")
        for it in bench.rows:
            bounded, free = bench.figures.bounded[it.name], bench.figures.attrd[it.name]
            most = MOST_BOUNDED.get(bench.nodes) if bench.is_known else None
            told = bounds.at_most(f"{it.name}, {bench.size:,} nodes, with --keep", bounded / free, most) if most else short(bounded / free)
            row(it.name, microseconds(bounded), microseconds(free), told)


def read_arguments() -> argparse.Namespace:
    """The words of the command line."""
    parser = argparse.ArgumentParser(description=(__doc__ or "").splitlines()[0])
    parser.add_argument("program", nargs="?")
    parser.add_argument("--nodes", type=int, nargs="+", default=SIZES)
    parser.add_argument("--rounds", type=int, default=ROUNDS)
    parser.add_argument("--seed", type=int, default=SEED)
    parser.add_argument("--row", default="", help=f"a part of a name: {'; '.join(KINDS)}")
    parser.add_argument("--cut-off", action="store_true")
    parser.add_argument("--index", action="store_true")
    parser.add_argument("--keep", type=int, default=0, help="nothing is wanted of it")
    parser.add_argument("--quarter", action="store_true", help="not with --cut-off or --keep")
    parser.add_argument("--instructions", action="store_true")
    parser.add_argument("--before", metavar="PROGRAM", help="one of version 0.23; not with --cut-off or --keep")
    parser.add_argument("--hold", action="store_true")
    arguments = parser.parse_args()
    if arguments.quarter and (arguments.cut_off or arguments.keep):
        parser.error("--quarter is measured beside runs without --cut-off and --keep")
    if arguments.before and (arguments.cut_off or arguments.index or arguments.keep):
        parser.error("version 0.23 has no --cut-off and no --index, and is measured without --keep")
    return arguments


def main() -> None:
    arguments, bounds = read_arguments(), Bounds()
    program = program_in([arguments.program] if arguments.program else [], __doc__)
    if arguments.hold and not (shutil.which("javac") and shutil.which("valgrind")):
        sys.exit("--hold looks at bounds that take javac and valgrind, and one of them isn't there")
    with tempfile.TemporaryDirectory() as folder:
        benches = [Bench(program, folder, nodes, arguments) for nodes in arguments.nodes]
        if not benches[0].java:
            print("attrd alone is measured: there is no javac")
        for bench in benches:
            for _ in range(arguments.rounds):
                bench.round()
                if arguments.quarter:
                    bench.bounded_round(bench.quarter)
            bench.end()
        print(f"processors {os.cpu_count()}, load {os.getloadavg()[0]:.1f}")
        tell_cold(benches, bounds)
        tell_rows(benches, bounds, arguments.instructions)
        if arguments.quarter:
            tell_bounded(benches, bounds)
    print(f"\n{bounds.looked_at - len(bounds.broken)} of {bounds.looked_at} bounds hold")
    if arguments.hold and bounds.broken:
        sys.exit(bounds.told())


if __name__ == "__main__":
    main()
