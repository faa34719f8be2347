#!/usr/bin/env python3
"""Trees of whole programs: loading, memory, the first question and a keystroke at 60,000 nodes, at ten times and at forty times as many.

    python3 bench/sizes.py [PROGRAM] [--nodes N ..] [--rounds N] [--first] [--cut-off] [--kinds realistic calculator] [--hold]

PROGRAM is ./attrd where none is given; it has to know --nodes. The trees are a program of the tutorial's language as people write them
(bench/programs.py), and blocks of a hundred statements of the calculator. Times are processor times: of loading the least of several
runs, of the first question that of one, of keystrokes the least of several batches, all sizes by turns. Memory is the most that was
held. With --first the program goes before all others that want a processor, where the system allows that. What is wanted is told
beside what was measured; with --hold the status is 1 where it isn't reached. It takes five minutes and five GB.

A keystroke of the realistic program is asked twice: for the errors of the class in which it is, and for those of the program. The latter
are a sum over all classes, and a name of a class is looked for by a walk over them: so these grow with the number of classes, whatever
evaluates them.
"""
from __future__ import annotations

import argparse
import os
import re
import subprocess
import sys
import tempfile
from contextlib import suppress
from pathlib import Path
from typing import Dict, List, NamedTuple, Sequence

from bounds import Bounds
from figures import ROOT, program_in, row, table
from keystrokes import ASK, KINDS, Program, spread
from programs import ASPECTS, GRAMMAR, written
from served import Served

from attrd import Grammar
from attrd.lexical import MOST_NODES

SIZES, SEED, ROUNDS, LOADS = (60_000, 600_000, 2_400_000), 1, 6, 3
# What is wanted of the largest tree against the smallest one, and of the bytes that a node of it takes.
MOST_EDIT, MOST_LOADING, MOST_BYTES = 1.5, 1.3, 130
# Below so many nodes what the program takes by itself is too much of its memory for that.
LARGE = 1_000_000
TOKEN = "a number and its question"
# The keystrokes of the realistic program that touch as much in a large program as in a small one.
TYPED = ("a number that nothing rests on", "a use mistyped and corrected", "a statement in or out at the front of a method",
         "a declaration in or out at the front of a method", "a declaration in or out at the front of the largest scope")
# Statements in a block, and nodes of a block with them; how many statements are edited.
STATEMENTS, BLOCK, EDITED = 100, 401, 20
CALCULATOR = ROOT / "samples" / "calculator"
ALL = """aspect All {
  syn int Program.all() = getBlock().all();
  syn int Stmt.all() = 0;
  eq Block.all() = sum (s : getStmtList()) { s.all() };
  eq Print.all() = getExpr().value();
}
"""


class Prepared(NamedTuple):
    """A tree in a file: what it is, its nodes, the words behind the program's, the first question, and batches of edits by their names."""

    kind: str
    nodes: int
    words: Sequence[str]
    first: str
    batches: Dict[str, str]


class Asked(NamedTuple):
    """A run that has answered the first question: its seconds for that, and the most memory in bytes before and behind it."""

    run: Served
    loaded: int
    seconds: float
    memory: int


def nearby(lines: str) -> str:
    """The same lines, with the errors of the class asked in which the edit is, and not those of the whole program."""
    edits = [it for it in lines.splitlines() if f"{it}\n" != ASK]
    classes = [re.findall(r"/Kind:\d+", it)[0] for it in edits]
    return "".join(f"{edit}\n0 ask {place} errors()\n" for edit, place in zip(edits, classes))


def realistic(folder: Path, nodes: int) -> Prepared:
    """A program of the tutorial's language, with all its errors as the question."""
    tree = written(nodes, SEED)
    file = folder / f"realistic{nodes}.txt"
    file.write_text(f"{tree}\n", encoding="utf-8")
    program = Program(Grammar.load(GRAMMAR), tree)
    batches = {TOKEN: KINDS[TYPED[0]](program)}
    for name in TYPED[1:]:
        lines = KINDS[name](program)
        batches.update({f"{name}, its class asked": nearby(lines), f"{name}, the program asked": lines})
    return Prepared("realistic", tree.size, [str(GRAMMAR), str(file), *map(str, ASPECTS)], ASK, batches)


def calculator(folder: Path, nodes: int) -> Prepared:
    """Blocks of the calculator, with the sum of all values as the question."""
    blocks = (nodes - 2) // BLOCK
    block = f"Block([{','.join(f'Print(Add(Num({k}),Num(1)))' for k in range(STATEMENTS))}])"
    file, aspect = folder / f"calculator{nodes}.txt", folder / "all.jrag"
    file.write_text(f"Program(Block([{','.join([block] * blocks)}]))\n", encoding="utf-8")
    aspect.write_text(ALL, encoding="utf-8")
    places = [f"/Block/Stmt:{it}/Stmt:{it % STATEMENTS}/Expr" for it in spread(range(blocks), EDITED)]
    edits = "".join(f"0 token {it}/Left Value {number}\n0 ask {it} value()\n" for it in places for number in (500, 600))
    words = [str(CALCULATOR / "calc.ast"), str(file), str(CALCULATOR / "calc.jrag"), str(aspect)]
    return Prepared("calculator", 2 + blocks * BLOCK, words, "0 ask / all()\n", {TOKEN: edits})


MADE = {"realistic": realistic, "calculator": calculator}


class Bench:
    """The program that is measured, with its options."""

    def __init__(self, program: str, folder: Path, arguments: argparse.Namespace) -> None:
        self.program, self.folder, self.goes_first = program, folder, arguments.first
        self.options = [f"--nodes={min(2 * max(arguments.nodes), MOST_NODES)}", *(["--cut-off"] if arguments.cut_off else [])]

    def put_first(self, process: int) -> None:
        """Has the process go before others, where that is wanted and allowed."""
        if self.goes_first:
            with suppress(PermissionError):
                os.sched_setscheduler(process, os.SCHED_FIFO, os.sched_param(50))

    def loading(self, it: Prepared) -> float:
        """The least seconds that a run without lines took. Ends this process where the tree is refused."""
        found: List[float] = []
        for _ in range(LOADS):
            with subprocess.Popen([self.program, *self.options, *it.words], cwd=self.folder, stdin=subprocess.DEVNULL) as run:
                self.put_first(run.pid)
                _, status, used = os.wait4(run.pid, 0)
                run.returncode = os.waitstatus_to_exitcode(status)
            if run.returncode:
                sys.exit(f"{it.kind}, {it.nodes:,} nodes: attrd ended with status {run.returncode}")
            found.append(used.ru_utime + used.ru_stime)
        return min(found)

    def asked(self, it: Prepared) -> Asked:
        """A run that has answered the first question."""
        run = Served(self.program, self.folder, [*self.options, *it.words])
        self.put_first(run.run.pid)
        loaded = run.peak()
        spent = run.spent(it.first)
        return Asked(run, loaded * 1024, spent, run.peak() * 1024)


def keystrokes(runs: Sequence[Served], prepared: Sequence[Prepared], rounds: int) -> List[Dict[str, float]]:
    """The least seconds that an edit of each batch took at each size, by turns."""
    least: List[Dict[str, float]] = [{} for _ in runs]
    for _ in range(rounds):
        for run, it, found in zip(runs, prepared, least):
            for name, lines in it.batches.items():
                spent = run.spent(lines) / (lines.count("\n") // 2)
                found[name] = min(spent, found.get(name, spent))
    return least


def growth(values: Sequence[float]) -> str:
    """The last against the first."""
    return f"{values[-1] / values[0]:.2f}"


def by_size(kind: str, value: float, nodes: int, bounds: Bounds) -> str:
    """The bytes a node, with the bound where the tree is large."""
    return bounds.at_most(f"{kind}, bytes a node loaded", value, MOST_BYTES) if nodes >= LARGE else f"{value:.0f}"


def tell_trees(kind: str, prepared: Sequence[Prepared], loading: Sequence[float], asked: Sequence[Asked], bounds: Bounds) -> None:
    """Prints what loading and the first question take, and their growth by node."""
    table(f"{kind}, nodes", "Tree file", "Loading", "Memory, loaded", "Bytes a node", "First question", "Microseconds a node", "Memory behind it",
          "Bytes a node")
    for it, seconds, run in zip(prepared, loading, asked):
        file = Path(it.words[1]).stat().st_size
        row(f"{it.nodes:,}", f"{file / 1e6:.1f} MB", f"{seconds * 1e3:,.0f} ms", f"{run.loaded / 1e6:,.0f} MB", f"{run.loaded / it.nodes:.0f}",
            f"{run.seconds:,.2f} s", f"{run.seconds / it.nodes * 1e6:.2f}", f"{run.memory / 1e6:,.0f} MB", f"{run.memory / it.nodes:.0f}")
    by_node = [seconds / it.nodes for it, seconds in zip(prepared, loading)]
    told = bounds.at_most(f"{kind}, loading against linear", by_node[-1] / by_node[0], MOST_LOADING)
    size = by_size(kind, asked[-1].loaded / prepared[-1].nodes, prepared[-1].nodes, bounds)
    first = growth([run.seconds / it.nodes for it, run in zip(prepared, asked)])
    print(f"\n{kind}, the last against linear: loading {told}, the first question {first}; bytes a node loaded: {size}")


def tell_keystrokes(kind: str, prepared: Sequence[Prepared], least: Sequence[Dict[str, float]], bounds: Bounds) -> None:
    """Prints what keystrokes take, and how they grow with the tree."""
    table(f"{kind}, a keystroke with its question, in microseconds", *(f"{it.nodes:,} nodes" for it in prepared), "The last against the first")
    for name in prepared[0].batches:
        found = [it[name] for it in least]
        last = bounds.at_most(f"{kind}, {name}", found[-1] / found[0], MOST_EDIT) if name == TOKEN else growth(found)
        row(name, *(f"{it * 1e6:,.1f}" for it in found), last)


def measure(bench: Bench, kind: str, arguments: argparse.Namespace, bounds: Bounds) -> None:
    """Measures one kind of tree at all sizes, and prints it."""
    prepared = [MADE[kind](bench.folder, nodes) for nodes in arguments.nodes]
    loading = [bench.loading(it) for it in prepared]
    asked = [bench.asked(it) for it in prepared]
    runs = [it.run for it in asked]
    least = keystrokes(runs, prepared, arguments.rounds)
    for run in runs:
        run.end()
    tell_trees(kind, prepared, loading, asked, bounds)
    tell_keystrokes(kind, prepared, least, bounds)


def read_arguments() -> argparse.Namespace:
    """The words of the command line."""
    parser = argparse.ArgumentParser(description=(__doc__ or "").splitlines()[0])
    parser.add_argument("program", nargs="?")
    parser.add_argument("--nodes", type=int, nargs="+", default=SIZES)
    parser.add_argument("--rounds", type=int, default=ROUNDS)
    parser.add_argument("--first", action="store_true")
    parser.add_argument("--cut-off", action="store_true")
    parser.add_argument("--hold", action="store_true")
    parser.add_argument("--kinds", nargs="+", choices=list(MADE), default=list(MADE))
    return parser.parse_args()


def main() -> None:
    arguments, bounds = read_arguments(), Bounds()
    program = program_in([arguments.program] if arguments.program else [], __doc__)
    with tempfile.TemporaryDirectory() as folder:
        bench = Bench(program, Path(folder), arguments)
        for kind in arguments.kinds:
            measure(bench, kind, arguments, bounds)
    print(f"\nprocessors {os.cpu_count()}, load {os.getloadavg()[0]:.1f}\n{bounds.told()}")
    sys.exit(1 if arguments.hold and bounds.broken else 0)


if __name__ == "__main__":
    main()
