#!/usr/bin/env python3
"""What an evaluation, loading and a line cost: instructions, time and memory, each against its bound.

    python3 bench/evaluation.py [PROGRAM [TURNS]]

PROGRAM is ./attrd where none is given. Instructions are those of a run less those of a run without the lines, as `valgrind` counts
them; a time is processor time, the least of TURNS runs. Where `javac` is there, a Java program asks for all attributes in the same run.
The run ends with status 1 where a bound doesn't hold.
"""
from __future__ import annotations

import os
import sys
import tempfile
from math import log2
from pathlib import Path
from typing import List, Optional, Sequence, Tuple

from bench import calculator, doubling_grammar, doubling_term, long_aspects
from bounds import Bounds
from full_flush import FullFlush
from history import note
from instructions import instructions
from served import Served
from trees import ASPECTS, GRAMMAR, SumTree

ROOT = Path(__file__).resolve().parent.parent
TURNS = 5
SUM = "0 ask /Main value()\n"
NAMES = "Names ::= Item*;\nItem ::= <ID>;\n"
NAMED = ("aspect Named {\n  syn lazy Item Names.named(String n) = first (i : getItemList()) { i.is(n) };\n"
         "  syn boolean Item.is(String n) = getID().equals(n);\n}\n")
# Each element has a lazy attribute that rests on a chain of others, which aren't lazy, and all share that chain.
SHARED = ("aspect Shared {\n  syn lazy int Item.kept() = chained() + 1;\n  inh int Item.chained();\n"
          "  eq Names.getItem(int i).chained() = i == 0 ? 0 : getItem(i - 1).chained() + 1;\n"
          "  syn int Names.all() = sum (i : getItemList()) { i.kept() };\n}\n")

# Chains of an inherited attribute, where evaluation in one go gains least: what an element asks, and the most instructions an element,
# half as many again as version 0.23 took, which evaluated each by steps of a machine.
CHAINS = (
    ("that aren't lazy", "inh", "getItem(i - 1).step() + 1", "0", 9_900),
    ("each of which is demanded twice", "inh", "getItem(i - 1).step() + getItem(i - 1).step()", "0", 12_500),
    ("that are lazy", "inh lazy", "getItem(i - 1).step() + 1", "0", 12_000),
    ("that end in a fault", "inh", "getItem(i - 1).step() + 1", "1 / 0", 7_500),
    ("that end in a circle", "inh", "getItem(i - 1).step() + 1", "getItem(4000).step()", 7_500),
)
# One attribute that isn't lazy and is asked by each element: what it is, and the most instructions an element.
COMMON = (
    ("a sum over all elements", "sum (i : getItemList()) { 1 }", "1", 6_700),
    ("ten instances", " + ".join(f"getItem({k}).part()" for k in range(9)), "1", 6_000),
    ("fifty-seven instances", " + ".join(f"getItem({k}).part()" for k in range(8)), " + ".join(["one()"] * 6), 6_100),
)


class Bench:
    """The program, a folder for its files, and the bounds."""

    def __init__(self, program: str, folder: str, turns: int) -> None:
        self.program, self.folder, self.turns = program, folder, turns
        self.bounds = Bounds()

    def put(self, name: str, text: str) -> str:
        """Writes a file, and gives its name back."""
        (Path(self.folder) / name).write_text(text, encoding="utf-8")
        return name

    def counted(self, words: Sequence[str], lines: str, without: str = "") -> Optional[int]:
        """The instructions for the lines, less those for the lines of which they are told; None where there is no `valgrind`."""
        fewer, more = (instructions([self.program, *words], self.folder, it) for it in (without, lines))
        return None if fewer is None or more is None else more - fewer

    def spent(self, words: Sequence[str], lines: str, before: str = "", turns: int = 0) -> Tuple[float, int]:
        """The least processor time for the lines behind others, each time by a new run of the program, and the most memory of one, in KiB."""
        times: List[float] = []
        peaks: List[int] = []
        for _ in range(turns or self.turns):
            run = Served(self.program, self.folder, words)
            if before:
                run.spent(before)
            times.append(run.spent(lines))
            peaks.append(run.peak())
            run.end()
        return min(times), min(peaks)

    def told(self, what: str, value: Optional[float], most: Optional[float] = None, unit: str = "") -> None:
        """Prints a row, and notes it; nothing where the value isn't known."""
        if value is not None:
            if not most:
                note(what, value)
            print(f"{what}: {self.bounds.at_most(what, value, most) if most else format(value, '.2f')}{unit}", flush=True)


def each(count: Optional[int], units: int) -> Optional[float]:
    """How many there are for each unit; None where the count isn't known."""
    return None if count is None else count / units


def sums(bench: Bench) -> None:
    """An instance of a sum over 60,000 nodes, and what is kept of it."""
    tree = SumTree(60_000)
    words = ["kept.ast", bench.put("sums.txt", tree.term), "kept.jrag"]
    instances = tree.nodes - 1
    bench.told("an instance of a sum over 60,000 nodes, in instructions", each(bench.counted(words, SUM), instances), 1_700)
    time, _ = bench.spent(words, SUM)
    bench.told("an instance of a sum over 60,000 nodes, in microseconds", time / instances * 1e6, 0.8)
    _, loaded = bench.spent(words, "0 version\n")
    _, empty = bench.spent(["kept.ast", bench.put("one.txt", 'Top(Num(1,""),[])\n'), "kept.jrag"], "0 version\n")
    bench.told("a node at the peak of loading, in bytes", (loaded - empty) * 1024 / tree.nodes, 150)


def paths_below(term: str, path: str, at: int = 0) -> Tuple[List[str], int]:
    """The paths of all sums and numbers of a term of sums, and where each part ends."""
    found, end = [path], term.index("(", at) + 1
    if term.startswith("Add(", at):
        for side in ("Left", "Right"):
            below, end = paths_below(term, f"{path}/{side}", end)
            found += below
            end += 1
        return found, end
    return found, term.index(")", end) + 1


def questions(bench: Bench) -> None:
    """All attributes of all nodes, each asked once, against Java."""
    tree = SumTree(10_000)
    words = ["kept.ast", bench.put(f"{tree.name}.txt", tree.term), "kept.jrag"]
    paths, _ = paths_below(tree.term, "/Main", len("Top("))
    lines = "".join(f"0 ask {path} value()\n0 ask {path} depth()\n" for path in paths)
    asked, filled = bench.spent(words, lines)
    version, loaded = bench.spent(words, "0 version\n" * 20_000)
    bench.told("a kept entry with its edges, in bytes", (filled - loaded) * 1024 / tree.entries)
    elsewhere = "".join(f"0 ask {path} value()\n" for path in paths)
    bench.told("a kept question at another node each time, some 16 steps down, in instructions", each(bench.counted(words, elsewhere * 2, elsewhere), len(paths)))
    java = FullFlush.compiled(bench.folder)
    if java is None:
        print("no Java row: there is no javac")
        return
    own = java.asked(tree, paths) + version / 20_000
    bench.told("all attributes of all nodes, a question each, against Java's time in its process and a line `version`", asked / lines.count("\n") / own, 2.5)


def elements(bench: Bench) -> None:
    """An element of `first` with its text."""
    count = 10_000
    items = ",".join(f'Item("name{k}")' for k in range(count))
    words = [bench.put("names.ast", NAMES), bench.put("names.txt", f"Names([{items}])\n"), bench.put("named.jrag", NAMED)]
    line = f'0 ask / named("name{count - 1}")\n'
    bench.told("an element of `first` with its text, in instructions", each(bench.counted(words, line), count), 900)


def declarations(bench: Bench) -> None:
    """Chains of declarations in the calculator, of which each is looked up by the next: each look-up goes through those before it."""
    samples = ROOT / "samples" / "calculator"
    for count, turns, most in ((2_000, bench.turns, 0.32), (10_000, 1, 8)):
        chain = ",".join(['Decl("x0",Num(1))'] + [f'Decl("x{k}",Use("x{k - 1}"))' for k in range(1, count)])
        words = [str(samples / "calc.ast"), bench.put("chain.txt", f"Program(Block([{chain}]))\n"), str(samples / "calc.jrag")]
        asked = (("at its end", f"0 ask /Block/Stmt:{count - 1} value()\n"),
                 ("from the front", "".join(f"0 ask /Block/Stmt:{k} value()\n" for k in range(count))))
        for where, lines in asked:
            time, peak = bench.spent(words, lines, turns=turns)
            bench.told(f"a chain of {count:,} declarations asked {where}, in MiB", peak / 1024, 40)
            bench.told(f"a chain of {count:,} declarations asked {where}, in seconds", time, most)


def items_of(bench: Bench, count: int) -> List[str]:
    """The grammar of names and a tree of so many, as the first two files."""
    items = ",".join(['Item("n")'] * count)
    return [bench.put("names.ast", NAMES), bench.put(f"items{count}.txt", f"Names([{items}])\n")]


def shared(bench: Bench) -> None:
    """Lazy attributes over a shared chain of others: how time and memory grow."""
    aspect = bench.put("shared.jrag", SHARED)
    spent: List[Tuple[float, int]] = []
    for count in (500, 4_000):
        words = [*items_of(bench, count), aspect]
        _, before = bench.spent(words, "0 version\n")
        time, peak = bench.spent(words, "0 ask / all()\n")
        spent.append((time, peak - before))
    for what, first, last in zip(("time", "memory"), *spent):
        bench.told(f"lazy attributes over a shared chain of others: the exponent of their {what}", log2(last / first) / 3, 1.1)


def chains(bench: Bench) -> None:
    """Chains of an attribute of each element, asked at the end."""
    files = items_of(bench, 5_000)
    for what, kind, asked, first, most in CHAINS:
        aspect = f"aspect Chain {{\n  {kind} int Item.step();\n  eq Names.getItem(int i).step() = i == 0 ? {first} : {asked};\n}}\n"
        count = bench.counted([*files, bench.put("chain.jrag", aspect)], "0 ask /Item:4999 step()\n")
        bench.told(f"an element of a chain of 5,000 {what}, in instructions", each(count, 5_000), most)


def common(bench: Bench) -> None:
    """An attribute that isn't lazy, and that each element asks."""
    files = items_of(bench, 2_000)
    for what, whole, part, most in COMMON:
        aspect = (f"aspect Common {{\n  syn int Names.whole() = {whole};\n  syn int Item.part() = {part};\n  syn int Item.one() = 1;\n"
                  "  inh int Item.common();\n  eq Names.getItem(int i).common() = whole();\n"
                  "  syn lazy int Names.all() = sum (i : getItemList()) { i.common() };\n}\n")
        count = bench.counted([*files, bench.put("common.jrag", aspect)], "0 ask / all()\n")
        bench.told(f"an element that asks for what rests on {what}, in instructions", each(count, 2_000), most)


def loading(bench: Bench) -> None:
    """The term of 65,535 nodes, from its bytes to the tree."""
    aspects = bench.put("none.jrag", "aspect A { }\n")
    words = [bench.put("doubling.ast", doubling_grammar(16)), bench.put("doubling.txt", doubling_term(16)), aspects]
    small = [bench.put("two.ast", doubling_grammar(2)), bench.put("two.txt", doubling_term(2)), aspects]
    times = []
    for files in (small, words):
        least = 1e9
        for _ in range(2 * bench.turns):
            run = Served(bench.program, bench.folder, files)
            least = min(least, run.processor_time())
            run.end()
        times.append(least)
    size = (Path(bench.folder) / words[1]).stat().st_size / 2 ** 20
    rate = size / (times[1] - times[0])
    print(f"a term of 65,535 nodes from its bytes to the tree: {bench.bounds.at_least('loading, in MiB a second', rate, 20)} MiB a second")
    term = doubling_term(10).replace("C", "D")
    grammar = "Top ::= Main:D0;\n" + doubling_grammar(10).replace("C", "D")
    files = [bench.put("line.ast", grammar), bench.put("line.txt", f"Top({term})\n"), aspects]
    line = f"0 set /Main {term}\n"
    bench.told("a term in a line, in instructions a node", each(bench.counted(files, line * 20, "0 version\n" * 20), 20 * term.count("(")), 2_700)


def reading(bench: Bench) -> None:
    """A kept question and aspects."""
    words = calculator(bench.put, 2)
    line, count = "0 ask /Block/Stmt:1/Expr value()\n", 10_000
    bench.told("a kept question, in instructions", each(bench.counted(words, line * (count + 1), line), count), 2_600)
    files = [bench.put("sum.ast", "Sum ::= Left:Num Right:Num; Num ::= <Value:int>;\n"), bench.put("sum.txt", "Sum(Num(3),Num(4))\n")]
    aspects = [bench.put(f"long{size}.jrag", long_aspects(size)) for size in (1 << 20, 4 << 20)]
    less, more = (instructions([bench.program, *files, it], bench.folder, "") for it in aspects)
    if less is not None and more is not None:
        bench.told("aspects of 4 MiB, in instructions a byte", (more - less) / (3 << 20), 400)


def main() -> None:
    program = os.path.abspath(sys.argv[1] if len(sys.argv) > 1 else str(ROOT / "attrd"))
    if not os.path.exists(program):
        sys.exit("make bench builds ./attrd first")
    with tempfile.TemporaryDirectory() as folder:
        bench = Bench(program, folder, int(sys.argv[2]) if len(sys.argv) > 2 else TURNS)
        bench.put("kept.ast", GRAMMAR)
        bench.put("kept.jrag", ASPECTS)
        for part in (sums, questions, elements, declarations, shared, chains, common, loading, reading):
            part(bench)
    if bench.bounds.broken:
        sys.exit(bench.bounds.told())
    print(bench.bounds.told())


if __name__ == "__main__":
    main()
