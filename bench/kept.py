#!/usr/bin/env python3
"""What an edit costs where all attributes of all nodes are kept, on trees of 1,000, 10,000 and 60,000 nodes.

    python3 bench/kept.py [PROGRAM [TURNS]]

PROGRAM is ./attrd where none is given. A time is processor time, the least of many batches by turns, and is told as a multiple of a
`version` line of the same run. Each batch begins with everything kept. Where `javac` is there, a Java program that flushes everything
at an edit does the same edits in the same run. The run ends with status 1 where a bound doesn't hold.
"""
from __future__ import annotations

import os
import subprocess
import sys
import tempfile
from functools import partial
from pathlib import Path
from typing import Callable, Dict, List, NamedTuple, Sequence, Tuple

from bounds import Bounds
from full_flush import FullFlush
from instructions import instructions, instructions_behind
from served import Served
from trees import ASPECTS, FILL, GRAMMAR, SIZES, ListTree, SumTree

ROOT = Path(__file__).resolve().parent.parent
TURNS, MARK_TURNS = 12, 12
# The program before edits found entries by what they touch, on the same trees: the multiples of a `version` line, and the
# instructions of an entry that is filled in.
BEFORE = {"kept question": 8.0, "front": 11_000.0, "fill": 12_300.0}
# The instructions of a round of new names by version 0.37 without an option, which forgot what an edit may have changed, by a program that isn't
# proved; a proved one takes about a quarter less.
FORGETTING = 84_135
MARKED = 50
# The options with which names that never come again are tried.
OPTIONS: Sequence[Sequence[str]] = ([], ["--cut-off"], ["--cut-off", "--keep", "400000"])


class Row(NamedTuple):
    """A batch of lines that does the same `units` times, and how much longer it may take on the largest tree than on the smallest."""
    what: str
    lines: str
    units: int
    growth: float | None = None
    most: float | None = None


def sum_rows(tree: SumTree) -> List[Row]:
    """Batches over a tree of sums."""
    leaves = tree.leaves
    above = [leaf.rsplit("/", 3)[0] for leaf in leaves]
    pairs = [leaf.rsplit("/", 1)[0] for leaf in leaves]
    whole = "0 ask /Main value()\n"

    def rounds(times: int, units: Sequence[Callable[[int], str]]) -> str:
        return "".join(unit(k) for k in range(times) for unit in units)

    def each(paths: Sequence[str], of: Callable[[str, int], str]) -> List[Callable[[int], str]]:
        """The lines of each path, by the round."""
        return [partial(of, path) for path in paths]

    questions = dict(zip(leaves, above))
    return [
        Row("a token edit, 4 values anew", rounds(20, each(leaves, lambda it, k: f"0 token {it} Value {k}\n0 ask {questions[it]} value()\n")), 320, 1.5, 45),
        Row("a token edit, 16 values anew", rounds(20, each(leaves, lambda it, k: f"0 token {it} Value {k}\n{whole}")), 320, 1.5),
        Row("an edit of a token that nothing rests on", rounds(40, each(leaves, lambda it, k: f'0 token {it} Note "n{k}"\n')), 640, 1.2, 10),
        Row("a set of 3 nodes", rounds(20, each(pairs, lambda it, k: f'0 set {it} Add(Num({k},""),Num(1,""))\n{whole}')), 320, 2.0),
        Row("a set of 61 nodes", rounds(60, [lambda k: f"0 set {tree.small} {tree.small_term}\n{whole}"]), 60, 2.0),
        Row("a put or a drop", rounds(160, [lambda k: f'0 put {tree.spare} Extra Num({k},"")\n{whole}0 drop {tree.spare}/Extra\n{whole}']), 320, 2.0),
        Row("a kept question", rounds(40, each(leaves, lambda it, k: f"0 ask {it} value()\n")), 640),
    ]


def list_rows(tree: SumTree) -> List[Row]:
    """Batches over a tree of which half is one long list."""
    def at(index: int) -> str:
        return f"0 insert / Item {index} Item(7)\n0 ask /Item:{index} price()\n0 drop /Item:{index}\n"

    return [Row("an insert or a drop at the end of a long list", at(tree.items) * 200, 400, 2.0),
            Row("an insert or a drop at its front", at(0) * 40, 80)]


# The least time of each row, by what it is, in seconds for one unit.
Least = Dict[str, float]
VERSIONS = Row("a version line", "0 version\n" * 2000, 2000)


def least_of_turns(served: Sequence[Served], rows_of: Sequence[Sequence[Row]], turns: int) -> List[Least]:
    """The least time of each row on each tree, in seconds for one unit, by turns: each behind the questions that fill the keeper, and
    behind the same batch, since what fills the keeper leaves little of the tree in the processor's cache."""
    least: List[Least] = [{} for _ in served]
    for _ in range(turns):
        for run, rows, times in zip(served, rows_of, least):
            for row in rows:
                run.spent(FILL)
                run.spent(row.lines)
                times[row.what] = min(times.get(row.what, 1e9), run.spent(row.lines) / row.units)
    return least


def line_of(least: Sequence[Least]) -> float:
    """What a `version` line takes, in seconds."""
    return min(times[VERSIONS.what] for times in least)


def tell_rows(bounds: Bounds, rows: Sequence[Row], least: Sequence[Least]) -> None:
    """Prints the rows, each with what it takes on each tree and its bounds."""
    for row in rows:
        units = [times[row.what] / line_of(least) for times in least]
        grown = least[-1][row.what] / least[0][row.what]
        told = ", ".join(f"{unit:.1f}" for unit in units) + " `version` lines"
        if row.most:
            told += f", the last one {bounds.at_most(row.what, units[-1], row.most)}"
        told += f"; {SIZES[-1]:,} nodes against {SIZES[0]:,}: "
        told += bounds.at_most(f"{row.what}, ratio", grown, row.growth) if row.growth else f"{grown:.2f}"
        print(f"{row.what}: {told}", flush=True)


def started(program: str, folder: str, trees: Sequence[SumTree]) -> List[Served]:
    """The program over each tree, with all attributes of all nodes kept."""
    served = []
    for tree in trees:
        name = f"{tree.name}.txt"
        (Path(folder) / name).write_text(tree.term)
        served.append(Served(program, folder, ["kept.ast", name, "kept.jrag"]))
        served[-1].spent(FILL)
    return served


def edits(bounds: Bounds, program: str, folder: str, turns: int, trees: Sequence[SumTree], rows_of: Callable[[SumTree], List[Row]]) -> List[Least]:
    """The rows over these trees: their least times."""
    served = started(program, folder, trees)
    rows = [[VERSIONS, *rows_of(tree)] for tree in trees]
    least = least_of_turns(served, rows, turns)
    for run in served:
        run.end()
    tell_rows(bounds, rows[0][1:], least)
    return least


def sums(bounds: Bounds, program: str, folder: str, turns: int) -> None:
    """Edits in a sum."""
    trees = [SumTree(size) for size in SIZES]
    least = edits(bounds, program, folder, turns, trees, sum_rows)
    question = least[-1]["a kept question"] / line_of(least)
    print(f"a kept question with {SIZES[-1]:,} nodes: {bounds.at_most('a kept question', question, BEFORE['kept question'])} `version` lines, as before")
    against_java(bounds, folder, trees, least)


def against_java(bounds: Bounds, folder: str, trees: Sequence[SumTree], least: Sequence[Least]) -> None:
    """How much faster the program is than a flush of everything and the evaluation of what is asked."""
    java = FullFlush.compiled(folder)
    if java is None:
        print("no Java row: there is no javac")
        return
    for what, levels, wanted in (("a token edit, 4 values anew", 3, 50), ("a token edit, 16 values anew", 15, 25)):
        ratios = []
        for tree, times in zip(trees, least):
            spent = java.spent(tree, levels)
            ratios.append(spent / times[what])
        told = ", ".join(f"{ratio:.1f}" for ratio in ratios[:-1]) + ", " + bounds.at_least(f"{what}, against Java", ratios[-1], wanted)
        print(f"{what}: against full flush and evaluation in Java, on {', '.join(f'{size:,}' for size in SIZES)} nodes, {told} times as fast", flush=True)


def lists(bounds: Bounds, program: str, folder: str, turns: int) -> None:
    """Edits of a long list."""
    least = edits(bounds, program, folder, turns, [ListTree(size) for size in SIZES], list_rows)
    front = least[-1]["an insert or a drop at its front"] / line_of(least)
    told = bounds.at_most("an insert or a drop at the front", front, BEFORE["front"] / 200)
    print(f"an insert or a drop at its front, with {SIZES[-1]:,} nodes: {told} `version` lines, at most a two-hundredth of what they were")


def filling(bounds: Bounds, program: str, folder: str) -> None:
    """The instructions of an entry that is filled in, of the program itself."""
    tree = SumTree(10_000)
    (Path(folder) / "fill.txt").write_text(tree.term)
    words = [program, "kept.ast", "fill.txt", "kept.jrag"]
    empty, filled = (instructions(words, folder, lines) for lines in ("", FILL))
    if empty is None or filled is None:
        print("filling the keeper isn't counted: there is no valgrind")
        return
    each = (filled - empty) / tree.entries
    print(f"filling the keeper: {each:,.0f} instructions an entry, against {BEFORE['fill']:,.0f} before: {bounds.at_most('filling', each / BEFORE['fill'], 1.0)}")


STROKES, NESTED, DECLARED = 20_000, 4, 60


def nested_use() -> Tuple[str, str]:
    """A tree of the calculator: a use below so many blocks, each with declarations of other names, and its path."""
    term, path = 'Print(Use("x"))', "/Expr"
    for level in range(NESTED):
        names = ",".join(f'Decl("d{level}_{k}",-)' for k in range(DECLARED // NESTED))
        term, path = f"Block([{names},{term}])", f"/Stmt:{DECLARED // NESTED}{path}"
    return f"Program({term})\n", f"/Block{path}"


def strokes(path: str, begin: int, count: int) -> str:
    """Lines that give the use another name each time, and ask for its declaration."""
    return "".join(f'0 token {path} ID "x{k}"\n0 ask {path} decl()\n' for k in range(begin, begin + count))


def keystrokes(bounds: Bounds, program: str, folder: str, options: Sequence[str]) -> None:
    """20,000 keystrokes at one name: the memory and the time of an edit stay level from the 5,000th on."""
    samples, told = ROOT / "samples" / "calculator", " ".join(options)
    term, path = nested_use()
    (Path(folder) / "strokes.txt").write_text(term)
    words = [*options, str(samples / "calc.ast"), "strokes.txt", str(samples / "calc.jrag")]
    if subprocess.run([program, *words], cwd=folder, stdin=subprocess.DEVNULL, capture_output=True).returncode:
        print(f"no row of keystrokes: the program doesn't take {told}")
        return
    run, quarter = Served(program, folder, words), STROKES // 4
    spent: List[float] = []
    peaks: List[int] = []
    for begin in range(0, STROKES, quarter):
        spent.append(run.spent(strokes(path, begin, quarter)))
        peaks.append(run.peak())
    run.end()
    time = bounds.at_most(f"time of keystrokes with {told}", spent[3] / spent[1], 1.25)
    memory = bounds.at_most(f"memory of keystrokes with {told}", peaks[3] / peaks[0], 1.1)
    print(f"{STROKES:,} keystrokes at one name with {told}: {sum(spent) / STROKES * 1e6:.1f} us each; the last {quarter:,} against the second ones: {time}; "
          f"at most {peaks[3]:,} KiB, against the first ones: {memory}")


PRINTS, ROUNDS, FIRST_ROUNDS, COUNTED = 200, 20_000, 2_000, 1_000


def block_of_prints() -> str:
    """A tree of the calculator: a declaration, and prints that use it."""
    prints = ",".join(f'Print(Add(Use("x"),Num({k})))' for k in range(PRINTS))
    return f'Program(Block([Decl("x",Num(1)),{prints}]))\n'


def all_prints() -> str:
    """Lines that ask for the value of each print."""
    return "".join(f"0 ask /Block/Stmt:{k}/Expr value()\n" for k in range(1, PRINTS + 1))


def new_names(begin: int, count: int) -> str:
    """Rounds: the declaration gets a name that never came, a use asks for its own declaration, gets that name too, and its value is asked."""
    def round_of(k: int) -> str:
        use = f"/Block/Stmt:{k % PRINTS + 1}/Expr"
        return (f'0 token /Block/Stmt:0 ID "x{k}"\n0 ask {use}/Left decl()\n'
                f'0 token {use}/Left ID "x{k}"\n0 ask {use} value()\n')

    return "".join(round_of(k) for k in range(begin, begin + count))


def names(bounds: Bounds, program: str, folder: str, options: Sequence[str]) -> None:
    """20,000 rounds of names that never come again: the time of a round and the memory stay level, and near those of a program that forgets."""
    samples, told = ROOT / "samples" / "calculator", " ".join(options) or "no option"
    (Path(folder) / "names.txt").write_text(block_of_prints())
    words = [*options, str(samples / "calc.ast"), "names.txt", str(samples / "calc.jrag")]
    run, half = Served(program, folder, words), ROUNDS // 2
    run.spent(all_prints())
    first = run.spent(new_names(0, FIRST_ROUNDS))
    early = run.peak()
    first += run.spent(new_names(FIRST_ROUNDS, half - FIRST_ROUNDS))
    second = run.spent(new_names(half, half))
    peak = run.peak()
    run.end()
    time = bounds.at_most(f"time of new names with {told}", second / first, 1.25)
    memory = bounds.at_most(f"memory of new names with {told}", peak / early, 2.0)
    print(f"{ROUNDS:,} rounds of names that never come again with {told}: {(first + second) / ROUNDS * 1e6:.1f} us each; the second {half:,} against the "
          f"first ones: {time}; at most {peak:,} KiB, against {FIRST_ROUNDS:,} rounds: {memory}")
    cost = instructions_behind([program, *words], folder, all_prints() + new_names(0, COUNTED), new_names(COUNTED, COUNTED))
    if cost is not None:
        ratio = bounds.at_most(f"instructions of new names with {told}", cost / COUNTED / FORGETTING, 1.3)
        print(f"a round of these with {told}: {cost / COUNTED:,.0f} instructions, against those of a program that forgets what may have changed: {ratio}")


def marks(bounds: Bounds, program: str, folder: str) -> None:
    """200 sessions with 50 marks each: making them takes as long for each as with 100 sessions."""
    def lines(sessions: int) -> str:
        return "".join(f"{session} mark m{mark} /Item:{mark}\n" for mark in range(MARKED) for session in range(sessions))

    least = [1e9, 1e9]
    for _ in range(MARK_TURNS):
        for at, sessions in enumerate((100, 200)):
            run = Served(program, folder, ["kept.ast", f"{ListTree(SIZES[0]).name}.txt", "kept.jrag"])
            least[at] = min(least[at], run.spent(lines(sessions)))
            run.end()
    print(f"200 sessions with {MARKED} marks each made: {least[1] / 200 / MARKED * 1e6:.2f} us a mark; against 100 sessions: {bounds.at_most('marks', least[1] / least[0], 2.5)}")


def main() -> None:
    program = os.path.abspath(sys.argv[1] if len(sys.argv) > 1 else str(ROOT / "attrd"))
    if not os.path.exists(program):
        sys.exit("make bench builds ./attrd first")
    turns = int(sys.argv[2]) if len(sys.argv) > 2 else TURNS
    bounds = Bounds()
    with tempfile.TemporaryDirectory() as folder:
        (Path(folder) / "kept.ast").write_text(GRAMMAR)
        (Path(folder) / "kept.jrag").write_text(ASPECTS)
        sums(bounds, program, folder, turns)
        lists(bounds, program, folder, turns)
        filling(bounds, program, folder)
        marks(bounds, program, folder)
        keystrokes(bounds, program, folder, ["--keep", "10000"])
        keystrokes(bounds, program, folder, ["--cut-off", "--keep", "10000"])
        for options in OPTIONS:
            names(bounds, program, folder, options)
    if bounds.broken:
        sys.exit(bounds.told())
    print(bounds.told())


if __name__ == "__main__":
    main()
