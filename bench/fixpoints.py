#!/usr/bin/env python3
"""What circular attributes cost: a grammar's nullable, first and follow, live variables, one large component, and edits beside it.

    python3 bench/fixpoints.py [PROGRAM [TURNS]]

PROGRAM is ./attrd where none is given. A time is processor time, the least of TURNS runs, behind the start. Instructions are those of a
run less those of a run without the lines, as `valgrind` counts them; growth is told in these where it is there. The grammars are rings of
rules of the sample `samples/grammars`; the programs are those of `samples/flow`, with loops by labels and jumps. The run ends with status
1 where a bound doesn't hold.
"""
from __future__ import annotations

import random
import subprocess
import sys
import tempfile
from dataclasses import dataclass
from pathlib import Path
from typing import List, Optional, Sequence, Tuple

from bounds import Bounds
from figures import ROOT, program_in
from instructions import instructions
from served import Served

FORMS = ("--forms", "circular")
GRAMMARS, FLOW = ROOT / "samples" / "grammars", ROOT / "samples" / "flow"
TURNS = 3
# Of how many rules the grammars are; for so many a time is wanted, in seconds.
RULES, WANTED_RULES, WANTED_SETS = (20, 40, 80, 160, 320), 80, 0.150
SIGNS = ("t0", "t1", "t2", "t3", "t4", "$")
# The programs of which a time is wanted: how many statements they have, about, and loops.
STATEMENTS, LOOPS, VARIABLES, WANTED_LIVE = 1_000, 50, 8, 0.5
# Of how many instances a component is.
MEMBERS = (1_000, 4_000, 16_000)
# How much more of what is linear the largest may take for each than the smallest.
GROWTH = 1.2
# Of how many elements a fold is, and how much more each may take where a circular attribute asks for the fold than where it is asked for.
ELEMENTS, ASKED = 2_000, 1.2
# How many instructions more a program without circular attributes may take with the option.
BESIDE = 1.03
RING = """Ring ::= Item*;
Item ::= <On:boolean> <Note>;
"""
# Each item leads to the next one, to one that is far, and the last one to the first: one component, whose truth goes against the list.
RING_ASPECTS = """aspect Ring {
  syn boolean Item.hot() circular [false] = getOn() || next().hot() || far().hot();
  syn boolean Item.cold() circular [true] = !getOn() && next().cold() && far().cold();
  inh Item Item.next();
  eq Ring.getItem(int i).next() = i + 1 < getNumItem() ? getItem(i + 1) : getItem(0);
  inh Item Item.far();
  eq Ring.getItem(int i).far() = getItem((i * 7 + 3) % getNumItem());
  syn lazy boolean Item.isNoted() = getNote().equals("n");

  syn lazy boolean Ring.hasOn() = exists (i : getItemList()) { i.isOn() };
  syn boolean Item.isOn() = getOn();
  syn boolean Ring.byKept() circular [false] = hasOn();
  syn boolean Ring.byEach() circular [false] = exists (i : getItemList()) { i.isOn() };
}
"""


@dataclass(frozen=True)
class Files:
    """A program of attributes with a tree, and the lines that are asked."""

    grammar: Path
    tree: Path
    aspects: Path
    lines: str

    def words(self) -> List[str]:
        return [*FORMS, str(self.grammar), str(self.tree), str(self.aspects)]


def written(folder: Path, name: str, text: str) -> Path:
    """The file of that name with the text."""
    (folder / name).write_text(text, encoding="utf-8")
    return folder / name


def ring_of_rules(count: int) -> str:
    """A grammar in which each rule names the next two, the last of which may be empty."""
    def rule(at: int) -> str:
        first = f'Prod([RuleUse("A{(at + 1) % count}"),Sign("t{at % 5}")])'
        second = f'Prod([RuleUse("A{(at + 2) % count}")])'
        return f'Rule("A{at}",[{",".join([first, second] + ["Prod([])"] * (at == count - 1))}])'

    return f"Grammar([{','.join(map(rule, range(count)))}])\n"


def firsts_of(count: int) -> str:
    """Questions for nullable and first of all rules and signs."""
    return asked_of(count, ["nullable()"] + [f'begins("{sign}")' for sign in SIGNS])


def sets_of(count: int) -> str:
    """Questions for nullable, first and follow of all rules and signs."""
    return firsts_of(count) + asked_of(count, [f'follows("{sign}")' for sign in SIGNS])


def asked_of(count: int, asked: Sequence[str]) -> str:
    """These questions, each of all rules."""
    return "".join(f"0 ask /Rule:{at} {it}\n" for it in asked for at in range(count))


def flow_program(chance: random.Random) -> Tuple[str, int]:
    """A program of assignments, with labels and jumps to them, and how many statements it has."""
    def read() -> str:
        use = f'Use("v{chance.randrange(VARIABLES)}")'
        return chance.choice((use, f"Sum({use},Number(1))"))

    made: List[str] = []
    stretch = STATEMENTS // LOOPS
    for at in range(STATEMENTS):
        if at % stretch == 0:
            target = at * 7 % STATEMENTS // stretch * stretch
            made += [f'Label("l{at}")', f'If({read()},[Goto("l{target}")],[])']
        else:
            made.append(f'Assign("v{chance.randrange(VARIABLES)}",{read()})')
    return f"Program([{','.join(made)}],Exit())\n", len(made)


def live_of(count: int) -> str:
    """Questions for all variables behind all statements."""
    return "".join(f'0 ask /Stmt:{at} liveBehind("v{it}")\n' for at in range(count) for it in range(VARIABLES))


def ring_of(count: int) -> str:
    """A ring of items, of which the last one is on."""
    return f"Ring([{','.join(f'Item({str(at + 1 == count).lower()},{chr(34) * 2})' for at in range(count))}])\n"


class Fixpoints:
    """The program, a folder, and the bounds."""

    def __init__(self, program: str, folder: Path, turns: int) -> None:
        self.program, self.folder, self.turns, self.bounds = program, folder, turns, Bounds()

    def cost(self, files: Files) -> Tuple[float, str]:
        """What the lines cost, and in what: instructions where there is a `valgrind`, else time."""
        counted = self.counted(files)
        return (float(counted), "instructions") if counted is not None else (self.spent(files) * 1e9, "ns")

    def spent(self, files: Files) -> float:
        """The least processor time of the lines, each time in a run of its own, in seconds."""
        least = float("inf")
        for _ in range(self.turns):
            run = Served(self.program, self.folder, files.words())
            least = min(least, run.spent(files.lines))
            run.end()
        return least

    def counted(self, files: Files) -> Optional[int]:
        """The instructions of the lines; None where there is no `valgrind`."""
        words = [self.program, *files.words()]
        with_lines, without = (instructions(words, self.folder, lines) for lines in (files.lines, ""))
        return None if with_lines is None or without is None else with_lines - without

    def work(self, files: Files) -> int:
        """How many lazy values the lines find."""
        run = subprocess.run([self.program, "--work", *files.words()], input=files.lines, capture_output=True, text=True, check=True)
        return int(run.stderr.split()[-1])

    def grammar(self, count: int, lines: str) -> Files:
        tree = written(self.folder, f"rules{count}.txt", ring_of_rules(count))
        return Files(GRAMMARS / "grammars.ast", tree, GRAMMARS / "grammars.jrag", lines)

    def firsts(self) -> None:
        """Nullable and first of rings of rules, in which each value rests on a few others."""
        each: List[float] = []
        for count in RULES:
            files = self.grammar(count, firsts_of(count))
            (cost, unit), work = self.cost(files), self.work(files)
            each.append(cost / work)
            print(f"nullable and first of {count} rules: {work:,} lazy values, {each[-1]:,.0f} {unit} for each", flush=True)
        print(f"for each value, {RULES[-1]} rules against {RULES[0]}: {self.bounds.at_most('nullable and first, growth', each[-1] / each[0], GROWTH)}")

    def sets(self) -> None:
        """Nullable, first and follow of rings of rules; follow goes from one rule that names another to the next."""
        each: List[float] = []
        for count in RULES:
            files = self.grammar(count, sets_of(count))
            spent, (cost, unit), work = self.spent(files), self.cost(files), self.work(files)
            each.append(cost / work)
            told = f"{spent * 1000:.1f} ms"
            if count == WANTED_RULES:
                told += f", {self.bounds.at_most('nullable, first and follow, in seconds', spent, WANTED_SETS)} s"
            print(f"nullable, first and follow of {count} rules: {told}, {work:,} lazy values, {each[-1]:,.0f} {unit} for each", flush=True)
        print(f"for each value, {RULES[-1]} rules against {RULES[0]}: {self.bounds.at_most('sets, growth', each[-1] / each[0], GROWTH)}")

    def live(self) -> None:
        """Live variables of a program with loops."""
        term, count = flow_program(random.Random(3))
        files = Files(FLOW / "flow.ast", written(self.folder, "flow.txt", term), FLOW / "flow.jrag", live_of(count))
        spent = self.spent(files)
        print(f"live variables behind {count:,} statements with {LOOPS} loops, {VARIABLES} variables: "
              f"{self.bounds.at_most('live variables, in seconds', spent, WANTED_LIVE)} s, {self.work(files):,} lazy values", flush=True)

    def ring(self, count: int, lines: str) -> Files:
        return Files(written(self.folder, "ring.ast", RING), written(self.folder, f"ring{count}.txt", ring_of(count)),
                     written(self.folder, "ring.jrag", RING_ASPECTS), lines)

    def component(self, what: str) -> None:
        """One component, whose instances' formulas have two atoms each."""
        each: List[float] = []
        for count in MEMBERS:
            files = self.ring(count, f"0 ask /Item:0 {what}()\n")
            spent, (cost, unit) = self.spent(files), self.cost(files)
            each.append(cost / count)
            print(f"a component of {count:,} instances ({what}): {spent * 1000:.1f} ms, {each[-1]:,.0f} {unit} each", flush=True)
        print(f"  {MEMBERS[-1]:,} against {MEMBERS[0]:,}: {self.bounds.at_most(f'a component ({what}), growth', each[-1] / each[0], GROWTH)}")

    def strictly(self) -> None:
        """What the equation of a circular attribute wants as final values: a fold by an attribute that is kept, and a fold of its own."""
        each: List[float] = []
        for what in ("hasOn", "byKept", "byEach"):
            cost, unit = self.cost(self.ring(ELEMENTS, f"0 ask / {what}()\n"))
            each.append(cost / ELEMENTS)
            print(f"a fold over {ELEMENTS:,} elements ({what}): {each[-1]:,.0f} {unit} each", flush=True)
        ratio = self.bounds.at_most("a kept fold, asked for", each[1] / each[0], ASKED)
        print(f"  asked for by a circular attribute, against by itself: {ratio}")

    def edits(self) -> None:
        """An edit beside a component evaluates none of it anew; one within it evaluates it once."""
        count = MEMBERS[0]
        asked = "0 ask /Item:0 hot()\n"
        beside = self.ring(count, f'{asked}0 token /Item:7 Note "n"\n{asked}0 ask /Item:7 hot()\n')
        within = self.ring(count, f"{asked}0 token /Item:7 On true\n{asked}")
        print(f"an edit beside a component of {count:,}: {self.bounds.at_most('an edit beside a component, anew', self.work(beside) - count, 0)} anew; "
              f"one within it: {self.bounds.at_most('an edit within a component, anew', self.work(within) - count, count)}")

    def without(self) -> None:
        """A program without circular attributes, with the option and without."""
        sample = ROOT / "samples" / "objects"
        words = [str(sample / it) for it in ("objects.ast", "tree.txt", "names.jrag", "types.jrag")]
        lines = (sample / "session").read_text(encoding="utf-8") * 3
        lines = "".join(f"{it}\n" for it in lines.splitlines() if " ask " in it)
        counts = [instructions([self.program, *options, *words], self.folder, lines) for options in ((), FORMS)]
        if counts[0] is None or counts[1] is None:
            print("the option isn't counted: there is no valgrind")
            return
        print(f"a program without circular attributes, with the option: {self.bounds.at_most('the option', counts[1] / counts[0], BESIDE)} times the instructions")


def main(words: Sequence[str]) -> None:
    program = program_in(words, __doc__)
    with tempfile.TemporaryDirectory() as folder:
        bench = Fixpoints(program, Path(folder), int(words[1]) if len(words) > 1 else TURNS)
        bench.without()
        bench.edits()
        bench.component("hot")
        bench.component("cold")
        bench.strictly()
        bench.live()
        bench.firsts()
        bench.sets()
    if bench.bounds.broken:
        sys.exit(bench.bounds.told())
    print(bench.bounds.told())


if __name__ == "__main__":
    main(sys.argv[1:])
