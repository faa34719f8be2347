#!/usr/bin/env python3
"""Where attributes that aren't lazy may get dear: lazy ones over a long chain of them, and one of them that many ask for.

    python3 bench/cliff.py [PROGRAM] [--items N ..] [--limit SECONDS]

PROGRAM is ./attrd where none is given. A chain of attributes that aren't lazy goes through 2,000 to 30,000 items, and each item
has a lazy one over its own. The last item is asked for a sum of them that goes through all, which evaluates them from the last one on or
from the first one on; and for a lazy attribute that asks that of the item before first, and then the chain. Each is asked by `ask`, and by
`post` and `wait`. Then 2,000 items ask for one attribute that isn't lazy and rests on others that aren't. Times are processor times,
instructions those of `valgrind`. A run is ended after so many seconds of its processor time (20), and told as more than that.
"""
from __future__ import annotations

import argparse
import os
import resource
import signal
import subprocess
import sys
import tempfile
from pathlib import Path
from typing import NamedTuple, Sequence

from figures import program_in, row, table
from instructions import instructions_behind

SIZES, LIMIT, ASKING = (2_000, 4_000, 21_800, 30_000), 20, 2_000
GRAMMAR = "Names ::= Item*;\nItem ::= <ID>;\n"
CHAIN = """aspect Chain {
  inh int Item.before();
  eq Names.getItem(int i).before() = i == 0 ? 0 : getItem(i - 1).chained() - 1;
  syn int Item.chained() = before() + 2;
  syn lazy int Item.kept() = chained();
  inh int Item.fromFirst();
  eq Names.getItem(int i).fromFirst() = i == 0 ? 0 : getItem(i - 1).fromFirst() + getItem(i).kept();
  inh int Item.fromLast();
  eq Names.getItem(int i).fromLast() = i == 0 ? 0 : getItem(i).kept() + getItem(i - 1).fromLast();
  inh lazy int Item.nested();
  eq Names.getItem(int i).nested() = i == 0 ? 0 : getItem(i - 1).nested() + getItem(i).chained();
}
"""
ITEM = 'Item("n")'
ORDERS = {"fromLast": "a sum of the lazy ones from the last on", "fromFirst": "a sum of them from the first on",
          "nested": "lazy ones that begin before those that they rest on"}
# What 2,000 items ask for: `shared` has so many instances below itself, each counted as often as it is asked.
SHARED = """aspect Shared {
  syn int Item.one() = 1;
  syn int Item.six() = one() + one() + one() + one() + one() + one();
  syn int Names.shared() = %s;
  inh int Item.asks();
  eq Names.getItem(int i).asks() = shared();
  syn lazy int Names.all() = sum (i : getItemList()) { i.asks() };
}
"""
BELOW = {"57": " + ".join(f"getItem({k}).six()" for k in range(8)) + " + getItem(8).one()", "ten": " + ".join(f"getItem({k}).one()" for k in range(10))}


class Spent(NamedTuple):
    """What a run took: its seconds of processor time, the most memory in MiB, and the last reply, which is empty where it was ended."""

    seconds: float
    memory: float
    reply: str

    def told(self, limit: int) -> str:
        """The time and the memory of a table's cell."""
        time = f"{self.seconds:.2f} s" if self.reply else f"more than {limit} s"
        return f"{time}, {self.memory:.0f} MiB"


def spent(words: Sequence[str], folder: Path, lines: str, limit: int) -> Spent:
    """What the program takes for these lines. Ends the process where the program ends otherwise than well or by the limit."""
    (folder / "lines").write_text(lines, encoding="utf-8")
    with open(folder / "lines", "rb") as given, open(folder / "replies", "wb") as replies:
        run = subprocess.Popen(words, cwd=folder, stdin=given, stdout=replies)
        resource.prlimit(run.pid, resource.RLIMIT_CPU, (limit, resource.RLIM_INFINITY))
        _, status, used = os.wait4(run.pid, 0)
    run.returncode = os.waitstatus_to_exitcode(status)
    seconds, told = used.ru_utime + used.ru_stime, (folder / "replies").read_text(encoding="utf-8").splitlines()
    if run.returncode not in (0, -signal.SIGXCPU):
        sys.exit(f"{' '.join(words)} ended with status {run.returncode}")
    return Spent(seconds, used.ru_maxrss / 1024, "" if run.returncode else told[-1])


def put(folder: Path, name: str, text: str) -> str:
    """Writes a file, whose name is returned."""
    (folder / name).write_text(text, encoding="utf-8")
    return name


def items(folder: Path, count: int) -> str:
    """The file with the tree of so many items."""
    return put(folder, f"items{count}.txt", f"Names([{','.join([ITEM] * count)}])\n")


def chains(program: str, folder: Path, sizes: Sequence[int], limit: int) -> None:
    """Lazy attributes over a chain of others, in each order."""
    table("A chain, with a lazy attribute over each", "Items", "by `ask`", "by `post` and `wait`")
    aspects = put(folder, "chain.jrag", CHAIN)
    for name, order in ORDERS.items():
        for count in sizes:
            words = [program, "names.ast", items(folder, count), aspects]
            question = f"/Item:{count - 1} {name}()"
            asked = spent(words, folder, f"0 ask {question}\n", limit)
            posted = spent(words, folder, f"0 post {question}\n0 wait 1\n", limit)
            values = {it.reply.split(" = ")[-1] for it in (asked, posted) if it.reply}
            if len(values) > 1:
                sys.exit(f"{question} is answered by {' and '.join(sorted(values))}")
            row(order, f"{count:,}", asked.told(limit), posted.told(limit))


def shared(program: str, folder: Path) -> None:
    """An attribute that isn't lazy and that many ask for."""
    table(f"What {ASKING:,} items ask for rests on", "Instructions an item")
    for below, expression in BELOW.items():
        words = [program, "names.ast", items(folder, ASKING), put(folder, f"shared{below}.jrag", SHARED % expression)]
        counted = instructions_behind(words, folder, "", "0 ask / all()\n")
        row(f"{below} others", f"{counted / ASKING:,.0f}" if counted else "not counted: there is no valgrind")


def main() -> None:
    parser = argparse.ArgumentParser(description=(__doc__ or "").splitlines()[0])
    parser.add_argument("program", nargs="?")
    parser.add_argument("--items", type=int, nargs="+", default=SIZES)
    parser.add_argument("--limit", type=int, default=LIMIT)
    arguments = parser.parse_args()
    program = program_in([arguments.program] if arguments.program else [], __doc__)
    with tempfile.TemporaryDirectory() as folder:
        put(Path(folder), "names.ast", GRAMMAR)
        chains(program, Path(folder), arguments.items, arguments.limit)
        shared(program, Path(folder))


if __name__ == "__main__":
    main()
