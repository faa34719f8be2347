#!/usr/bin/env python3
"""Counts how long clauses, contracts and definitions are, and how many clauses say again what another clause of the crate says.

    tools/counts.py [--hold] [--list] [NAME...]

A line of numbers for each crate, or for those that are named. --list names what is too long, each as FILE:LINE. With --hold the
status is 1 where a bound doesn't hold: no line of a clause or a definition over 160 characters, no contract over 1,000 in
at_demand and at_engine, at most one in ten clauses of at_engine a repeat, no function over 40 lines, at most 30 files of
lemmas in one folder, and none with the name of a file of specs; but for what is beyond a bound still (BEYOND). The last line tells how many lines of proofs are longer than
they are to be from now on; nothing holds it."""
import argparse
import re
import sys
from collections import Counter
from dataclasses import dataclass
from pathlib import Path
from typing import Dict, Iterable, List, Mapping, Optional, Sequence, Tuple

LINE, CONTRACT, REPEATS, FUNCTION_LINES, FILES = 160, 1_000, 0.1, 40, 30
PROOF_LINE = 120
SHORT_CONTRACTS, FEW_REPEATS = ("at_demand", "at_engine"), ("at_engine",)
# How many places of a crate are beyond a bound still. They are mended when it is proved anew for another reason.
BEYOND: Dict[Tuple[str, str], int] = {}
FUNCTION = re.compile(r"^ *(?:pub(?:\(\w+\))? )?(?:const )?fn (\w+)")
# What stands in a folder of proofs beside lemmas.
NOT_LEMMAS = ("Lib.antt", "Answers.antt", "Invariants.antt", "Proof.antt")
CLAUSE = re.compile(r"^ *(requires|ensures)(?: \*)?(?: \w+)? \{")


@dataclass
class Clause:
    """A clause of a contract: its function, where it begins, its lines, and what it says, without its label."""

    function: str
    place: str
    lines: List[str]
    said: str


def end_of(lines: Sequence[str], first: int) -> int:
    """The number behind the last line of a clause that begins in the line `first`."""
    depth = 0
    for number in range(first, len(lines)):
        depth += lines[number].count("{") - lines[number].count("}")
        if depth <= 0:
            return number + 1
    return len(lines)


def clauses_of(file: Path) -> List[Clause]:
    """The clauses of a file's contracts."""
    lines, function, number = file.read_text(encoding="utf-8").splitlines(), "", 0
    found: List[Clause] = []
    while number < len(lines):
        named = FUNCTION.match(lines[number])
        function = f"{file}:{number + 1}: {named[1]}" if named else function
        begun = CLAUSE.match(lines[number])
        end = end_of(lines, number) if begun else number + 1
        if begun:
            text = " ".join(it.strip() for it in lines[number:end])
            said = begun[1] + text[text.index("{") :]
            found.append(Clause(function, f"{file}:{number + 1}", lines[number:end], said))
        number = end
    return found


def long_functions(file: Path) -> List[str]:
    """The functions of a file, laid out by `rt fmt`, with more lines between their braces than one may have."""
    found: List[str] = []
    margin: Optional[str] = None
    opened: Optional[int] = None
    name = ""
    for number, line in enumerate(file.read_text(encoding="utf-8").splitlines(), 1):
        named = FUNCTION.match(line)
        if named:
            margin, name, opened = line[: len(line) - len(line.lstrip())], f"{file}:{number}: {named[1]}", None
        if margin is not None and opened is None and (named or line.startswith((margin + "{", margin + ")"))) and line.endswith("{"):
            opened = number
        elif opened and margin is not None and line == margin + "}":
            if number - opened - 1 > FUNCTION_LINES:
                found.append(f"{name} ({number - opened - 1} lines)")
            margin = opened = None
    return found


@dataclass
class Counts:
    """What is counted of a crate, and the places of what is too long."""

    clauses: int
    repeats: int
    long_clauses: List[str]
    long_contracts: List[str]
    long_lines: List[str]
    long_functions: List[str]
    crowded: List[str]
    same_names: List[str]


def crowded_in(folder: Path) -> List[str]:
    """The folders with more files of lemmas than one may have."""
    folders = Counter(it.parent for it in folder.rglob("*.antt") if it.name[0].isupper() and it.name not in NOT_LEMMAS)
    return [f"{it} ({count} files)" for it, count in folders.items() if count > FILES]


def counts_of(crate: str) -> Counts:
    """What is counted of the crate."""
    folder = Path("crates", crate)
    clauses = [it for file in sorted((folder / "src").rglob("*.rt")) for it in clauses_of(file)]
    said = Counter(it.said for it in clauses)
    contracts = Counter[str]()
    for it in clauses:
        contracts[it.function] += len(it.said)
    specs = [(file, file.read_text(encoding="utf-8").splitlines()) for file in sorted((folder / "specs").glob("*.antt"))]
    # what is imported is one line, whatever it names
    long_lines = [f"{file}:{n}" for file, lines in specs for n, it in enumerate(lines, 1) if len(it) > LINE and not it.startswith(("use ", "pub use "))]
    long_clauses = [it.place for it in clauses if max(map(len, it.lines)) > LINE]
    long_contracts = [f"{name} ({length:,})" for name, length in contracts.items() if length > CONTRACT]
    functions = [it for file in sorted((folder / "src").rglob("*.rt")) for it in long_functions(file)]
    names = {it.name for it in (folder / "specs").glob("*.antt")} - set(NOT_LEMMAS)
    same_names = [str(it) for it in sorted((folder / "proofs").rglob("*.antt")) if it.name in names]
    repeats, crowded = len(clauses) - len(said), crowded_in(folder / "proofs")
    return Counts(len(clauses), repeats, long_clauses, long_contracts, long_lines, functions, crowded, same_names)


def long_proof_lines(crate: str) -> Tuple[int, int]:
    """How many lines of the crate's proofs are longer than they are to be, but for imports, and how many there are in all."""
    files = Path("crates", crate, "proofs").rglob("*.antt")
    lines = [it for file in files for it in file.read_text(encoding="utf-8").splitlines() if not it.startswith("use ")]
    return sum(len(it) > PROOF_LINE for it in lines), len(lines)


def holds(crate: str, counts: Counts) -> bool:
    """Whether the crate is within its bounds."""
    contracts = crate not in SHORT_CONTRACTS or not counts.long_contracts
    repeats = crate not in FEW_REPEATS or counts.repeats <= REPEATS * counts.clauses
    held = ("long_clauses", "long_lines", "long_functions", "crowded", "same_names")
    return all(len(getattr(counts, it)) <= BEYOND.get((crate, it), 0) for it in held) and contracts and repeats


# The columns: what is counted, in two lines, and the field that lists it.
COLUMNS = [
    ("clauses", f"over {LINE}", "long_clauses"),
    ("contracts", f"over {CONTRACT:,}", "long_contracts"),
    ("lines of", "specs", "long_lines"),
    ("functions", f"over {FUNCTION_LINES}", "long_functions"),
    ("folders", f"over {FILES}", "crowded"),
    ("lemma files", "as specs", "same_names"),
]


def lists_of(counts: Counts) -> List[List[str]]:
    """What each column lists."""
    return [getattr(counts, field) for _, _, field in COLUMNS]


def told(name: str, clauses: int, repeats: int, lengths: Iterable[int]) -> None:
    """Prints a row."""
    share = f"{100 * repeats / clauses:.0f}" if clauses else "-"
    print(f"{name:12} {clauses:7,} {repeats:7,} {share:>6}" + "".join(f" {it:11,}" for it in lengths))


def told_of_all(counts: Mapping[str, Counts], listing: bool) -> None:
    """Prints the table, with the places of what is too long where that is wanted."""
    print(f"{'crate':12} {'clauses':>7} {'repeats':>7} {'in 100':>6}" + "".join(f" {first:>11}" for first, _, _ in COLUMNS))
    print(" " * 35 + "".join(f" {second:>11}" for _, second, _ in COLUMNS))
    for name, it in counts.items():
        lists = lists_of(it)
        told(name, it.clauses, it.repeats, map(len, lists))
        for place in (place for places in lists for place in places) if listing else ():
            print(f"    {place}")
    if len(counts) > 1:
        sums = [sum(map(len, column)) for column in zip(*map(lists_of, counts.values()))]
        told("all", sum(it.clauses for it in counts.values()), sum(it.repeats for it in counts.values()), sums)


def main() -> int:
    words = argparse.ArgumentParser(description="Counts long clauses, contracts and definitions, and repeats.")
    words.add_argument("--hold", action="store_true", help="status 1 where a bound doesn't hold")
    words.add_argument("--list", action="store_true", help="name what is too long")
    words.add_argument("crates", metavar="NAME", nargs="*")
    given = words.parse_args()
    names = given.crates or sorted(it.name for it in Path("crates").iterdir() if (it / "src").is_dir())
    counts: Dict[str, Counts] = {name: counts_of(name) for name in names}
    told_of_all(counts, given.list)
    over = [name for name, it in counts.items() if not holds(name, it)]
    print(f"within their bounds: {len(counts) - len(over)} of {len(counts)}" + (f"; not yet: {', '.join(over)}" if over else ""))
    long, lines = map(sum, zip(*map(long_proof_lines, names)))
    print(f"lines of proofs over {PROOF_LINE} characters: {long:,} of {lines:,}")
    return 1 if over and given.hold else 0


if __name__ == "__main__":
    sys.exit(main())
