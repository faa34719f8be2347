#!/usr/bin/env python3
"""What was measured of each version (bench/history.tsv), and the table of bounds in docs/PERFORMANCE.md that is written from it.

    python3 bench/history.py --write    writes the table into the page
    python3 bench/history.py --check    tells whether the page has the table that would be written; the status is 1 where it doesn't

A line of the file is one number, between tabs: the version, the script, what was measured, the value, its unit, whether the program was
proved (`yes` or `no`), and the bound (`<= N`, `>= N`, or nothing). Lines are added at the end, and of two lines for one thing the later
one counts. The scripts of this folder add theirs where the environment names the file by ATTRD_HISTORY; the program counts as proved
where ATTRD_PROVED is `yes`. `make bench WRITE=1` does both.
"""
from __future__ import annotations

import os
import re
import sys
from pathlib import Path
from typing import Dict, Iterable, List, NamedTuple, Optional, Tuple

ROOT = Path(__file__).resolve().parent.parent
HISTORY = ROOT / "bench" / "history.tsv"
PAGE = ROOT / "docs" / "PERFORMANCE.md"
HEAD = "version\tscript\trow\tvalue\tunit\tproved\tbound"
BEGIN, END = "<!-- bounds: written by bench/history.py, never by hand -->", "<!-- end of bounds -->"
# Options that make other rows of a script.
TELLING = ("--cut-off", "--index", "--quarter")
UNIT = re.compile(r"^(.*?), (?:in )?((?:millions of )?instructions(?: an? \w+)?|MiB(?: a second)?|MB|GB|KiB|bytes|seconds|microseconds"
                  r"|ms|us|s|%)$")
NODES = re.compile(r"^(.*?), ([\d,]+) nodes(.*)$")
RATIO = ", ratio"


class Measured(NamedTuple):
    """A number that was measured, as a line of the file has it."""

    version: str
    script: str
    row: str
    value: str
    unit: str = ""
    proved: str = "no"
    bound: str = ""

    def holds(self) -> bool:
        """Whether the value is within its bound; it is where there is none."""
        relation, _, most = self.bound.partition(" ")
        return not self.bound or (float(self.value) <= float(most) if relation == "<=" else float(self.value) >= float(most))


def short(value: float) -> str:
    """A number with four digits, or all of those in front of its point."""
    return f"{value:.0f}" if abs(value) >= 1_000 else f"{value:.4g}"


def unit_of(what: str) -> Tuple[str, str]:
    """What was measured without its unit, and the unit, which stands at its end where there is one."""
    found = UNIT.match(what)
    return (found[1], found[2]) if found else (what, "")


def script_of(words: Iterable[str]) -> str:
    """The name of the script that these words of a command line run, with the options that make other rows of it."""
    name, *others = words
    return " ".join([Path(name).stem, *(it for it in TELLING if it in others)])


def note(what: str, value: float, most: Optional[float] = None, least: Optional[float] = None) -> None:
    """Adds a line for this script to the file that the environment names, if it names one: what was measured, and how much it may be."""
    path = os.environ.get("ATTRD_HISTORY")
    if path:
        row, unit = unit_of(what)
        version = (ROOT / "VERSION").read_text(encoding="utf-8").strip()
        proved = "yes" if os.environ.get("ATTRD_PROVED") == "yes" else "no"
        bound = f"<= {short(most)}" if most is not None else f">= {short(least)}" if least is not None else ""
        with open(path, "a", encoding="utf-8") as file:
            file.write("\t".join(Measured(version, script_of(sys.argv), row, short(value), unit, proved, bound)) + "\n")


def read(text: str) -> List[Measured]:
    """The lines of the file. Raises ValueError where one isn't written as the head of this script says."""
    head, *lines = text.splitlines()
    if head != HEAD:
        raise ValueError(f"the first line isn't {HEAD!r}")
    found = []
    for number, line in enumerate(lines, 2):
        cells = line.split("\t")
        if len(cells) != len(Measured._fields) or cells[5] not in ("yes", "no") or not re.fullmatch(r"(?:[<>]= \S+)?", cells[6]):
            raise ValueError(f"line {number} isn't one of a version, a script, a row, a value, a unit, yes or no, and a bound")
        float(cells[3])
        found.append(Measured(*cells))
    return found


def age(it: Measured) -> Tuple[bool, Tuple[int, ...]]:
    """Which of two measurements of one thing counts: a proved program's before another's, and then that of the later version."""
    return it.proved == "yes", tuple(map(int, it.version.split(".")))


def bounded(rows: Iterable[Measured]) -> List[Measured]:
    """Of each thing that has a bound the measurement that counts, in the order in which the things are met first."""
    found: Dict[Tuple[str, str, str], Measured] = {}
    for it in rows:
        key = (it.script, it.row, it.unit)
        if it.bound and (key not in found or age(it) >= age(found[key])):
            found[key] = it
    return list(found.values())


def grouped(number: str) -> str:
    """A number as pages have it: its thousands apart."""
    return f"{float(number):,.0f}" if abs(float(number)) >= 1_000 else number


def nodes_of(it: Measured) -> int:
    """The number of nodes that its row names; 0 where it names none."""
    found = NODES.match(it.row)
    return int(found[2].replace(",", "")) if found else 0


def as_unit(same: List[Measured]) -> List[Measured]:
    """The same measurements, where a value stands beside its ratio with that as the ratio's unit."""
    if len(same) < 2:
        return same
    return [it._replace(row=it.row[:-len(RATIO)], unit="as a ratio") if it.row.endswith(RATIO) else it for it in same]


def line_of(script: str, same: List[Measured]) -> str:
    """A row of the table: one measurement, or several that differ in the number of nodes or in their units."""
    same = sorted(as_unit(same), key=nodes_of)
    first, parts = same[0], [NODES.match(it.row) for it in same]
    what = first.row
    if parts[0]:
        what = f"{parts[0][1]}{parts[0][3]} ({'; '.join(it[2] for it in parts if it)} nodes)"
    units = [it.unit for it in same] if len({it.unit for it in same}) > 1 else [""] * (len(same) - 1) + [first.unit]
    numbers = [grouped(it.value) if it.holds() else f"**{grouped(it.value)}**" for it in same]
    values = "; ".join(f"{number} {unit}".rstrip() for number, unit in zip(numbers, units))
    bounds = [it.bound.split(" ")[1] for it in same]
    limits = "; ".join(map(grouped, bounds if len(set(bounds)) > 1 else bounds[:1]))
    relation = "at most" if first.bound.startswith("<=") else "at least"
    version = f"{first.version}{'' if first.proved == 'yes' else ', not proved'}"
    return f"| `{script}` | {what} | {values} | {relation} {limits} | {version} |"


def table(rows: Iterable[Measured]) -> str:
    """The table of bounds, script by script."""
    lines: Dict[str, Dict[Tuple[str, ...], List[Measured]]] = {}
    for it in bounded(rows):
        sizes = NODES.match(it.row)
        named = (sizes[1], sizes[3], it.unit) if sizes else (it.row.removesuffix(RATIO),)
        same = (*named, it.version, it.proved, it.bound[:2])
        lines.setdefault(it.script, {}).setdefault(same, []).append(it)
    found = ["| Script | What | Measured | Bound | Version |", "|---|---|---|---|---|"]
    return "\n".join(found + [line_of(script, same) for script in sorted(lines) for same in lines[script].values()])


def with_table(page: str, rows: Iterable[Measured]) -> str:
    """The page with the table between its two marks. Raises ValueError where these aren't there."""
    before, begin, rest = page.partition(BEGIN)
    _, end, after = rest.partition(END)
    if not begin or not end:
        raise ValueError("the page has no place for the table")
    return f"{before}{BEGIN}\n\n{table(rows)}\n\n{END}{after}"


def main() -> int:
    if sys.argv[1:] not in (["--write"], ["--check"]):
        print(__doc__, file=sys.stderr)
        return 2
    page = PAGE.read_text(encoding="utf-8")
    wanted = with_table(page, read(HISTORY.read_text(encoding="utf-8")))
    if sys.argv[1] == "--write":
        PAGE.write_text(wanted, encoding="utf-8")
    elif page != wanted:
        print("docs/PERFORMANCE.md: the table of bounds isn't that of bench/history.tsv: python3 bench/history.py --write")
        return 1
    return 0


if __name__ == "__main__":
    sys.exit(main())
