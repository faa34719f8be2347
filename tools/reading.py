#!/usr/bin/env python3
"""Counts what one has to read to know what a contract says: the definitions that it names, those that these name, and so on.

    tools/reading.py [--list] [CRATE/FILE.rt:FUNCTION[:CLAUSE] ..]

A FUNCTION is one of a file of the crate's src, with all its clauses or the one of that label. Where none is named it is the theorem:
at_start/laws.rt:whole, and of the call that keeps it the clause that says so, at_start/serving.rt:answer:answers. Of each, and of
all together, a line tells how many definitions are reached, in how many files of specs, and how many lines these definitions have:
blank ones aren't counted, and the comment in front of a definition is. What the standard library defines isn't counted, and neither
are the types of the code. A name that a definition binds itself counts as the definition of that name, so the counts are bounds from
above. --list names the files, each with its count of definitions and lines.
"""
import argparse
import re
import sys
from collections import Counter
from dataclasses import dataclass, field
from functools import lru_cache
from pathlib import Path
from typing import Dict, Iterable, Iterator, List, Optional, Sequence, Set, Tuple

ROOT = Path(__file__).resolve().parent.parent
THEOREM = ("at_start/laws.rt:whole", "at_start/serving.rt:answer:answers")
# A line by which a crate hands on a page of another one.
HANDED_ON = re.compile(r"^pub use Rattle\.(\w+)\.specs\.(\w+)$", re.M)
USE = re.compile(r"^(?:pub |ghost )*use Rattle\.(\w+)\.specs\.([^\s{;]+?)(?:\.\{(.*)\}| as (\S+?));?$")
# Where a definition begins: at the margin, or, among mutual ones, two blanks behind it.
HEAD = re.compile(r"^(?:abbrev |unfoldable |pub |data |record )+([^\s:({]+)")
MUTUAL = re.compile(r"^(?:abbrev |unfoldable )?mutual\b")
CONSTRUCTOR = re.compile(r"^ +([^\s:(){}]+) :")
WORD = re.compile(r"([^\s(){}\[\],;|λ:.]+)(?:\.([^\s(){}\[\],;|λ:.]+))?")
FUNCTION = re.compile(r"^ *(?:pub(?:\(\w+\))? )?(?:const )?fn (\w+)")
CLAUSE = re.compile(r"^ *(?:requires|ensures)(?: \*)?(?: (\w+))? \{")

# A definition: the file of specs and the name.
Name = Tuple[Path, str]


@dataclass
class Page:
    """A file of specs, or what a contract sees: the lines of each definition, what its words mean, which pages have short names."""

    definitions: Dict[str, List[str]] = field(default_factory=dict)
    owners: Dict[str, str] = field(default_factory=dict)
    imports: Dict[str, Name] = field(default_factory=dict)
    aliases: Dict[str, Path] = field(default_factory=dict)


def page_named(crate: str, dotted: str) -> Optional[Path]:
    """The file of specs that a module's name leads to, also through a crate that hands it on, or a type in it; None where it is a type
    of the code or the kit's."""
    parts = dotted.split(".")
    for count in range(len(parts), 0, -1):
        file = ROOT.joinpath("crates", crate, "specs", *parts[:count]).with_suffix(".antt")
        if file.exists():
            return file
    lib = ROOT / "crates" / crate / "specs/Lib.antt"
    handed = HANDED_ON.findall(lib.read_text(encoding="utf-8")) if lib.exists() else []
    return next((page_named(other, dotted) for other, name in handed if name == parts[0]), None)


def imported(page: Page, line: str) -> None:
    """Notes what a line `use` brings into the page."""
    found = USE.match(line)
    file = page_named(found[1], found[2]) if found else None
    if found is None or file is None:
        return
    if found[4]:
        page.aliases[found[4]] = file
    for word in (found[3] or "").split(","):
        name, _, other = word.strip().partition(" as ")
        for sign in (other or name).replace("◌", " ").split():
            page.imports[sign] = (file, name)


def blocks_of(lines: Sequence[str]) -> Iterator[Tuple[str, List[str]]]:
    """The definitions of a file: the name and the lines, with the comment in front; blank lines are left out."""
    name, block, comment, margin = "", [], [], ""  # type: str, List[str], List[str], str
    for line in filter(str.strip, lines):
        if not line.startswith(" "):
            margin = "  " if MUTUAL.match(line) else "" if not line.startswith("--") else margin
        head = HEAD.match(line[len(margin):]) if line.startswith(margin) and not line.startswith(margin + " ") else None
        if line.lstrip().startswith("--"):
            comment.append(line)
            continue
        if head or line.startswith(("use ", "pub use ", "infix", "open ", "module ", "pub mod ")) or MUTUAL.match(line):
            if name:
                yield name, block
            name, block = (head[1], []) if head and " use " not in f" {line}" and not line.startswith("pub mod ") else ("", [])
        block += [*comment, line]
        comment = []
    if name:
        yield name, block


@lru_cache(maxsize=None)
def page_of(file: Path) -> Page:
    """The page of a file of specs."""
    page, lines = Page(), file.read_text(encoding="utf-8").splitlines()
    for line in lines:
        imported(page, line)
    for name, block in blocks_of(lines):
        page.definitions[name] = block
        for sign in name.replace("◌", " ").split():
            page.owners[sign] = name
        if any(" data " in f" {it}" for it in block if not it.lstrip().startswith("--")):
            page.owners.update({found[1]: name for found in map(CONSTRUCTOR.match, block) if found})
    return page


def defined(file: Path, name: str) -> Optional[Name]:
    """The definition that a name of the page stands for: its own, that of the type which it makes, or one that it hands on."""
    page = page_of(file)
    owner = page.owners.get(name) or page.owners.get(name.replace("◌", ""))
    if owner is not None:
        return file, owner
    handed = page.imports.get(name)
    return defined(*handed) if handed is not None and handed != (file, name) else None


def named_in(page: Page, own: Optional[Path], lines: Iterable[str]) -> Iterator[Name]:
    """The definitions that these lines of a page name."""
    for line in lines:
        for first, second in WORD.findall(line.split("--")[0]):
            told: Optional[Name] = None
            if first in page.aliases and second:
                told = defined(page.aliases[first], second)
            elif own is not None and first in page.owners:
                told = (own, page.owners[first])
            elif first in page.imports:
                told = defined(*page.imports[first])
            if told is not None:
                yield told


def contract(spelled: str) -> Tuple[Page, List[str]]:
    """What the file of a function brings in, and the lines of its clauses, or of the one that is named. Ends the process where there
    are none."""
    file, function, label = (spelled + "::").split(":")[:3]
    crate, _, inner = file.partition("/")
    path, page = ROOT / "crates" / crate / "src" / inner, Page()
    if not path.exists():
        sys.exit(f"there is no file {path}")
    found: List[str] = []
    name, within = "", False
    for line in path.read_text(encoding="utf-8").splitlines():
        imported(page, line)
        begun, clause = FUNCTION.match(line), CLAUSE.match(line)
        name = begun[1] if begun else name
        within = (label in ("", clause[1]) if clause else within and not begun) and name == function and not line.startswith("{")
        found += [line] if within else []
    if not found:
        sys.exit(f"{spelled}: there is no such contract")
    return page, found


def reached(spelled: str) -> Set[Name]:
    """The definitions to which the contract of a function leads."""
    page, lines = contract(spelled)
    waiting = list(named_in(page, None, lines))
    found: Set[Name] = set()
    while waiting:
        it = waiting.pop()
        if it not in found:
            found.add(it)
            waiting += named_in(page_of(it[0]), it[0], page_of(it[0]).definitions[it[1]])
    return found


def length(names: Iterable[Name]) -> int:
    """How many lines these definitions have."""
    return sum(len(page_of(file).definitions[name]) for file, name in names)


def told(what: str, names: Set[Name]) -> str:
    """How much there is to read, in a line."""
    return f"{what}: {len({file for file, _ in names})} files, {len(names):,} definitions, {length(names):,} lines"


def main() -> int:
    words = argparse.ArgumentParser(description="Counts what one has to read to know what a contract says.")
    words.add_argument("--list", action="store_true", help="name the files, with their counts of definitions and lines")
    words.add_argument("functions", metavar="CRATE/FILE.rt:FUNCTION[:CLAUSE]", nargs="*", default=THEOREM)
    given = words.parse_args()
    each = {it: reached(it) for it in given.functions}
    for it, names in each.items():
        print(told(it, names))
    together = set().union(*each.values())
    if len(each) > 1:
        print(told("together", together))
    if given.list:
        for file, count in sorted(Counter(file for file, _ in together).items()):
            print(f"  {file.relative_to(ROOT)}: {count} definitions, {length(it for it in together if it[0] == file)} lines")
    return 0


if __name__ == "__main__":
    sys.exit(main())
