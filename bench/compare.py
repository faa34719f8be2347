#!/usr/bin/env python3
"""Whether two programs answer alike: random sessions to both, whose replies are compared byte for byte.

    python3 bench/compare.py A B [--sessions 500] [--seed 1] [--lines 80] [--language NAME] [--index]

A and B are programs. A session has a tree by chance, of the tutorial's language, of the samples (those with circular attributes, too, where
both programs read them) or of bench/nested (attributes that aren't lazy, with arguments, faults and circles within them), some of them 400
deep; its lines edit, ask, post and mark. Where the two differ, the session is made shorter for as long as they do, its files are left in a
folder, and the status is 1. What was answered is counted, so that one sees what the sessions came to. With --index the second program looks names
up by key: then what the two say of their work isn't compared, and a posted question gets all its turns at once, since it may take others.
"""
from __future__ import annotations

import argparse
import random
import shutil
import subprocess
import sys
import tempfile
from collections import Counter
from dataclasses import dataclass, replace
from pathlib import Path
from typing import List, Optional, Tuple

from figures import program_in
from languages import LANGUAGES, Language
from sessions import Session

from attrd import known_options

# A program that takes longer for a session than this, in seconds, is ended.
PATIENCE = 60
# As many turns behind a line as may be.
ALL_TURNS = 1_000_000


@dataclass(frozen=True)
class Case:
    """A session with all that a program is given for it."""

    language: Language
    options: List[str]
    tree: str
    lines: List[str]

    @staticmethod
    def made(language: Language, seed: str, count: int) -> Case:
        """The session of this seed, with so many lines."""
        session = Session(language, random.Random(seed))
        return Case(language, [*language.options, *session.options], f"{session.first}\n", session.lines(count))


@dataclass(frozen=True)
class Outcome:
    """What a program made of a session: its status, None where it was ended, and what it wrote."""

    status: Optional[int]
    replies: bytes
    said: bytes


class Comparison:
    """The two programs, and a folder for the trees."""

    def __init__(self, programs: Tuple[str, str], folder: Path, is_index: bool = False) -> None:
        self.programs, self.folder, self.is_index = programs, folder, is_index

    def options(self, case: Case, is_second: bool) -> List[str]:
        """The options of a program for a session."""
        if not self.is_index:
            return case.options
        at = case.options.index("--slice") if "--slice" in case.options else len(case.options)
        return [*case.options[:at], *case.options[at + 2:], "--slice", str(ALL_TURNS), *(["--index"] if is_second else [])]

    def words(self, program: str, case: Case, is_second: bool = False) -> List[str]:
        """The command line of a program for a session, whose tree is put into the folder."""
        tree = self.folder / "tree.txt"
        tree.write_text(case.tree, encoding="utf-8")
        return [program, *self.options(case, is_second), str(case.language.grammar_file), str(tree), *map(str, case.language.aspects)]

    def outcome(self, program: str, case: Case, is_second: bool = False) -> Outcome:
        """What the program makes of the session."""
        lines = "".join(f"{it}\n" for it in case.lines).encode()
        try:
            run = subprocess.run(self.words(program, case, is_second), input=lines, capture_output=True, timeout=PATIENCE)
        except subprocess.TimeoutExpired as fault:
            return Outcome(None, fault.stdout or b"", fault.stderr or b"")
        return Outcome(run.returncode, run.stdout, b"" if self.is_index else run.stderr)

    def outcomes(self, case: Case) -> Tuple[Outcome, Outcome]:
        """What the two make of it."""
        return self.outcome(self.programs[0], case), self.outcome(self.programs[1], case, True)

    def differ(self, case: Case) -> bool:
        """Whether the two make something else of the session."""
        one, other = self.outcomes(case)
        return one != other

    def shorter(self, case: Case) -> Case:
        """The session without lines that it takes none of for the two to differ."""
        size = len(case.lines) // 2
        while size:
            at = 0
            while at < len(case.lines):
                without = replace(case, lines=case.lines[:at] + case.lines[at + size:])
                if self.differ(without):
                    case = without
                else:
                    at += size
            size //= 2
        return case

    def left(self, case: Case) -> str:
        """What differs, with the command that shows it again; the files stay in the folder."""
        (self.folder / "session").write_text("".join(f"{it}\n" for it in case.lines), encoding="utf-8")
        one, other = self.outcomes(case)
        told = [f"  {name} status {it.status}, {len(it.replies.splitlines())} replies, {it.said[:200]!r}" for name, it in (("A", one), ("B", other))]
        for first, second in zip(one.replies.splitlines(), other.replies.splitlines()):
            if first != second:
                told += [f"  A {first[:300]!r}", f"  B {second[:300]!r}"]
                break
        return "\n".join([*told, f"  {' '.join(self.words('PROGRAM', case))} < {self.folder / 'session'}"])


def kind_of(reply: bytes) -> str:
    """What a reply is: `=`, `ok`, `fault`, `circular`, `refused` and so on; of an answer in turns what it tells."""
    words = reply.decode("utf-8", "replace").split(" ")
    if len(words) < 2:
        return "no reply"
    return f"done {words[4]}" if words[1] == "done" else words[1]


def compared(comparison: Comparison, languages: List[Language], arguments: argparse.Namespace) -> Counter[str]:
    """How often each kind of reply came, in so many sessions. Ends the process where the two programs differ."""
    counted: Counter[str] = Counter()
    for number in range(arguments.sessions):
        language = languages[number % len(languages)]
        case = Case.made(language, f"{arguments.seed}.{number}", arguments.lines)
        one, other = comparison.outcomes(case)
        if one != other or one.status is None:
            shown = comparison.shorter(case) if one != other and None not in (one.status, other.status) else case
            sys.exit(f"session {number} ({language.name}) differs, or wasn't answered in {PATIENCE} s:\n{comparison.left(shown)}")
        counted.update(kind_of(it) for it in one.replies.splitlines())
        counted[f"status {one.status}"] += 1
    return counted


def known_to(programs: Tuple[str, str]) -> List[Language]:
    """The languages whose options both programs have."""
    known = known_options(programs[0]) & known_options(programs[1])
    return [it for it in LANGUAGES.values() if known.issuperset(it.options[:1])]


def main() -> None:
    parser = argparse.ArgumentParser(description=__doc__.splitlines()[0] if __doc__ else None)
    parser.add_argument("programs", nargs=2, metavar="PROGRAM")
    parser.add_argument("--sessions", type=int, default=500)
    parser.add_argument("--seed", type=int, default=1)
    parser.add_argument("--lines", type=int, default=80)
    parser.add_argument("--language", choices=sorted(LANGUAGES))
    parser.add_argument("--index", action="store_true")
    arguments = parser.parse_args()
    first, second = (program_in([it], __doc__) for it in arguments.programs)
    languages = [LANGUAGES[arguments.language]] if arguments.language else known_to((first, second))
    folder = Path(tempfile.mkdtemp(prefix="attrd-compare-"))
    counted = compared(Comparison((first, second), folder, arguments.index), languages, arguments)
    shutil.rmtree(folder)
    print(f"{arguments.sessions} sessions are answered alike: " + ", ".join(f"{count:,} {kind}" for kind, count in sorted(counted.items())))


if __name__ == "__main__":
    main()
