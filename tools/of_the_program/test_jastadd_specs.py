"""Sessions by chance over specifications as users of JastAdd write them: with each way to keep values the replies are those of their meaning."""
import os
import random
import sys
from collections import Counter
from dataclasses import replace
from typing import Dict, List, Optional

from tools.of_the_program.circular_sessions import shorter_lines
from tools.of_the_program.keeping import KeepingTest
from tools.of_the_program.runs import ended
from tools.of_the_program.sessions import Sample
from tools.of_the_program.specs_aspects import Folder, Specification, folders
from tools.of_the_program.specs_sessions import Case, Expected, Making, sorts
from tools.of_the_program.specs_spoiling import Spoiling
from tools.sources import ROOT

FORMS = ["--forms", "jastadd"]
KEEPERS: Dict[str, List[str]] = {"plain": [], "cut-off": ["--cut-off"], "few": ["--keep", "40"], "index": ["--index"]}
# How many sessions there are over each folder, of so many lines, and how many turns follow a line; the variables give others.
SESSIONS, LINES, SLICES, SEED = 20, 60, (1, 2, 5, 1_000), 2004
FOLDERS = [str(ROOT / "samples" / it) for it in ("simplic", "states")]
# So many changes of aspects are tried.
CHANGES = 9
# How many replies of each sort there are at least, over one folder, and over both where aspects are spoiled.
FEWEST = {"=": 1_000, "ok": 500, "refused": 100}
FEWEST_SPOILED = {**FEWEST, "fault": 20, "circular": 10}
# How deep the meaning of a question may nest.
NESTED = 30_000


class Specifications(KeepingTest):
    """Sessions over the specifications of folders."""

    def setUp(self) -> None:
        super().setUp()
        usual = {"SESSIONS": SESSIONS, "SEED": SEED}
        self.count, self.seed = (int(os.environ.get(f"ATTRD_SPECS_{name}", number)) for name, number in usual.items())
        named = os.environ.get("ATTRD_SPECS", "")
        self.folders = list(folders(named.split(os.pathsep) if named else FOLDERS))
        self.addCleanup(sys.setrecursionlimit, sys.getrecursionlimit())
        sys.setrecursionlimit(NESTED)

    def told_of(self, case: Case, keeper: str, turns: int) -> List[str]:
        """The replies to the case's lines."""
        files = self.write(Sample(case.grammar, case.term, case.aspects))
        return self.played_with([*FORMS, *KEEPERS[keeper]], turns, files, "".join(f"{it}\n" for it in case.lines))[0].splitlines()

    def wrong(self, case: Case, keeper: str, turns: int) -> Optional[str]:
        """What is replied wrong, if anything is."""
        return Expected(case).differs(self.told_of(case, keeper, turns))

    def assert_right(self, case: Case, turns: int, found: "Counter[str]") -> None:
        """The case's replies are right, and are counted; where they aren't, a shorter case is told that has wrong ones."""
        expected = Expected(case)
        for keeper in KEEPERS:
            told = self.told_of(case, keeper, turns)
            found.update({**sorts(told), "unknown": expected.unknown})
            if expected.differs(told):
                lines = shorter_lines(case.lines, lambda it: self.wrong(replace(case, lines=it), keeper, turns) is not None)
                case = replace(case, lines=lines)
                self.fail(f"{keeper}, {turns} turns: {self.wrong(case, keeper, turns)}\n{case.written()}")

    def over(self, folder: Folder, tries: int) -> "Counter[str]":
        """Sessions over a folder, with changes of its aspects of which so many are tried: how many replies of each sort were right."""
        found, whole = Counter[str](), Specification(folder.grammar, folder.aspects)
        for number in range(self.count):
            seed = f"{self.seed}.{number}"
            with self.subTest(f"{folder.name} {seed}"):
                aspects = self.spoiled(folder, Spoiling(whole, random.Random(seed)), tries)
                specification = whole if aspects == folder.aspects else Specification(folder.grammar, aspects)
                case = Making(seed, folder, specification).case(aspects, LINES)
                self.assert_right(case, SLICES[number % len(SLICES)], found)
        if os.environ.get("ATTRD_SPECS"):
            print(f"{folder.name}: {dict(found)}", file=sys.stderr)
        return found

    def spoiled(self, folder: Folder, spoiling: Spoiling, tries: int) -> List[str]:
        """The aspect files with those of so many changes that are accepted."""
        aspects = folder.aspects
        for _ in range(tries):
            changed = spoiling.spoiled(aspects)
            if changed != aspects and self.is_accepted(Sample(folder.grammar, folder.tree, changed)):
                aspects = changed
        return aspects

    def is_accepted(self, sample: Sample) -> bool:
        """Whether the files are."""
        return ended(self.begin([*FORMS, *self.write(sample)]))[0] == 0

    def assert_enough(self, found: "Counter[str]", least: Dict[str, int]) -> None:
        """There are so many replies of each sort at least, where there are as many sessions as usual."""
        for sort, count in least.items():
            self.assertGreaterEqual(found[sort], count * self.count // SESSIONS, sort)

    def test_replies_are_by_meaning(self) -> None:
        for folder in self.folders:
            self.assert_enough(self.over(folder, 0), FEWEST)

    def test_replies_to_spoiled_aspects_are_by_meaning(self) -> None:
        found = Counter[str]()
        for folder in self.folders:
            found.update(self.over(folder, CHANGES))
        self.assert_enough(found, FEWEST if os.environ.get("ATTRD_SPECS") else FEWEST_SPOILED)
