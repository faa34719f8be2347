"""Sessions by chance over grammars with components between slashes: with each way to keep values the replies are those of their meaning, and
what is asked at the end is answered alike by a program that starts with the tree that is shown there."""
import os
import sys
from collections import Counter
from dataclasses import replace
from typing import Dict, List, Optional, Sequence

from tools.of_the_program.circular_sessions import shorter_lines
from tools.of_the_program.constants_sessions import ConstantsExpected, Making, questions
from tools.of_the_program.keeping import KeepingTest
from tools.of_the_program.sessions import Sample
from tools.of_the_program.specs_sessions import Case, sorts

FORMS = ["--forms", "jastadd"]
KEEPERS: Dict[str, List[str]] = {"plain": [], "cut-off": ["--cut-off"], "few": ["--keep", "4"], "index": ["--index"],
                                 "all": ["--cut-off", "--keep", "20", "--index"]}
# How many sessions there are, of so many lines, and how many turns follow a line; the variables give others. One of so many is answered
# with each way to keep values, the others with one of them.
SESSIONS, LINES, SLICES, SEED, EACH = 60, 80, (1, 2, 5, 1_000), 1849, 4
# How many replies of each sort there are at least, and how many refusals of edits of what is fixed.
FEWEST = {"=": 1_500, "fault": 200, "ok": 1_000, "refused": 500}
FIXED = "0 refused 10 fixed"
FEWEST_FIXED = 200
# How deep the meaning of a question may nest.
NESTED = 30_000


class Constants(KeepingTest):
    """Sessions over grammars by chance."""

    def setUp(self) -> None:
        super().setUp()
        self.count, self.seed = (int(os.environ.get(f"ATTRD_CONSTANTS_{name}", usual)) for name, usual in (("SESSIONS", SESSIONS), ("SEED", SEED)))
        self.addCleanup(sys.setrecursionlimit, sys.getrecursionlimit())
        sys.setrecursionlimit(NESTED)

    def told_of(self, case: Case, keeper: str, turns: int, lines: Sequence[str]) -> List[str]:
        """The replies to lines over the case's files."""
        files = self.write(Sample(case.grammar, case.term, case.aspects))
        return self.played_with([*FORMS, *KEEPERS[keeper]], turns, files, "".join(f"{it}\n" for it in lines))[0].splitlines()

    def wrong(self, case: Case, keeper: str, turns: int) -> Optional[str]:
        """What is replied wrong, if anything is."""
        return ConstantsExpected(case).differs(self.told_of(case, keeper, turns, case.lines))

    def assert_right(self, case: Case, keepers: Sequence[str], turns: int, found: "Counter[str]") -> None:
        """The case's replies are right, and are counted; where they aren't, a shorter case is told that has wrong ones."""
        expected = ConstantsExpected(case)
        for keeper in keepers:
            told = self.told_of(case, keeper, turns, case.lines)
            found.update({**sorts(told), FIXED: told.count(FIXED)})
            if expected.differs(told):
                lines = shorter_lines(case.lines, lambda it: self.wrong(replace(case, lines=it), keeper, turns) is not None)
                case = replace(case, lines=lines)
                self.fail(f"{keeper}, {turns} turns: {self.wrong(case, keeper, turns)}\n{case.written()}")

    def assert_as_from_a_start(self, case: Case, keeper: str) -> None:
        """At the end the case's questions are answered as at the start over the tree that is shown then."""
        asked = questions(case)
        edits = [it for it in case.lines if not it.startswith("0 post")]
        told = self.told_of(case, keeper, 1, [*edits, "0 show /", *asked])[-len(asked) - 1:]
        anew = replace(case, term=told[0].removeprefix("0 = "))
        self.assertEqual(told, self.told_of(anew, keeper, 1, ["0 show /", *asked]), f"{keeper}\n{case.written()}")

    def test_replies_are_by_meaning(self) -> None:
        found, keepers = Counter[str](), [*KEEPERS]
        for number in range(self.count):
            seed = f"{self.seed}.{number}"
            with self.subTest(seed):
                case, one = Making(seed).case(LINES), keepers[number % len(keepers)]
                self.assert_right(case, keepers if number % EACH == 0 else [one], SLICES[number % len(SLICES)], found)
                self.assert_as_from_a_start(case, one)
        for sort, count in {**FEWEST, FIXED: FEWEST_FIXED}.items():
            self.assertGreaterEqual(found[sort], count * self.count // SESSIONS, sort)
