"""Sessions by chance over circular attributes: with each way to keep values the replies are those of their meaning."""
import os
from dataclasses import replace
from typing import List, Optional, Tuple

from tools.of_the_program.circular_aspects import Aspects
from tools.of_the_program.circular_sessions import Case, Expected, Unfit, made, shorter
from tools.of_the_program.circular_trees import GRAMMAR
from tools.of_the_program.circular_work import Work
from tools.of_the_program.keeping import OPTIONS, OTHERS, KeepingTest
from tools.of_the_program.sessions import Sample, Session

FORMS = ["--forms", "circular"]
# How many sessions there are, of so many lines, and how many turns follow a line; the variables give others.
SESSIONS, LINES, SLICES = 40, 60, (1, 2, 5, 1_000)
SEED = 1995
LAMPS = Sample("A ::= <On:boolean> <Note> [B:A];\n", 'A(true,"",A(false,"",-))\n', ["""aspect Lamps {
  syn boolean A.j() circular [false] = b() || c();
  syn boolean A.b() circular [false] = j();
  syn boolean A.c() circular [false] = getOn();
  syn boolean A.self() circular [false] = self();
  syn boolean A.top() circular [true] = top();
  syn boolean A.m() circular [false] = n() || 1 / 0 == 0;
  syn boolean A.n() circular [false] = m() || named();
  syn lazy boolean A.named() = getNote().equals("n");
  syn boolean A.x() circular [false] = y() || getOn();
  syn boolean A.y() = x();
  syn boolean A.guard() circular [false] = hasB() && getB().guard() || getOn();
  syn lazy int A.count() = (j() ? 1 : 0) + (self() ? 10 : 0) + (top() ? 100 : 0);
}
"""])
# With what is found anew: each of a group once, and what an edit touches with all of its group.
WORKED = [
    Session("each of a group is found once", "0 ask / j()\n0 ask / b()\n0 ask / c()\n", "0 = true\n" * 3, 3),
    Session("a question alone is a group", "0 ask / self()\n0 ask / top()\n", "0 = false\n0 = true\n", 2),
    Session("an edit of what one looked at makes a group forgotten",
            "0 ask / j()\n0 token / On false\n0 ask / j()\n0 ask / b()\n", "0 = true\n0 ok 1\n0 = false\n0 = false\n", 6),
    Session("an edit beside a group makes nothing forgotten",
            '0 ask / j()\n0 token / Note "n"\n0 token /B On true\n0 ask / j()\n', "0 = true\n0 ok 1\n0 ok 2\n0 = true\n", 3),
    Session("a lazy one rests on groups", "0 ask / count()\n0 ask / b()\n0 token / On false\n0 ask / count()\n",
            "0 = 101\n0 = true\n0 ok 1\n0 = 100\n", 10),
    Session("a fault keeps what led to it", "0 ask / m()\n0 ask / named()\n0 ask / n()\n", "0 fault zero in /.m\n0 = false\n0 fault zero in /.m\n", 1),
    Session("a circle has no value to be kept", "0 ask / x()\n0 ask / y()\n", "0 circular /.x\n0 circular /.y\n", 0),
    Session("a guard in front", "0 ask / guard()\n0 drop /B\n0 ask / guard()\n", "0 = true\n0 ok 1\n0 = true\n", 3),
]


class Circular(KeepingTest):
    """Sessions by chance with each keeper, over aspects of that sort, for which the program is given that option."""

    forms, sort, sessions = FORMS, Aspects, SESSIONS

    def setUp(self) -> None:
        super().setUp()
        usual = {"SESSIONS": self.sessions, "SEED": SEED}
        self.count, self.seed = (int(os.environ.get(f"ATTRD_CIRCULAR_{name}", number)) for name, number in usual.items())

    def told_of(self, case: Case, keeper: str, turns: int) -> Tuple[List[str], str]:
        """The replies to the case's lines, and what is told of the work."""
        files = self.write(Sample(GRAMMAR, case.term, [case.aspects.text()]))
        told, work = self.circular(keeper, turns, files, "".join(f"{it}\n" for it in case.lines))
        return told.splitlines(), work

    def circular(self, keeper: str, turns: int, files: List[str], lines: str) -> Tuple[str, str]:
        """The replies to the lines, and what is told of the work, where circular attributes are read."""
        if keeper in OTHERS:
            return self.told([self.starve, *self.forms, keeper, str(turns), *files], "memory 0\n", lines)
        return self.played_with([*self.forms, *OPTIONS[keeper]], turns, files, lines)

    def wrong(self, case: Case, keeper: str, turns: int) -> Optional[str]:
        """What is replied wrong, if anything is."""
        try:
            return Expected(case).differs(self.told_of(case, keeper, turns)[0])
        except Unfit:
            return None

    def assert_right(self, case: Case, keeper: str, turns: int) -> None:
        """The case's replies are right; where they aren't, a shorter case is told that has wrong ones."""
        wrong = self.wrong(case, keeper, turns)
        if wrong is None:
            return
        case = shorter(case, lambda it: self.wrong(it, keeper, turns) is not None)
        self.fail("\n".join([f"{keeper}, {turns} turns: {self.wrong(case, keeper, turns)}", case.aspects.text(), case.term, *case.lines]))

    def test_sessions_have_their_replies_and_work(self) -> None:
        files = self.write(LAMPS)
        for session in WORKED:
            for keeper in self.keepers:
                with self.subTest(session.name, keeper=keeper):
                    told, work = self.circular(keeper, 1, files, session.lines)
                    self.assertEqual(told, session.replies)
                    self.assertTrue(keeper != "verified" or work == f"work {session.work}\n", work)

    def test_replies_are_by_meaning(self) -> None:
        for number in range(self.count):
            case = made(f"{self.seed}.{number}", LINES, self.sort)
            for keeper in self.keepers:
                with self.subTest(f"{self.seed}.{number}"):
                    self.assert_right(case, keeper, SLICES[number % len(SLICES)])

    def test_work_is_what_was_not_kept(self) -> None:
        for number in range(self.count):
            case = self.at_once(made(f"{self.seed}.work.{number}", LINES, self.sort))
            with self.subTest(number):
                if self.differs_in_work(case):
                    case = shorter(case, self.differs_in_work)
                    told = self.told_of(case, "verified", 1)[1]
                    self.fail("\n".join([f"{told} in place of {Work(case).done}", case.aspects.text(), case.term, *case.lines]))

    @staticmethod
    def at_once(case: Case) -> Case:
        """The case without questions in turns."""
        return replace(case, lines=tuple(it for it in case.lines if it.split()[1] not in ("post", "wait")))

    def differs_in_work(self, case: Case) -> bool:
        """Whether another number of values is found than weren't kept."""
        try:
            Expected(case)
        except Unfit:
            return False
        return self.told_of(case, "verified", 1)[1] != f"work {Work(case).done}\n"
