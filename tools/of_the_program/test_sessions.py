"""Whole sessions with each keeper: their replies, and the work that they cost; and over trees, and of lines, that are built."""
import re

from tools.of_the_program.keeping import KeepingTest
from tools.of_the_program.sessions import CALCULATOR, CLASSES, KEPT_AGAIN, LOST, MADE, OPTIONAL, REUSED, SESSIONS, SIGNS, Sample, Session
from tools.starve import KEEPERS

# What is told of the work with cut-off.
COUNTED = re.compile(r"(work (\d+)\n)made (\d+)\n")

# A question for sixteen times a name, which is changed to that one before.
NAMED = '0 token /Block/Stmt:1/Expr/Left ID "{}"\n0 ask /Block/Stmt:1/Expr/Left d4()\n'


def deep(levels: int) -> str:
    """The path of the innermost of so many blocks below the first one."""
    return "/Block" + "/Stmt:0" * levels


def moved(levels: int, index: int) -> str:
    """A move of the second statement into the innermost of so many blocks, to that index."""
    return f"0 move /Block/Stmt:1 to {deep(levels)} Stmt {index}\n"


# Over the calculator, and over trees of its grammar.
BUILT = [
    Session("a text has fewer than 65,536 bytes", NAMED.format("a" * 4_095), '0 ok 1\n0 = "' + "a" * 65_520 + '"\n'),
    Session("a text of 65,536 bytes is a fault", NAMED.format("a" * 4_096), "0 ok 1\n0 fault long in /Block/Stmt:1/Expr/Left.d4\n"),
    Session("a move may not make the tree deeper than it may be",
            "0 insert /Block Stmt 0 " + "Block([" * 510 + "])" * 510 + "\n" + moved(510, 0) + moved(509, 1) + moved(508, 1)
            + "0 ask /Block/Stmt:1/Expr value()\n",
            "0 ok 1\n0 refused 12 limit\n0 refused 12 limit\n0 ok 2\n0 fault null in /Block/Stmt:1/Expr/Left.value\n"),
    Session("a session has 100 marks and no more",
            "".join(f"0 mark m{i} /\n" for i in range(101)) + "1 mark m0 /\n0 unmark m0\n0 mark m100 /\n",
            "0 ok 0\n" * 100 + "0 refused 12 limit\n1 ok 0\n0 ok 0\n0 ok 0\n", 0),
]
SUMS = CALCULATOR._replace(tree="Program(Block([Print(" + "Add(" * 508 + "Num(1)" + ",Num(1))" * 508 + ")]))")
AS_DEEP = Session("questions go as deep as the tree", "0 ask /Block/Stmt:0/Expr value()\n", "0 = 509\n", 1_017)
CHAIN = CALCULATOR._replace(
    tree='Program(Block([Decl("a0",Num(1))' + "".join(f',Decl("a{i + 1}",Use("a{i}"))' for i in range(199)) + "]))")
ALONG = Session("questions follow references", "0 ask /Block/Stmt:199 value()\n", "0 = 1\n", 997)
# How many turns follow each line, and how many of 20 lines behind the post are told before the answer. It needs 17 turns; at the end
# of the input the question is answered in any case.
SLICES = [(1, 16), (2, 8), (7, 2), (16, 1), (17, 0), (1_000, 0)]


class Sessions(KeepingTest):
    """Sessions with each keeper."""

    def assert_all(self, sample: Sample, *sessions: Session) -> None:
        """The sessions over the sample have their replies with each keeper. With the two that keep all the work is the same, and what
        they tell, where they tell it; and of that work no more is made with cut-off, and as much as they tell."""
        files = self.write(sample)
        for session in sessions:
            with self.subTest(session.name):
                told = {it: self.played(it, 1, files, session.lines) for it in self.keepers}
                self.assertEqual({it: replies for it, (replies, _) in told.items()}, dict.fromkeys(self.keepers, session.replies))
                kept, again = told["verified"][1], COUNTED.fullmatch(told["cut-off"][1])
                assert again
                self.assertEqual([kept, again[1]], [kept if session.work is None else f"work {session.work}\n"] * 2)
                self.assertLessEqual(int(again[3]), int(again[2]))
                self.assertIn(session.made, (None, int(again[3])))

    def test_sessions_have_their_replies_and_work(self) -> None:
        self.assert_all(CALCULATOR, *SESSIONS, *KEPT_AGAIN)
        self.assert_all(OPTIONAL, *REUSED)
        self.assert_all(SIGNS, *LOST)

    def test_what_is_made_has_a_reason(self) -> None:
        self.assert_all(CLASSES, *MADE)

    def test_what_is_built_has_its_replies_and_work(self) -> None:
        self.assert_all(CALCULATOR, *BUILT)
        self.assert_all(SUMS, AS_DEEP)
        self.assert_all(CHAIN, ALONG)

    def test_so_many_turns_follow_each_line(self) -> None:
        files, lines = self.write(CALCULATOR), "0 post /Block/Stmt:1/Expr value()\n" + "0 version\n" * 20
        for turns, before in SLICES:
            told = "0 open 1\n" + "0 ok 0\n" * before + "0 done 1 0 = 3\n" + "0 ok 0\n" * (20 - before)
            for keeper in self.keepers:
                with self.subTest(turns=turns, keeper=keeper):
                    self.assertEqual(self.played(keeper, turns, files, lines)[0], told)

    def test_without_turns_a_question_is_answered_at_the_end(self) -> None:
        # no option of the program gives none
        files, lines = self.write(CALCULATOR), "0 post /Block/Stmt:1/Expr value()\n0 version\n0 version\n"
        for keeper in KEEPERS if self.starve else ():
            with self.subTest(keeper=keeper):
                told = self.told([self.starve, keeper, "0", *files], "memory 0\n", lines)
                self.assertEqual(told[0], "0 open 1\n0 ok 0\n0 ok 0\n0 done 1 0 = 3\n")
