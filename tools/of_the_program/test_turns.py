"""Questions in turns, in lines by chance, with each keeper: each answer is what a server that is asked tells on the tree of its version."""
import re
from typing import Sequence

from tools.of_the_program.chance import Chance
from tools.of_the_program.keeping import OPTIONS, KeepingTest
from tools.of_the_program.runs import Run
from tools.of_the_program.sessions import CALCULATOR

# For each keeper that is given turns another one, with which the program is asked.
ASKED = {
    "verified": "few-verified", "few-verified": "cut-off", "cut-off": "few-cut-off", "few-cut-off": "verified",
    "until-edit": "few-verified", "until-edit-cut-off": "cut-off",
}
SEED, SLICES, LINES = 2026, (1, 2, 7, 1_000), 1_500
MARKS = ("u", "v")
# The other server's session for the marks of the first question; the next question's are in the next session.
FIRST_SESSION = 100
# More questions than these are to be answered and not refused.
FEW = 60
DONE = re.compile(r"(\d+) done (\d+) (\d+) (.*)")
# The version is told of edits that are accepted, and of marks.
OK = re.compile(r"\d+ ok (\d+)")


class Beside:
    """A server that is asked, beside what another one tells of the same lines, some of which post questions. A question's marks, as they
    are where it is posted, are in a session of its own."""

    def __init__(self, run: Run, told: Sequence[str]) -> None:
        self.run, self.version, self.answered = run, 0, 0
        done = [it for it in map(DONE.fullmatch, told) if it]
        self.told = [it for it in told if not DONE.fullmatch(it)]
        # by the number of each question its version and answer, and the line that asks it
        self.answers, self.asks = {it[2]: (int(it[3]), f"{it[1]} {it[4]}") for it in done}, dict[str, str]()

    def reply(self, line: str) -> str:
        """What the server is told that is asked."""
        assert self.run.stdin and self.run.stdout
        self.run.stdin.write(f"{line}\n".encode())
        self.run.stdin.flush()
        return self.run.stdout.readline().decode().rstrip("\n")

    def follow(self, line: str) -> None:
        """Takes the reply to the line, which is no empty one; it is the other server's, too, unless the line posts or waits."""
        if " wait " in line and self.told[:1] != [f"{line.split()[0]} refused 15 question"] and not line.endswith(" wait 0"):
            # an answer that was waited for
            return
        told = self.told.pop(0)
        if " open " in told:
            self.note(told, line)
        elif " post " not in line and " wait " not in line:
            assert self.reply(line) == told, (line, told)
            accepted = OK.fullmatch(told)
            self.version = int(accepted[1]) if accepted else self.version
        self.look_at_answers()

    def note(self, told: str, line: str) -> None:
        """Notes the question that the line opened, and its marks."""
        session, number, own = told.split()[0], told.split()[2], FIRST_SESSION + len(self.asks)
        for mark in MARKS:
            place = self.reply(f"{session} where {mark}")
            if " = " in place:
                self.reply(f"{own} mark {mark} {place.split(' = ')[1]}")
        self.asks[number] = f"{own} ask {line.split(' post ')[1]}"

    def look_at_answers(self) -> None:
        """Asks what was answered on the tree of this version, of the questions that are open by now."""
        for number in [it for it in self.asks if it in self.answers and self.answers[it][0] == self.version]:
            told = self.answers.pop(number)[1]
            self.answered += " refused " not in told
            asked = self.reply(self.asks[number])
            assert asked.split(" ", 1)[1] == told.split(" ", 1)[1], (number, told, asked)


class Turns(KeepingTest):
    """Questions in turns."""

    def assert_led(self, keeper: str, turns: int, lines: Sequence[str]) -> None:
        """Turns, so many behind each line, lead to what is asked."""
        files = self.write(CALCULATOR)
        told, _ = self.played(keeper, turns, files, "".join(f"{it}\n" for it in lines))
        beside = Beside(self.begin([*OPTIONS[ASKED[keeper]], *files]), told.splitlines())
        for line in filter(None, lines):
            beside.follow(line)
        self.assertEqual((beside.told, beside.answers), ([], {}))
        self.assertGreater(beside.answered, FEW)
        # each question is answered
        self.assertEqual(len(beside.asks), len(DONE.findall(told)))

    def test_turns_lead_to_what_is_asked(self) -> None:
        chance = Chance(SEED)
        for turns in SLICES:
            lines = list(chance.lines(LINES))
            for keeper in self.keepers:
                with self.subTest(turns=turns, keeper=keeper):
                    self.assert_led(keeper, turns, lines)
