"""Sessions by chance with `--cut-off`: the replies are those of the meaning, and what is evaluated has a reason of the theorem."""
import os
from dataclasses import replace
from typing import Dict, Tuple

from tools.of_the_program.circular_sessions import Case, Expected, Unfit, made, shorter
from tools.of_the_program.circular_trees import GRAMMAR
from tools.of_the_program.keeping import KeepingTest
from tools.of_the_program.made import Made
from tools.of_the_program.plain_aspects import PlainAspects
from tools.of_the_program.sessions import Sample

# How many sessions there are, of so many lines, and how often a question is a new one; the variables give others.
SESSIONS, LINES, NEW = 30, 150, 0.1
SEED = 1989
# So many turns answer each question behind its line.
TURNS = 1_000_000
COUNTING = ("verified", "cut-off")


class MadeTest(KeepingTest):
    """Sessions by chance without circular attributes, where each question is answered behind its line."""

    def setUp(self) -> None:
        super().setUp()
        self.count, self.seed = (int(os.environ.get(f"ATTRD_MADE_{name}", usual)) for name, usual in (("SESSIONS", SESSIONS), ("SEED", SEED)))

    def told_of(self, case: Case, keeper: str) -> Tuple[str, Dict[str, int]]:
        """The replies to the case's lines, and the numbers that are told of the work."""
        files = self.write(Sample(GRAMMAR, case.term, [case.aspects.text()]))
        replies, work = self.played(keeper, TURNS, files, "".join(f"{it}\n" for it in case.lines))
        words = work.split()
        return replies, dict(zip(words[::2], map(int, words[1::2])))

    def differs(self, case: Case) -> str:
        """What of the case isn't as it should be; nothing where its lines name what isn't there."""
        try:
            expected = Expected(case)
        except Unfit:
            return ""
        most, least = Made(case), Made(case, numbered=True)
        told = {it: self.told_of(case, it) for it in self.keepers}
        plain, cutting = (told[it][1] for it in COUNTING)
        if plain != {"work": most.done} or cutting.keys() != {"work", "made"} or cutting["work"] != most.done:
            return f"{plain} and {cutting}, where {most.done} are found"
        if not least.made <= cutting["made"] <= most.made:
            return f"{cutting} of {least.made} to {most.made}"
        wrong = {it: expected.differs(replies.splitlines()) for it, (replies, _) in told.items()}
        return "".join(f"{it}: {reply}" for it, reply in wrong.items() if reply)

    def test_what_is_made_has_a_reason(self) -> None:
        done = again = 0
        for number in range(self.count):
            whole = made(f"{self.seed}.{number}", LINES, PlainAspects, NEW)
            # also behind some of its lines, so that no two differences make up for each other
            for count in (len(whole.lines) // 3, len(whole.lines)):
                case = replace(whole, lines=whole.lines[:count])
                with self.subTest(number):
                    if self.differs(case):
                        case = shorter(case, lambda it: bool(self.differs(it)))
                        self.fail("\n".join([self.differs(case), case.aspects.text(), case.term, *case.lines]))
            model = Made(whole)
            done, again = done + model.done, again + model.done - model.made
        # where nothing is kept again, nothing is tested
        self.assertGreater(again * 30, done)
