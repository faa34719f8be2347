"""Want of memory within questions for circular attributes: of a session by chance each request is refused in turn, with each keeper. At
most one line is answered `memory`, and the others have the replies that a session has without that line."""
import os
import subprocess
import tempfile
from dataclasses import replace
from typing import Dict, List, NamedTuple, Optional

from tools.of_the_program.circular_sessions import Case, Expected, Unfit, made
from tools.of_the_program.circular_trees import GRAMMAR
from tools.of_the_program.keeping import OPTIONS
from tools.of_the_program.runs import SECONDS, ProgramTest
from tools.starve import refusing

# How many lines a session has, and of which seed it is; and the keepers by which what is kept of a group differs.
LINES, SEED, KEEPERS = 10, "memory2996", ("verified", "few-cut-off")
# With how many of these it is tried.
COUNT = int(os.environ.get("ATTRD_MEMORY_KEEPERS", "2"))
# More requests than a run makes; and each how many of them is refused.
MOST = 20_000
EVERY = int(os.environ.get("ATTRD_MEMORY_EVERY", "1"))


class Run(NamedTuple):
    """A run: whether a request was refused, and its replies, if it came to the first line."""

    is_refused: bool
    told: Optional[List[str]]


class CircularMemory(ProgramTest):
    """Want of memory, in each place of a session where there can be one."""

    def setUp(self) -> None:
        super().setUp()
        library = tempfile.TemporaryDirectory()
        self.addCleanup(library.cleanup)
        self.refusing = refusing(library.name)
        case = made(SEED, LINES)
        self.case = replace(case, lines=tuple(it for it in case.lines if it.split()[1] not in ("post", "wait")))
        files: Dict[str, str] = {"it.ast": GRAMMAR, "it.txt": case.term, "it.jrag": case.aspects.text()}
        for name, text in files.items():
            (self.folder / name).write_text(text, encoding="utf-8")
        self.files = [*files]

    def run_of(self, options: List[str], nth: int) -> Run:
        """A run with the nth request refused."""
        words = [str(self.program), "--forms", "circular", *options, *self.files]
        run = subprocess.run(words, cwd=self.folder, env={**self.refusing, "REFUSE": str(nth)}, encoding="utf-8", timeout=SECONDS,
                             input="".join(f"{it}\n" for it in self.case.lines), capture_output=True)
        if run.returncode == 4:
            self.assertEqual((run.stdout, run.stderr), ("", "refused\nmemory\n"))
            return Run(True, None)
        self.assertIn((run.returncode, run.stderr), [(0, ""), (0, "refused\n")])
        return Run(run.stderr != "", run.stdout.splitlines())

    def first(self, options: List[str]) -> int:
        """A request in front of the first line, behind which few others are."""
        low, high = 0, MOST
        while high - low > 1:
            middle = (low + high) // 2
            low, high = (middle, high) if self.run_of(options, middle).told is None else (low, middle)
        return high

    def lines_without_memory(self, told: List[str]) -> int:
        """How many lines were answered `memory`; the others were told what they are told without these, if they can be then."""
        left = [at for at, it in enumerate(told) if it != "0 memory"]
        rest: Case = replace(self.case, lines=tuple(self.case.lines[at] for at in left))
        try:
            self.assertIsNone(Expected(rest).differs([told[at] for at in left]))
        except Unfit:
            pass
        return len(told) - len(left)

    def test_a_line_without_memory_changes_no_other_reply(self) -> None:
        for keeper in KEEPERS[:COUNT]:
            with self.subTest(keeper):
                options, wanting = OPTIONS[keeper], 0
                for nth in range(self.first(options), MOST, EVERY):
                    run = self.run_of(options, nth)
                    if not run.is_refused:
                        break
                    if run.told is None:
                        self.assertEqual(wanting, 0, "the program ends in its session")
                        continue
                    lines = self.lines_without_memory(run.told)
                    self.assertLessEqual(lines, 1)
                    wanting += lines
                self.assertGreater(wanting, 100 // EVERY)
