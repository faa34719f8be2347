"""The stack: the program takes at its start what its deepest question needs, or ends there, so no question can crash it later."""
import resource
import signal
import subprocess
from typing import Callable, List

from tools.of_the_program.runs import NOTHING, SECONDS, ProgramTest
from tools.of_the_program.test_nesting import ASPECT, DEPTH, GRAMMAR, NAMED

KIB = 1024
# The least limit is looked for by steps of so much: more than the system moves the begin of a stack from run to run.
STEP = 64 * KIB
# No limit on the stack, and none on memory, is looked for above these.
MOST_STACK, MOST_MEMORY = 8 * KIB * KIB, 256 * KIB * KIB
# How many limits on memory above the least one are tried.
LIMITS = 32
FILES = ["names.ast", "names.txt", "names.jrag"]
# With the first of these the program ends before it reads a file, if the files aren't there: else it ends with status 3.
NO_FILES = ["no.ast", "no.txt", "no.jrag"]
ENDS_AT_ONCE = (-signal.SIGSEGV, 4)
# Attributes of one node that each are a call of the next one: of these as many instances nest as expressions may, and more are asked.
CALLS = 1_200
ONE_NODE, ONE_TREE = "N ::= <V:int>;\n", "N(1)\n"
CALL = "syn {kind} int N.a{i}() = {value};"


def least(limit: int, fits: Callable[[int], bool]) -> int:
    """The least multiple of a step that fits; what is greater than one that fits does so, too, and the limit does."""
    too_small, enough = 0, limit // STEP
    while enough - too_small > 1:
        middle = (too_small + enough) // 2
        if fits(middle * STEP):
            enough = middle
        else:
            too_small = middle
    return enough * STEP


class Stack(ProgramTest):
    """Chains of items as deep as they are evaluated in one go, asked at their last one, under a limit."""

    def setUp(self) -> None:
        super().setUp()
        self.write("0")

    def write(self, first: str, lazy: str = "lazy") -> None:
        """Writes the files: of the first item the value is given."""
        self.write_aspect(ASPECT.format(lazy=lazy, first=first))

    def write_aspect(self, aspect: str) -> None:
        """The same with another aspect."""
        self.write_all(GRAMMAR, "Names([" + ",".join(['Item("n")'] * DEPTH) + "])\n", aspect)

    def write_calls(self, kind: str) -> None:
        """Other files: one node, and its attributes that call one another."""
        values = [f"a{i + 1}()" for i in range(CALLS)] + ["getV()"]
        equations = "".join(f"  {CALL.format(kind=kind, i=i, value=value)}\n" for i, value in enumerate(values))
        self.write_all(ONE_NODE, ONE_TREE, f"aspect A {{\n{equations}}}\n")

    def write_all(self, *texts: str) -> None:
        """Writes these as the files."""
        for name, text in zip(FILES, texts):
            (self.folder / name).write_text(text, encoding="utf-8")

    def run_within(self, kind: int, limit: int, files: List[str], lines: str = "", *options: str) -> "subprocess.CompletedProcess[str]":
        """A run over these lines, with so many bytes of that kind."""
        return subprocess.run([self.program, *options, *files], cwd=self.folder, env=NOTHING, input=lines, capture_output=True,
                              encoding="utf-8", timeout=SECONDS, preexec_fn=lambda: resource.setrlimit(kind, (limit, limit)))

    def begins(self, kind: int, limit: int) -> bool:
        """Whether a run with no lines comes to its end."""
        return self.run_within(kind, limit, FILES).returncode == 0

    def test_where_the_program_begins_it_answers_the_deepest_questions(self) -> None:
        kind = resource.RLIMIT_STACK
        enough = least(MOST_STACK, lambda limit: self.begins(kind, limit)) + STEP
        ask = f"0 ask /Item:{DEPTH - 1} c()\n"
        for lazy in ("lazy", ""):
            with self.subTest(lazy=lazy):
                self.write("0", lazy)
                run = self.run_within(kind, enough, FILES, ask)
                self.assertEqual((run.returncode, run.stdout, run.stderr), (0, f"0 = {DEPTH - 1}\n", ""))
        self.write_aspect(NAMED)
        run = self.run_within(kind, enough, FILES, f'{ask}0 token /Item:0 ID "m"\n{ask}', "--cut-off")
        self.assertEqual((run.returncode, run.stdout, run.stderr), (0, f"0 = {DEPTH - 1}\n0 ok 1\n0 = {DEPTH}\n", ""))

    def test_where_it_begins_calls_may_nest_as_deep_as_expressions(self) -> None:
        kind = resource.RLIMIT_STACK
        enough = least(MOST_STACK, lambda limit: self.begins(kind, limit)) + STEP
        for lazy in ("", "lazy"):
            self.write_calls(lazy)
            for options in ((), ("--cut-off",)):
                with self.subTest(lazy=lazy, options=options):
                    run = self.run_within(kind, enough, FILES, "0 ask / a0()\n0 token / V 2\n0 ask / a0()\n", *options)
                    self.assertEqual((run.returncode, run.stdout, run.stderr), (0, "0 = 1\n0 ok 1\n0 = 2\n", ""))

    def test_with_less_the_program_ends_before_it_reads_a_file(self) -> None:
        kind = resource.RLIMIT_STACK
        enough = least(MOST_STACK, lambda limit: self.begins(kind, limit)) + STEP
        self.assertEqual(self.run_within(kind, enough, NO_FILES).returncode, 3)
        run = self.run_within(kind, enough - 3 * STEP, NO_FILES)
        self.assertIn(run.returncode, ENDS_AT_ONCE)
        self.assertEqual(run.stdout, "")

    def test_with_little_memory_no_question_crashes(self) -> None:
        kind = resource.RLIMIT_AS
        enough = least(MOST_MEMORY, lambda limit: self.begins(kind, limit))
        told = set()
        for step in range(1, LIMITS + 1):
            with self.subTest(step=step):
                run = self.run_within(kind, enough + step * STEP, FILES, f"0 ask /Item:{DEPTH - 1} c()\n")
                self.assertEqual((run.returncode, run.stderr), (0, ""))
                self.assertIn(run.stdout, ("0 memory\n", f"0 = {DEPTH - 1}\n"))
                told.add(run.stdout)
        self.assertIn(f"0 = {DEPTH - 1}\n", told)
