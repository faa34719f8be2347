"""Tests what needs no proof, but for tests of clients that take long, in about three minutes on two processors. Nothing is proved by it.

    python3 -m tools.quick PAGE|FOLDER ..

The program is the quick one (tools/quick_program.py). With it run the examples of the pages and sample folders, the tests of
the program and those of the clients; beside it the counts (tools/counts.py --hold) and, where they are installed, mypy and
pyflakes. While the program is built one part that needs none runs beside it, and then six side by side. Of each it is told how
many of its tests passed, and what it printed where one failed. It is told, too, how many tests were left out. The last line is
'N passed, M failed', a part that counts nothing being one; the status is 1 where one failed.

The parts run a Python in which no package is installed. None is needed here, and what those of a machine have done at each start of
Python may take several times as long as the start.
"""
import os
import re
import shutil
import subprocess
import sys
import tempfile
import time
import venv
from concurrent.futures import Future, ThreadPoolExecutor
from dataclasses import dataclass, replace
from functools import partial
from pathlib import Path
from typing import Callable, Dict, List, Sequence, Tuple

from tools import quick_program
from tools.sources import ROOT

# Many of the tests wait for others, so more go on at once than there are processors: all parts but the last, which waits for nothing and
# takes up what is left of a processor. Beside the build, the first half of which is one thread, there is one lane.
LANES = 6
# The parts that take longest; one that begins last would have a processor wait.
LONGEST = ("the program", "client hub", "client hub, more", "client lsp", "client python", "client page")
# The modules of a client that are a part by themselves.
DIVIDED = {"hub": ("test_hub_hostile", "test_hub_operator", "test_hub_lost")}
# What is tried less often than in the gate: kills of the hub, pairs of trees, sessions and files by chance, and caches under want of memory;
# and trees have fewer nodes. With the last word the tests of clients that take long are left out (clients/at_length.py).
LESS = (("ATTRD_HUB_POINTS", "6"), ("ATTRD_PAIRS", "250"), ("ATTRD_CIRCULAR_SESSIONS", "5"), ("ATTRD_MADE_SESSIONS", "5"),
        ("ATTRD_TEST_NODES", "5000"), ("ATTRD_MEMORY_KEEPERS", "1"), ("ATTRD_READINGS", "1000"), ("ATTRD_SPOILED_FILES", "5"),
        ("ATTRD_PROBLEMS", "50"), ("ATTRD_SPECS_SESSIONS", "6"), ("ATTRD_FAULT_EDITS", "40"),
        ("ATTRD_BODIES_FILES", "20"), ("ATTRD_OVERLOADED_COUNT", "20"), ("ATTRD_AGAIN_COUNT", "30"),
        ("ATTRD_CONSTANTS_SESSIONS", "10"), ("ATTRD_CONSTANTS_FILES", "5"))
# Of requests for memory each eighth one is refused in turn, and of reads and writes each eighth one fails.
SELDOM = (("ATTRD_MEMORY_EVERY", "8"), ("ATTRD_CALLS_EVERY", "8"))
SHORT = ("ATTRD_SHORT", "1")
# Tests of clients that take long and start no program, so that they run while it is built.
APART = ("test_grammars", "test_hub_journal", "test_hub_lines", "test_hub_loop.Looking", "test_hub_package", "test_hub_turns",
         "test_lsp_again.Edits.test_edits_of_a_part_make_the_whole_tree", "test_lsp_again.Readings", "test_lsp_again.Texts",
         "test_lsp_positions", "test_lsp_source", "test_lsp_syntax", "test_page_source.OfALanguageServer.test_a_grammar_that_is_refused",
         "test_page_source.OfALanguageServer.test_a_text_that_has_no_tree", "test_replies", "test_terms", "test_update.Edits",
         "test_versions.Wheel")
# What goes on beside the build leaves the processors to that, for which all else waits; and what goes on beside the tests of the
# program to those, which end last.
BESIDE = ("nice", "-n", "5")
COUNTED = re.compile(r"^(\d+) passed, (\d+) failed$", re.M)
# The same, as unittest tells it.
RAN = re.compile(r"^Ran (\d+) tests? in ", re.M)
FAILURES = re.compile(r"\b(?:failures|errors)=(\d+)")
SKIPPED = re.compile(r"^skipped: .*$", re.M)
LEFT_OUT = re.compile(r"^left out: (\d+)$", re.M)
TOOLS_TESTS = ("discover", "-s", "tools/tests", "-t", ".")
# What is typed in full beside the clients' packages.
TYPED = ("bench", "clients/packaging/backend.py", "clients/run_tests.py", "tools")


@dataclass(frozen=True)
class Part:
    """A part of the tests: what it is called, its command, and what its environment has beside that of this process."""

    name: str
    command: Sequence[str]
    environment: Tuple[Tuple[str, str], ...] = ()


@dataclass(frozen=True)
class Outcome:
    """What became of a part: how many of its tests passed and failed, what it printed, and how many seconds it took."""

    name: str
    passed: int
    failed: int
    printed: str
    seconds: float

    def left_out(self) -> int:
        """How many of its tests weren't run, since they take long."""
        return sum(map(int, LEFT_OUT.findall(self.printed)))

    def tell(self) -> None:
        """Prints a line, what was left out, and all that was printed where something failed."""
        print(f"{self.name}: {self.passed} passed, {self.failed} failed ({self.seconds:.0f} s)")
        for line in self.printed.splitlines() if self.failed else SKIPPED.findall(self.printed):
            print(f"    {line}")
        sys.stdout.flush()


def counted(status: int, printed: str) -> Tuple[int, int]:
    """How many tests passed and failed, by what was printed: its last line 'N passed, M failed', or what unittest tells; else one test."""
    lines, ran = COUNTED.findall(printed), RAN.findall(printed)
    if lines:
        return int(lines[-1][0]), int(lines[-1][1])
    if ran:
        failed = sum(map(int, FAILURES.findall(printed[printed.rindex("\nRan "):])))
        return max(0, int(ran[-1]) - failed), failed
    return int(status == 0), int(status != 0)


def outcome_of(name: str, status: int, printed: str, seconds: float) -> Outcome:
    """What became of a part; a status that isn't 0 is at least one failure."""
    passed, failed = counted(status, printed)
    return Outcome(name, passed, max(failed, int(status != 0)), printed, seconds)


def furnish(room: Path) -> None:
    """Puts a Python without packages into the folder."""
    venv.create(room / "python", symlinks=True)


def environment_of(part: Part, room: Path) -> Dict[str, str]:
    """The environment of a part: `python3` is that of this folder. Tests start it hundreds of times, so what it compiles is kept there,
    too, whatever the environment of this process says of that."""
    path = os.pathsep.join([str(room / "python" / "bin"), os.environ["PATH"]])
    given = {**os.environ, "PATH": path, "PYTHONPYCACHEPREFIX": str(room / "bytecode"), **dict(part.environment)}
    given.pop("PYTHONDONTWRITEBYTECODE", None)
    return given


def run(part: Part, room: Path) -> Outcome:
    """Runs a part to its end, with the Python of the folder."""
    began = time.monotonic()
    ran = subprocess.run(part.command, cwd=ROOT, env=environment_of(part, room), stdin=subprocess.DEVNULL,
                         stdout=subprocess.PIPE, stderr=subprocess.STDOUT, text=True, errors="replace")
    return outcome_of(part.name, ran.returncode, ran.stdout, time.monotonic() - began)


def python(*words: str) -> List[str]:
    """The command that runs Python with these words."""
    return ["python3", *words]


def clients() -> List[str]:
    """The names of the clients' folders."""
    return sorted(it.parent.name for it in ROOT.glob("clients/*/tests"))


def of_a_client(client: str, program: Path) -> List[Part]:
    """The parts that test a client: one, or two where it is divided."""
    apart, environment = DIVIDED.get(client, ()), (*LESS, SHORT)
    command = python("clients/run_tests.py", "--skip-missing", *but(APART))
    whole = Part(f"client {client}", [*command, *but(apart), str(program), client], environment)
    return [whole, Part(f"client {client}, more", [*command, str(program), *apart], environment)] if apart else [whole]


def but(names: Sequence[str]) -> List[str]:
    """The words by which these tests are left out."""
    return [word for it in names for word in ("--but", it)]


def of_the_program(program: Path, pages: Sequence[str]) -> List[Part]:
    """The parts that run a program, the longest first."""
    tests = [part for it in clients() for part in of_a_client(it, program)]
    examples = Part("examples of pages", python("tools/examples.py", "--program", str(program), *pages))
    others = [replace(it, command=[*BESIDE, *it.command]) for it in (*tests, examples)]
    parts = [*others, Part("the program", python("tools/program.py", str(program)), (*LESS, *SELDOM))]
    return sorted(parts, key=lambda it: LONGEST.index(it.name) if it.name in LONGEST else len(LONGEST))


def of_the_sources() -> List[Part]:
    """The parts that wait for no build; mypy and pyflakes are left out, and told, where they aren't installed."""
    parts = [Part("counts", python("tools/counts.py", "--hold")), Part("tools", python("-m", "unittest", *TOOLS_TESTS)),
             Part("clients without a program", python("clients/run_tests.py", shutil.which("false") or "/bin/false", *APART), (*LESS, SHORT))]
    if shutil.which("mypy"):
        folders = [ROOT / "clients" / client / part for client in clients() for part in ("", "tests")]
        path = ("MYPYPATH", os.pathsep.join(map(str, folders)))
        command = ["mypy", "--config-file", "clients/mypy.ini", "--follow-imports=silent", *TYPED]
        parts.append(Part("types of the clients", ["sh", "-c", "cd clients && mypy"]))
        parts.append(Part("types of the tools", command, (path,)))
    else:
        print("skipped: types: the package mypy is missing")
    flakes = shutil.which("pyflakes3") or shutil.which("pyflakes")
    if flakes:
        parts.append(Part("pyflakes", python("-m", "tools.flakes", flakes, "bench", "clients", "tools")))
    else:
        print("skipped: pyflakes: the package pyflakes3 is missing")
    return [replace(it, command=[*BESIDE, *it.command]) for it in parts]


def build() -> Outcome:
    """Builds the quick program, or takes it up."""
    began = time.monotonic()
    name = "the quick program, taken up" if quick_program.is_current() else "the quick program, built"
    try:
        quick_program.quick_program()
    except quick_program.NotBuilt as why:
        return Outcome(name, 0, 1, str(why), time.monotonic() - began)
    return Outcome(name, 1, 0, "", time.monotonic() - began)


def tested(pages: Sequence[str], room: Path) -> List[Outcome]:
    """Runs all parts, and tells each as it ends. Where the program can't be built those that run it are left out."""
    with ThreadPoolExecutor(1) as beside, ThreadPoolExecutor(LANES) as pool:
        def begin(work: Callable[[], Outcome], lanes: ThreadPoolExecutor) -> "Future[Outcome]":
            future = lanes.submit(work)
            future.add_done_callback(lambda it: it.result().tell())
            return future

        built = begin(build, pool)
        begun = [begin(partial(run, part, room), beside) for part in of_the_sources()]
        if built.result().failed == 0:
            begun += [begin(partial(run, part, room), pool) for part in of_the_program(quick_program.PROGRAM, pages)]
        else:
            print("not tried: what runs the program")
    return [built.result(), *(it.result() for it in begun)]


def main() -> int:
    if len(sys.argv) < 2:
        sys.exit(__doc__)
    began = time.monotonic()
    quick_program.FOLDER.mkdir(exist_ok=True)
    room = Path(tempfile.mkdtemp(prefix="run-", dir=quick_program.FOLDER))
    try:
        furnish(room)
        outcomes = tested(sys.argv[1:], room)
    finally:
        # a process that a test has left may still write there
        shutil.rmtree(room, ignore_errors=True)
    passed, failed = sum(it.passed for it in outcomes), sum(it.failed for it in outcomes)
    print(f"Left out: {sum(it.left_out() for it in outcomes)} tests that take long; make clients runs them, too, and more by chance.")
    print(f"In {time.monotonic() - began:.0f} s. Nothing was proved: make check C=.. proves a crate, and make test everything.")
    print(f"{passed} passed, {failed} failed")
    return 1 if failed else 0


if __name__ == "__main__":
    sys.exit(main())
