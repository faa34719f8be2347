"""How the parts of the quick tests are counted, and in which environment they run."""
import os
import re
import subprocess
import sys
import tempfile
import unittest
from pathlib import Path
from typing import List, Tuple
from unittest import mock

from tools.of_the_program import (test_circular, test_constants_sessions, test_constants_spoiled, test_jastadd_again, test_jastadd_bodies,
                                  test_jastadd_overloaded, test_jastadd_specs, test_jastadd_spoiled, test_made)
from tools.quick import APART, DIVIDED, LESS, SELDOM, SHORT, Part, environment_of, furnish, of_the_program, outcome_of, python

ROOT = Path(__file__).resolve().parents[2]
sys.path.insert(0, str(ROOT / "clients"))
import run_tests  # noqa: E402


class Counting(unittest.TestCase):
    """What a part printed, its status, and how many tests passed and failed by it."""

    def assert_counted(self, status: int, printed: str, passed: int, failed: int) -> None:
        outcome = outcome_of("a part", status, printed, 0.0)
        self.assertEqual((outcome.passed, outcome.failed), (passed, failed))

    def test_the_last_line_counts(self) -> None:
        self.assert_counted(0, "docs/MANUAL.md: 5 passed, 0 failed\n5 passed, 0 failed\n", 5, 0)
        self.assert_counted(1, "3 passed, 0 failed\n4 passed, 2 failed\n", 4, 2)

    def test_a_part_that_counts_nothing_is_one_test(self) -> None:
        self.assert_counted(0, "Success: no issues found\n", 1, 0)
        self.assert_counted(1, "Found 3 errors\n", 0, 1)

    def test_what_unittest_tells_is_counted(self) -> None:
        self.assert_counted(0, "....\nRan 4 tests in 0.1s\n\nOK\n", 4, 0)
        self.assert_counted(1, "errors=7\nRan 4 tests in 0.1s\n\nFAILED (failures=2, errors=1)\n", 1, 3)

    def test_a_status_that_is_not_0_is_a_failure_whatever_was_counted(self) -> None:
        self.assert_counted(1, "5 passed, 0 failed\n", 5, 1)


    def test_what_was_left_out_is_counted(self) -> None:
        self.assertEqual(outcome_of("a part", 0, "left out: 7\n4 passed, 0 failed\n", 0.0).left_out(), 7)
        self.assertEqual(outcome_of("a part", 0, "4 passed, 0 failed\n", 0.0).left_out(), 0)


class Environment(unittest.TestCase):
    """Which Python a part runs, and where the code that it compiles is kept."""

    def test_what_python_compiles_is_kept_in_the_folder_and_nowhere_else(self) -> None:
        with tempfile.TemporaryDirectory() as name:
            folder, room = Path(name, "code"), Path(name, "room")
            folder.mkdir()
            (folder / "compiled.py").write_text("pass\n", encoding="utf-8")
            with mock.patch.dict(os.environ, {"PYTHONDONTWRITEBYTECODE": "1"}):
                given = environment_of(Part("a part", (), (("PYTHONPATH", str(folder)),)), room)
            subprocess.run([sys.executable, "-c", "import compiled"], env=given, check=True)
            self.assertEqual([it.name for it in folder.iterdir()], ["compiled.py"])
            self.assertEqual(len(list(room.rglob("compiled.*.pyc"))), 1)

    def test_a_part_runs_a_python_of_the_same_version_without_packages(self) -> None:
        with tempfile.TemporaryDirectory() as name:
            furnish(Path(name))
            told = "import sys, site; print(sys.prefix, sys.version, *site.getsitepackages(), sep='\\n')"
            ran = subprocess.run(python("-c", told), env=environment_of(Part("a part", ()), Path(name)), capture_output=True, text=True,
                                 check=True)
            prefix, *version, packages = ran.stdout.splitlines()
            self.assertEqual((prefix, "\n".join(version)), (str(Path(name, "python")), sys.version))
            self.assertEqual(list(Path(packages).iterdir()), [])

    def test_what_a_part_is_given_stands_in_it(self) -> None:
        given = environment_of(Part("a part", (), (("ATTRD_HUB_POINTS", "45"),)), Path("room"))
        self.assertEqual(given["ATTRD_HUB_POINTS"], "45")
        self.assertEqual(given["PATH"].split(os.pathsep)[1:], os.environ["PATH"].split(os.pathsep))


class Apart(unittest.TestCase):
    """The tests of clients that run beside the build."""

    def test_they_are_left_out_of_what_waits_for_the_program(self) -> None:
        parts = [it for it in of_the_program(Path("attrd"), []) if it.name.startswith("client ")]
        self.assertGreater(len(parts), 3)
        for part in parts:
            self.assertEqual(self.left_out(part)[:len(APART)], list(APART))

    def left_out(self, part: Part) -> List[str]:
        """What this part leaves out."""
        return [it for before, it in zip(part.command, part.command[1:]) if before == "--but"]

    def test_what_a_divided_client_leaves_out_of_one_part_is_the_other(self) -> None:
        parts = {it.name: it for it in of_the_program(Path("attrd"), [])}
        for client, modules in DIVIDED.items():
            self.assertEqual(self.left_out(parts[f"client {client}"])[len(APART):], list(modules))
            self.assertEqual(list(parts[f"client {client}, more"].command[-len(modules):]), list(modules))
            self.assertEqual(self.left_out(parts[f"client {client}, more"]), list(APART))
            for module in modules:
                self.assertTrue((ROOT / "clients" / client / "tests" / f"{module}.py").exists())

    def test_what_is_left_out_is_a_module_a_class_or_a_test(self) -> None:
        tests = unittest.defaultTestLoader.loadTestsFromTestCase(Counting)
        names = [it.id() for it in run_tests.each(tests)]
        self.assertGreater(len(names), 3)
        for left_out, kept in ((names[0], names[1:]), (names[0][:-1], names), (names[0].rpartition(".")[0], [])):
            self.assertEqual([it.id() for it in run_tests.each(run_tests.without(tests, [left_out]))], kept)


class Short(unittest.TestCase):
    """The tests of clients that take long."""

    SCRIPT = """import unittest
from at_length import REASON, at_length

class Two(unittest.TestCase):
    @at_length
    def test_long(self):
        pass

    def test_short(self):
        pass

result = unittest.TextTestRunner().run(unittest.defaultTestLoader.loadTestsFromTestCase(Two))
print(result.testsRun, [reason == REASON for _, reason in result.skipped])
"""

    def told(self, *words: Tuple[str, str]) -> str:
        environment = {it: text for it, text in os.environ.items() if it != SHORT[0]}
        ran = subprocess.run([sys.executable, "-c", self.SCRIPT], cwd=ROOT / "clients", env={**environment, **dict(words)},
                             capture_output=True, text=True, check=True)
        return ran.stdout

    def test_they_are_left_out_where_the_word_is_given(self) -> None:
        self.assertEqual(self.told(SHORT), "2 [True]\n")
        self.assertEqual(self.told(), "2 []\n")

    def test_each_module_has_others(self) -> None:
        marked = re.compile(r"^    @at_length\n    def test_", re.M)
        for file in ROOT.glob("clients/*/tests/test_*.py"):
            text = file.read_text(encoding="utf-8")
            self.assertLess(len(marked.findall(text)), len(re.findall(r"^    (?:async )?def test_", text, re.M)), file.name)


class Less(unittest.TestCase):
    """What is tried less often than in the gate, where no word of the environment says how often."""

    def test_each_word_has_a_test_try_less_than_usual(self) -> None:
        usual = re.compile(r'os\.environ\.get\("(ATTRD_\w+)", "(\d+)"\)')
        files = [*ROOT.glob("clients/*/tests/*.py"), *ROOT.glob("tools/of_the_program/*.py")]
        texts = [it.read_text(encoding="utf-8") for it in files]
        found = [(name, int(count)) for text in texts for name, count in usual.findall(text)]
        found += [("ATTRD_CIRCULAR_SESSIONS", test_circular.SESSIONS), ("ATTRD_MADE_SESSIONS", test_made.SESSIONS),
                  ("ATTRD_SPOILED_FILES", test_jastadd_spoiled.FILES), ("ATTRD_SPECS_SESSIONS", test_jastadd_specs.SESSIONS),
                  ("ATTRD_BODIES_FILES", test_jastadd_bodies.FILES), ("ATTRD_OVERLOADED_COUNT", test_jastadd_overloaded.COUNT),
                  ("ATTRD_AGAIN_COUNT", test_jastadd_again.COUNT), ("ATTRD_CONSTANTS_SESSIONS", test_constants_sessions.SESSIONS),
                  ("ATTRD_CONSTANTS_FILES", test_constants_spoiled.FILES)]
        for name, count in LESS:
            others = [it for known, it in found if known == name]
            self.assertTrue(others and int(count) < min(others), name)
        for name, count in SELDOM:
            others = [it for known, it in found if known == name]
            self.assertTrue(others and int(count) > max(others), name)
