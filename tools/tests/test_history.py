"""The file of measurements, the table that is written from it into docs/PERFORMANCE.md, and what scripts add to it."""
import os
import subprocess
import sys
import tempfile
import unittest
from pathlib import Path
from typing import List

ROOT = Path(__file__).resolve().parents[2]
sys.path.insert(0, str(ROOT / "bench"))
import history  # noqa: E402
from history import Measured  # noqa: E402


def noted(statement: str, script: str, *options: str, proved: bool = False) -> List[str]:
    """What a script of this name adds to the file by the statement, line by line."""
    with tempfile.TemporaryDirectory() as folder:
        path = Path(folder) / "history.tsv"
        path.touch()
        code = f"import sys\nsys.argv[0] = {script!r}\nfrom bounds import Bounds\nimport history\n{statement}"
        named = {"PYTHONPATH": str(ROOT / "bench"), "ATTRD_HISTORY": str(path), "ATTRD_PROVED": "yes" if proved else "no"}
        subprocess.run([sys.executable, "-B", "-c", code, *options], env={**os.environ, **named}, check=True)
        return path.read_text(encoding="utf-8").splitlines()


class TheFile(unittest.TestCase):
    """bench/history.tsv and the page."""

    def test_the_page_has_the_table_that_is_written_from_the_file(self) -> None:
        page = history.PAGE.read_text(encoding="utf-8")
        self.assertEqual(page, history.with_table(page, history.read(history.HISTORY.read_text(encoding="utf-8"))))

    def test_a_line_that_lacks_a_field_is_told(self) -> None:
        for line in ("0.1\tkept\ta row\t2\tms\tyes", "0.1\tkept\ta row\t2\tms\tperhaps\t", "0.1\tkept\ta row\ttwo\tms\tyes\t",
                     "0.1\tkept\ta row\t2\tms\tyes\tabout 3"):
            with self.subTest(line), self.assertRaises(ValueError):
                history.read(f"{history.HEAD}\n{line}\n")

    def test_a_page_without_a_place_for_the_table_is_told(self) -> None:
        with self.assertRaises(ValueError):
            history.with_table("# A page\n", [])


class TheTable(unittest.TestCase):
    """Which measurements stand in it, and how."""

    def test_the_last_measurement_of_a_proved_program_counts(self) -> None:
        rows = [Measured("0.9", "kept", "a row", "3", "", "yes", "<= 5"), Measured("0.10", "kept", "a row", "4", "", "yes", "<= 5"),
                Measured("0.11", "kept", "a row", "1", "", "no", "<= 5"), Measured("0.12", "kept", "another", "7", "ms", "yes")]
        self.assertEqual(history.bounded(rows), [rows[1]])
        self.assertEqual(history.table(rows).splitlines()[2:], ["| `kept` | a row | 4 | at most 5 | 0.10 |"])

    def test_of_two_lines_of_one_version_the_later_one_counts(self) -> None:
        rows = [Measured("0.9", "kept", "a row", value, "", "yes", "<= 5") for value in ("3", "2")]
        self.assertEqual(history.bounded(rows), [rows[1]])

    def test_what_breaks_its_bound_is_bold(self) -> None:
        rows = [Measured("0.9", "kept", "a rate", "19", "", "no", ">= 20"),
                Measured("0.9", "kept", "a time", "1500", "ms", "no", "<= 1500")]
        self.assertEqual(history.table(rows).splitlines()[2:],
                         ["| `kept` | a rate | **19** | at least 20 | 0.9, not proved |", "| `kept` | a time | 1,500 ms | at most 1,500 | 0.9, not proved |"])

    def test_rows_that_differ_in_their_nodes_are_one(self) -> None:
        rows = [Measured("0.9", "bounded", f"memory, {nodes} nodes", value, "", "yes", "<= 1.5")
                for nodes, value in (("60,013", "1.4"), ("10,017", "1.1"))]
        self.assertEqual(history.table(rows).splitlines()[2:], ["| `bounded` | memory (10,017; 60,013 nodes) | 1.1; 1.4 | at most 1.5 | 0.9 |"])

    def test_two_units_of_one_thing_are_one_row(self) -> None:
        rows = [Measured("0.9", "evaluation", "a chain", value, unit, "yes", bound)
                for value, unit, bound in (("31.2", "MiB", "<= 40"), ("1.1", "seconds", "<= 8"))]
        self.assertEqual(history.table(rows).splitlines()[2:], ["| `evaluation` | a chain | 31.2 MiB; 1.1 seconds | at most 40; 8 | 0.9 |"])

    def test_a_ratio_stands_beside_its_value(self) -> None:
        rows = [Measured("0.9", "kept", row, value, "", "yes", bound)
                for row, value, bound in (("an edit", "2.7", "<= 10"), ("an edit, ratio", "1.05", "<= 1.2"), ("a put, ratio", "1.1", "<= 2"))]
        self.assertEqual(history.table(rows).splitlines()[2:],
                         ["| `kept` | an edit | 2.7; 1.05 as a ratio | at most 10; 1.2 | 0.9 |", "| `kept` | a put, ratio | 1.1 | at most 2 | 0.9 |"])


class Noting(unittest.TestCase):
    """What scripts add."""

    def setUp(self) -> None:
        self.version = (ROOT / "VERSION").read_text(encoding="utf-8").strip()

    def test_bounds_are_noted_with_what_was_measured(self) -> None:
        statement = ("bounds = Bounds()\nbounds.at_most('a kept question, in instructions', 2578.4, 2600)\n"
                     "bounds.at_least('loading, in MiB a second', 25, 20)")
        self.assertEqual(noted(statement, "bench/evaluation.py", proved=True),
                         [f"{self.version}\tevaluation\ta kept question\t2578\tinstructions\tyes\t<= 2600",
                          f"{self.version}\tevaluation\tloading\t25\tMiB a second\tyes\t>= 20"])

    def test_an_option_makes_another_script_of_it(self) -> None:
        self.assertEqual(noted("history.note('a class renamed', 0.58214)", "bench/realistic.py", "--cut-off", "--hold"),
                         [f"{self.version}\trealistic --cut-off\ta class renamed\t0.5821\t\tno\t"])

    def test_numbers_of_tables_are_noted_with_their_heads(self) -> None:
        statement = ("import figures\nfigures.table('A line', 'The client', 'Ratio')\n"
                     "figures.row('a round trip', '32.3 us', '1.00')\nfigures.row('none', '', '-')")
        self.assertEqual(noted(statement, "bench/clients.py"),
                         [f"{self.version}\tclients\tA line: a round trip: The client\t32.3\tus\tno\t",
                          f"{self.version}\tclients\tA line: a round trip: Ratio\t1\t\tno\t"])


if __name__ == "__main__":
    unittest.main()
