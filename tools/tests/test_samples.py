"""The samples that stand as terms in specs: in front of each declaration stands its line."""
import unittest
from pathlib import Path
from typing import List

ROOT = Path(__file__).resolve().parents[2]
SAMPLES = ROOT / "samples/calculator"
PAGE = ROOT / "crates/at_typing/specs/SampleCalculator.antt"


def behind(mark: str, file: Path) -> List[str]:
    """The lines of the file that begin with the mark, without it."""
    lines = file.read_text(encoding="utf-8").splitlines()
    return [it.removeprefix(mark) for it in lines if it.startswith(mark)]


class Calculator(unittest.TestCase):
    """The declarations of the calculator, as at_typing has them."""

    def test_the_lines_are_those_of_the_files(self) -> None:
        declared = behind("  ", SAMPLES / "calc.jrag") + behind("  ", SAMPLES / "probe.jrag")
        self.assertEqual(behind("    -- ", PAGE), declared)
        self.assertEqual(len(declared), 25)
