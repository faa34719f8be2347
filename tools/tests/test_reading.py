"""What one has to read for a contract: which definitions are found in a file of specs, and which ones the theorem leads to."""
import re
import unittest
from pathlib import Path
from typing import Dict

from tools.reading import ROOT, THEOREM, blocks_of, length, reached

SPECS = """-- A page.
use Rattle.std.specs.Prelude.{ℕ}

-- what it says
-- in two lines
abbrev pub twice : ℕ → ℕ
twice n = n + n

pub record Pair : Type 0 where
  -- a field
  pub first : ℕ

mutual
  pub data Tree : Type 0 where
    Node : Trees → Tree

  -- trees
  pub data Trees : Type 0 where
    none : Trees

abbrev mutual
  pub size : Tree → ℕ
  size (Node ts) = 1 + sizes ts

  pub sizes : Trees → ℕ
  sizes none = 0

abbrev last : ℕ
last = 1
"""
# The names that docs/ARCHITECTURE.md has, from the theorem down to an instance.
WAY = {"at_start/specs/Whole.antt": ["MeansOutput", "AnswersFiles", "Answers"], "at_start/specs/Starts.antt": ["Starts"],
       "at_engine/specs/Running.antt": ["Ran"],
       "at_model/specs/Machine.antt": ["Outputs", "Runs", "Serves", "Handles", "Step", "verdict", "obeyed", "Says", "AnswersIn"],
       "at_model/specs/of_fixpoints/Circles.antt": ["Answers"], "at_model/specs/of_fixpoints/Fixpoints.antt": ["Holds"],
       "at_model/specs/of_fixpoints/Evaluations.antt": ["forms"]}


class Blocks(unittest.TestCase):
    """Definitions and how many lines each has, with the comment in front."""

    def test_each_definition_has_its_lines(self) -> None:
        found: Dict[str, int] = {name: len(lines) for name, lines in blocks_of(SPECS.splitlines())}
        self.assertEqual(found, {"twice": 4, "Pair": 3, "Tree": 2, "Trees": 3, "size": 2, "sizes": 2, "last": 2})


class Theorem(unittest.TestCase):
    """Which definitions it leads to."""

    def setUp(self) -> None:
        self.names = set().union(*map(reached, THEOREM))

    def test_it_leads_down_to_an_instance(self) -> None:
        for file, names in WAY.items():
            for name in names:
                self.assertTrue((ROOT / "crates" / file, name) in self.names, f"{file}: {name}")

    def test_it_leads_to_nothing_of_what_is_kept(self) -> None:
        crates = {file.relative_to(ROOT / "crates").parts[0] for file, _ in self.names}
        self.assertFalse(crates & {"at_cache", "at_demand", "at_store", "at_search", "at_solve"})

    def test_the_page_says_how_much_there_is_to_read(self) -> None:
        page = Path(ROOT / "docs/ARCHITECTURE.md").read_text(encoding="utf-8")
        told = re.search(r"That is (\d+) files of specs, with (\d+) definitions of ([\d,]+) lines", page)
        assert told is not None
        counted = (len({file for file, _ in self.names}), len(self.names), length(self.names))
        for said, there in zip(told.groups(), counted):
            self.assertAlmostEqual(int(said.replace(",", "")), there, delta=there / 10)


if __name__ == "__main__":
    unittest.main()
