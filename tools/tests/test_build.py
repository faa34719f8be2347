"""What is told of a build, by what rt prints."""
import unittest

from tools import sources
from tools.build import NAME, Progress

CRATES = len(sources.crates_below(NAME))


class Lines(unittest.TestCase):
    """Lines of rt, and what is told behind each."""

    def setUp(self) -> None:
        self.progress = Progress()

    def test_before_the_first_crate_it_is_told_how_many_there_are(self) -> None:
        self.assertIsNone(self.progress.hear("statements clap: modules loaded=0 checked=0\n"))
        self.assertRegex(self.progress.state(), f"^before the first of {CRATES} crates")

    def test_a_crate_that_begins_is_told_by_its_place(self) -> None:
        self.assertEqual(self.progress.hear("rt: chose --jobs 4 for at_model\n"), f"proves at_model, crate 1 of {CRATES}")
        self.assertEqual(self.progress.hear("rt: chose --jobs 1 for attrd\n"), f"proves attrd, crate {CRATES} of {CRATES}")

    def test_functions_are_told_as_they_are_checked(self) -> None:
        self.progress.hear("rt: chose --jobs 4 for at_model\n")
        self.assertIsNone(self.progress.hear("so far: 0 of 1,185 functions checked; the verdict comes last\n"))
        self.assertEqual(self.progress.functions, 1185)
        self.progress.hear("so far: 1,100 of 1,185 functions checked; the verdict comes last\n")
        self.assertEqual(self.progress.checked, 1100)

    def test_a_crate_that_is_proved_is_told_with_its_functions(self) -> None:
        self.progress.hear("rt: chose --jobs 4 for at_demand\n")
        self.assertEqual(self.progress.hear("logic=proved functions=70 incremental=trusted\n"), "at_demand is proved: 70 functions")

    def test_another_crate_begins_with_nothing_checked(self) -> None:
        self.progress.hear("rt: chose --jobs 4 for at_model\n")
        self.progress.hear("so far: 100 of 185 functions checked; the verdict comes last\n")
        self.progress.hear("rt: chose --jobs 4 for at_text\n")
        self.assertEqual((self.progress.checked, self.progress.functions), (0, None))
