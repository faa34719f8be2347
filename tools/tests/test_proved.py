"""Whether a program is known to be proved."""
import tempfile
import unittest
from dataclasses import replace
from pathlib import Path

from tools import proved, sources


class Programs(unittest.TestCase):
    """A program and its record, as make build leaves the two."""

    def setUp(self) -> None:
        folder = tempfile.TemporaryDirectory()
        self.addCleanup(folder.cleanup)
        self.program = Path(folder.name, "attrd")
        self.program.write_bytes(b"a program")
        self.record = proved.Record(proved.digest(self.program), "a kit", "0123456789", "clean", sources.checksum("attrd", sources.ALL))
        self.write(self.record)

    def write(self, record: proved.Record) -> None:
        proved.file_of(self.program).write_text(record.text(), encoding="utf-8")

    def assert_unknown(self, reason: str) -> None:
        with self.assertRaisesRegex(proved.NotKnown, reason):
            proved.recorded(self.program)

    def test_a_program_with_its_record_is_proved(self) -> None:
        self.assertEqual(proved.recorded(self.program), self.record)

    def test_a_copied_program_is_not_known_to_be_proved(self) -> None:
        self.program.write_bytes(b"another program")
        self.assert_unknown("attrd.proved is that of another program")

    def test_a_program_with_no_record_is_not_known_to_be_proved(self) -> None:
        proved.file_of(self.program).unlink()
        self.assert_unknown("there is no attrd.proved")

    def test_a_record_that_lacks_a_line_tells_nothing(self) -> None:
        lines = self.record.text().splitlines(keepends=True)
        for left_out in range(len(lines)):
            proved.file_of(self.program).write_text("".join(lines[:left_out] + lines[left_out + 1:]), encoding="utf-8")
            self.assert_unknown("isn't what make build writes")

    def test_a_program_of_other_sources_is_not_taken(self) -> None:
        self.write(replace(self.record, sources="0"))
        self.assertEqual(proved.recorded(self.program).sources, "0")
        with self.assertRaisesRegex(proved.NotKnown, "other sources"):
            proved.stands_here(self.program)

    def test_changes_beside_the_commit_are_told(self) -> None:
        self.assertEqual(self.record.told(), "by a kit, of commit 01234567")
        self.assertEqual(replace(self.record, tree="changed").told(), "by a kit, of commit 01234567, with changes")
