"""The journal by itself: cut off at each byte, damaged, renewed, and in a chain of files."""
from __future__ import annotations

import shutil
import tempfile
import unittest
from pathlib import Path
from typing import List
from unittest import mock

from hub_support import until

from attrd_hub.journal import Journal, JournalFault
from attrd_hub.records import Ending, head, read_journal, record

EDITS = [b"drop /A:%d" % it for it in range(16)]


class Records(unittest.TestCase):
    def test_cut_off_at_each_byte(self) -> None:
        records = [record(7 + it, command) for it, command in enumerate(EDITS)]
        data = head(6) + b"".join(records)
        for length in range(len(data)):
            found = read_journal(data[:length], 6)
            whole = [it for it in range(len(records) + 1) if len(head(6)) + sum(map(len, records[:it])) <= length]
            self.assertEqual(found.commands, EDITS[:whole[-1]] if whole else [], length)
            self.assertEqual(data[:found.right] + found.cut, data[:length])
            self.assertIn(found.ending, (Ending.WHOLE, Ending.CUT_OFF))

    def test_each_byte_counts(self) -> None:
        data = head(0) + b"".join(record(1 + it, command) for it, command in enumerate(EDITS[:3]))
        for at in range(len(data)):
            found = read_journal(data[:at] + bytes([data[at] ^ 1]) + data[at + 1:], 0)
            self.assertEqual(found.commands, EDITS[:len(found.commands)], at)
            self.assertLess(len(found.commands), 3)


class Folders(unittest.TestCase):
    def setUp(self) -> None:
        folder = tempfile.TemporaryDirectory()
        self.addCleanup(folder.cleanup)
        self.folder = Path(folder.name) / "state"
        self.tree = Path(folder.name) / "tree.txt"
        self.tree.write_bytes(b"A([])\n")

    def opened(self, sync: str = "never") -> Journal:
        journal = Journal(self.folder, sync)
        self.addCleanup(lambda: journal.close() if journal in self.unclosed else None)
        self.unclosed.append(journal)
        return journal

    unclosed: List[Journal] = []

    def closed(self, journal: Journal) -> None:
        self.unclosed.remove(journal)
        journal.close()

    def add(self, journal: Journal, edits: List[bytes]) -> None:
        for command in edits:
            journal.append(journal.version + 1, command)
        journal.commit()

    def read(self) -> "tuple[int, bytes, List[bytes], List[str]]":
        journal = self.opened()
        state = journal.open(self.tree)
        found = state.base, state.term.read_bytes(), state.commands, state.told
        self.closed(journal)
        return found

    def test_edits_are_there_again(self) -> None:
        for sync in ("each", "second", "never"):
            shutil.rmtree(self.folder, ignore_errors=True)
            journal = self.opened(sync)
            journal.open(self.tree)
            self.add(journal, EDITS)
            journal.tick()
            self.closed(journal)
            self.tree.write_bytes(b"Another()\n")
            self.assertEqual(self.read(), (0, b"A([])\n", EDITS, []))
            self.tree.write_bytes(b"A([])\n")

    def test_when_edits_are_made_safe(self) -> None:
        for sync, at_once, in_all in (("each", 2, 2), ("second", 0, 1), ("never", 0, 0)):
            shutil.rmtree(self.folder, ignore_errors=True)
            journal = self.opened(sync)
            journal.open(self.tree)
            with mock.patch("os.fdatasync") as made_safe:
                self.add(journal, EDITS[:3])
                self.add(journal, EDITS[3:])
                self.assertEqual(made_safe.call_count, at_once, sync)
                journal.tick()
                until(lambda: made_safe.call_count == in_all, f"what is made safe by {sync}")
                journal.tick()
                self.assertEqual(made_safe.call_count, in_all, sync)
            self.closed(journal)

    def test_two_hubs(self) -> None:
        self.opened()
        with self.assertRaisesRegex(JournalFault, "another hub has it"):
            Journal(self.folder, "never")

    def test_a_version_too_many(self) -> None:
        journal = self.opened()
        journal.open(self.tree)
        with self.assertRaisesRegex(JournalFault, "1 is next"):
            journal.append(2, b"drop /")

    def test_renewed(self) -> None:
        journal = self.opened()
        journal.open(self.tree)
        self.add(journal, EDITS[:5])
        journal.renew(b"B()")
        self.add(journal, EDITS[5:])
        journal.wait()
        self.closed(journal)
        self.assertEqual(sorted(it.name for it in self.folder.iterdir()), ["journal-5", "lock", "tree-5.sum", "tree-5.txt"])
        self.assertEqual(self.read(), (5, b"B()\n", EDITS[5:], []))

    def test_a_crash_before_the_term_is_whole(self) -> None:
        journal = self.opened()
        journal.open(self.tree)
        self.add(journal, EDITS[:5])
        old = {it.name: it.read_bytes() for it in self.folder.iterdir()}
        journal.renew(b"B()")
        self.add(journal, EDITS[5:])
        journal.wait()
        self.closed(journal)
        (self.folder / "tree-5.txt").rename(self.folder / "tree-5.new")
        for name, data in old.items():
            (self.folder / name).write_bytes(data)
        self.assertEqual(self.read(), (0, b"A([])\n", EDITS, []))
        self.assertFalse((self.folder / "tree-5.new").exists())

    def test_edits_behind_a_hole_are_put_aside(self) -> None:
        journal = self.opened()
        journal.open(self.tree)
        self.add(journal, EDITS)
        self.closed(journal)
        path = self.folder / "journal-0"
        data = path.read_bytes()
        path.write_bytes(data[:60] + b"\0" * 20 + data[80:])
        base, _, commands, told = self.read()
        self.assertEqual((base, commands), (0, EDITS[:len(commands)]))
        self.assertEqual(len(told), 1)
        self.assertIn(f"it ends with version {len(commands)}", told[0])
        self.assertEqual(path.read_bytes() + (self.folder / "journal-0.cut").read_bytes(), data[:60] + b"\0" * 20 + data[80:])

    def test_a_folder_whose_journal_is_cut_off_at_each_byte(self) -> None:
        journal = self.opened()
        journal.open(self.tree)
        self.add(journal, EDITS)
        self.closed(journal)
        path = self.folder / "journal-0"
        data = path.read_bytes()
        ends = [at + 1 for at, byte in enumerate(data) if byte == ord("\n")]
        self.assertGreater(len(data), 300)
        with mock.patch("os.fsync"):
            for length in range(len(data)):
                path.write_bytes(data[:length])
                whole = max(0, sum(it <= length for it in ends) - 1)
                base, _, commands, told = self.read()
                self.assertEqual((base, commands), (0, EDITS[:whole]), length)
                self.assertEqual(bool(told), length not in (0, *ends), length)
                journal = self.opened()
                journal.open(self.tree)
                self.add(journal, EDITS[whole:])
                self.closed(journal)
                self.assertEqual(path.read_bytes(), data)

    def test_a_cut_is_told_once(self) -> None:
        journal = self.opened()
        journal.open(self.tree)
        self.add(journal, EDITS)
        self.closed(journal)
        path = self.folder / "journal-0"
        path.write_bytes(path.read_bytes()[:-3])
        _, _, commands, told = self.read()
        self.assertEqual(commands, EDITS[:-1])
        self.assertEqual(told, ["journal-0: it ends with version 15: the edit behind it was cut off in the middle, and is left out"])
        self.assertEqual(self.read()[2:], (EDITS[:-1], []))


if __name__ == "__main__":
    unittest.main()
