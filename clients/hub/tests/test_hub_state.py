"""Folders of a journal that are wrong in some way: what a start tells of them, what it keeps, and what of them it refuses."""
from __future__ import annotations

import shutil
import tempfile
import unittest
import zlib
from pathlib import Path
from typing import List
from unittest import mock

from at_length import at_length
from hub_support import Hub, calculator, run_hub

from attrd_hub.folder import StateFault, read_folder
from attrd_hub.journal import Journal, JournalFault
from attrd_hub.peers import Peer
from attrd_hub.records import Ending, head, read_journal, record

TREE = b"A([])\n"
EDITS = [b"drop /A:%d" % it for it in range(6)]
CUT_OFF = "journal-0: it ends with version {}: the edit behind it was cut off in the middle, and is left out"


class Endings(unittest.TestCase):
    """A journal of six records, whose last one is wrong."""

    def setUp(self) -> None:
        self.before = head(0) + b"".join(record(1 + it, command) for it, command in enumerate(EDITS[:-1]))
        self.last = record(6, EDITS[-1])

    def ending(self, last: bytes) -> Ending:
        found = read_journal(self.before + last, 0)
        self.assertEqual(found.commands, EDITS[:-1])
        self.assertEqual(found.cut, last)
        return found.ending

    def test_a_record_of_which_the_end_is_missing_was_cut_off(self) -> None:
        for length in range(1, len(self.last)):
            self.assertEqual(self.ending(self.last[:length]), Ending.CUT_OFF, length)

    def test_a_record_in_which_a_bit_is_another_is_damaged(self) -> None:
        for at in range(len(self.last)):
            for bit in range(8):
                damaged = bytearray(self.last)
                damaged[at] ^= 1 << bit
                self.assertEqual(self.ending(bytes(damaged)), Ending.DAMAGED, (at, bit))

    def test_other_bytes_are_damage(self) -> None:
        for last in (b"\0" * 40, self.last[:20] + b"\0" * 20, b"\n", self.last[:-1] + b"x", record(7, EDITS[-1])[:-3]):
            self.assertEqual(self.ending(last), Ending.DAMAGED, last)

    def test_a_head_that_is_none(self) -> None:
        for data in (b"attrd journal 2 from 0\n", head(1), b"\0" * 30, b"x"):
            self.assertEqual(read_journal(data, 0).ending, Ending.UNKNOWN, data)
        for length in range(1, len(head(0))):
            self.assertEqual(read_journal(head(0)[:length], 0).ending, Ending.CUT_OFF)
        self.assertEqual(read_journal(b"", 0).ending, Ending.WHOLE)


class Editors(unittest.TestCase):
    def test_a_record_says_who_made_the_edit(self) -> None:
        line = record(3, b"drop /A:1", Peer(4711, 1000, 100))
        self.assertEqual(line[9:], b"3 by 4711:1000:100 drop /A:1\n")
        self.assertEqual(int(line[:8], 16), zlib.crc32(line[9:-1]))

    def test_records_with_and_without_it_are_read_alike(self) -> None:
        data = head(0) + record(1, EDITS[0]) + record(2, EDITS[1], Peer(1, 4294967294, 0)) + record(3, EDITS[2])
        found = read_journal(data, 0)
        self.assertEqual((found.commands, found.ending), (EDITS[:3], Ending.WHOLE))


class Folders(unittest.TestCase):
    def setUp(self) -> None:
        folder = tempfile.TemporaryDirectory()
        self.addCleanup(folder.cleanup)
        self.folder = Path(folder.name) / "state"
        self.tree = Path(folder.name) / "tree.txt"
        self.tree.write_bytes(TREE)

    def made(self, edits: List[bytes]) -> None:
        """A folder with these edits behind the tree."""
        journal = Journal(self.folder, "never")
        journal.open(self.tree)
        for command in edits:
            journal.append(journal.version + 1, command)
        journal.commit()
        journal.close()

    def opened(self) -> List[str]:
        """Opens the folder, and closes it: what is told of it."""
        journal = Journal(self.folder, "never")
        try:
            return journal.open(self.tree).told
        finally:
            journal.close()

    def files(self) -> "dict[str, bytes]":
        return {it.name: it.read_bytes() for it in self.folder.iterdir()}

    def refused(self, part: str) -> None:
        """That no start goes on from the folder, and says so; and that it leaves all as it is."""
        before = {name: data for name, data in self.files().items() if name != "lock"}
        with self.assertRaisesRegex(StateFault, part):
            self.opened()
        self.assertEqual({name: data for name, data in self.files().items() if name != "lock"}, before)

    def test_a_first_term_that_isn_t_taken_is_left_out(self) -> None:
        journal = Journal(self.folder, "never")
        self.assertEqual(journal.read(self.tree).term.read_bytes(), TREE)
        journal.close()
        self.assertEqual(list(self.files()), ["lock"])
        self.tree.write_bytes(b"B()\n")
        self.assertEqual(self.opened(), [])
        self.assertEqual(self.files()["tree-0.txt"], b"B()\n")

    def test_what_was_cut_stays_whatever_is_cut_later(self) -> None:
        self.made(EDITS)
        path = self.folder / "journal-0"
        kept = []
        for number in range(1, 4):
            whole = path.read_bytes()
            path.write_bytes(whole[:-3] + b"%d\0\n" % number)
            kept.append(path.read_bytes()[len(head(0)) + sum(len(record(1 + it, EDITS[it])) for it in range(6 - number)):])
            name = "journal-0.cut" + ("" if number == 1 else str(number))
            self.assertEqual(self.opened(), [f"journal-0: it ends with version {6 - number}: the edit behind it is damaged: "
                                             f"{len(kept[-1])} bytes are left out, and kept in {name}"])
            # One that was cut off is nothing that anybody was told of.
            with path.open("ab") as journal:
                journal.write(record(7 - number, b"drop /A:99")[:-4])
            self.assertEqual(self.opened(), [CUT_OFF.format(6 - number)])
        self.assertEqual([self.files()[it] for it in ("journal-0.cut", "journal-0.cut2", "journal-0.cut3")], kept)
        self.assertEqual(len([it for it in self.files() if ".cut" in it]), 3)

    def test_journals_that_are_put_aside_stay(self) -> None:
        self.made(EDITS)
        for number in (1, 2):
            (self.folder / "journal-9").write_bytes(head(9) + b"%d" % number)
            name = "journal-9.cut" + ("" if number == 1 else "2")
            self.assertEqual(self.opened(), [f"journal-9: the edits before it are lost, so it is left out, and kept in {name}"])
            self.assertEqual(self.files()[name], head(9) + b"%d" % number)

    def test_no_room_for_what_is_cut(self) -> None:
        """Then nothing is cut, and no part of a copy is left."""
        self.made(EDITS)
        path = self.folder / "journal-0"
        path.write_bytes(path.read_bytes()[:-3] + b"\0\0\n")
        before = self.files()
        with mock.patch("attrd_hub.journal.write_all", side_effect=OSError(28, "No space left on device")):
            with self.assertRaisesRegex(JournalFault, "No space left"):
                self.opened()
        self.assertEqual(self.files(), before)

    def test_a_term_with_another_check_sum(self) -> None:
        self.made(EDITS[:2])
        self.assertEqual(self.files()["tree-0.sum"], b"%08x %d\n" % (zlib.crc32(TREE), len(TREE)))
        for damaged in (b"B([])\n", TREE[:-2], b"", TREE + b"\n"):
            (self.folder / "tree-0.txt").write_bytes(damaged)
            self.refused("tree-0.txt: it is damaged, or was changed by hand")
        (self.folder / "tree-0.sum").unlink()
        self.assertEqual(self.opened(), [])

    def test_a_check_sum_that_is_damaged(self) -> None:
        self.made(EDITS[:2])
        (self.folder / "tree-0.sum").write_bytes(b"")
        self.refused("its check sum isn't the one in tree-0.sum")

    def test_a_renewed_term_has_a_check_sum(self) -> None:
        journal = Journal(self.folder, "never")
        journal.open(self.tree)
        journal.append(1, EDITS[0])
        journal.renew(b"B()")
        journal.close()
        found = self.files()
        self.assertEqual(sorted(found), ["journal-1", "lock", "tree-1.sum", "tree-1.txt"])
        self.assertEqual(found["tree-1.sum"], b"%08x 4\n" % zlib.crc32(b"B()\n"))

    def test_journals_that_are_none_are_refused(self) -> None:
        self.made(EDITS)
        right = self.files()["journal-0"]
        for wrong in (b"attrd journal 2 from 0\n" + right, right[:6] + b"J" + right[7:], head(1) + right[len(head(0)):], b"\0" * 100):
            (self.folder / "journal-0").write_bytes(wrong)
            self.refused("journal-0: its first line isn't that of a journal behind version 0, but ")

    def test_a_journal_without_its_term(self) -> None:
        self.made(EDITS)
        (self.folder / "tree-0.txt").unlink()
        self.refused("journal-0 is there, and no term that it follows")

    def test_files_of_other_kinds(self) -> None:
        self.made(EDITS)
        for name in ("journal-0", "tree-0.txt"):
            data = (self.folder / name).read_bytes()
            (self.folder / name).unlink()
            (self.folder / name).mkdir()
            with self.assertRaisesRegex(StateFault, f"{name}: it isn't a regular file"):
                self.opened()
            (self.folder / name).rmdir()
            (self.folder / name).write_bytes(data)

    def test_a_file_in_the_place_of_the_folder(self) -> None:
        self.folder.write_bytes(b"")
        with self.assertRaisesRegex(JournalFault, "state: it is a file, and no folder$"):
            Journal(self.folder, "never")

    def test_a_term_whose_journal_is_gone(self) -> None:
        self.made(EDITS)
        (self.folder / "tree-0.txt").rename(self.folder / "tree-6.txt")
        (self.folder / "tree-0.sum").rename(self.folder / "tree-6.sum")
        self.assertEqual(self.opened(), ["journal-6: it isn't there, so no edit behind the version 6 is known"])

    def test_a_thread_that_can_t_be_started(self) -> None:
        """The edits are made safe without it; and a term waits for the next time, and all stays as it is."""
        journal = Journal(self.folder, "second")
        journal.open(self.tree)
        with mock.patch("threading.Thread.start", side_effect=RuntimeError("can't start new thread")):
            journal.append(1, EDITS[0])
            journal.commit()
            with mock.patch("os.fdatasync") as made_safe:
                journal.tick()
                self.assertEqual(made_safe.call_count, 1)
                journal.tick()
                self.assertEqual(made_safe.call_count, 1)
            journal.renew(b"B()")
            self.assertIn("the term of version 1 can't be written: can't start new thread", journal.term_fault or "")
        journal.append(2, EDITS[1])
        journal.commit()
        journal.close()
        state = read_folder(self.folder)
        assert state is not None
        self.assertEqual((state.base, state.commands, state.told), (0, EDITS[:2], []))


    def test_a_next_journal_that_can_t_be_begun(self) -> None:
        """Edits go on behind those before, and the same is tried again only when there are as many more."""
        for place, fault in (("journal.write_all", OSError(28, "No space left on device")),
                             ("journal.os.open", OSError(23, "Too many open files in system")),
                             ("journal.os.fsync", OSError(5, "Input/output error"))):
            journal = Journal(self.folder, "each")
            journal.open(self.tree)
            journal.append(1, EDITS[0])
            journal.commit()
            with mock.patch(f"attrd_hub.{place}", side_effect=fault):
                journal.renew(b"B()")
            self.assertEqual(journal.term_fault, f"{self.folder}: the term of version 1 can't be written: {fault.strerror}")
            self.assertEqual((journal.edits, journal.bytes), (0, 0))
            journal.append(2, EDITS[1])
            journal.commit()
            journal.close()
            self.assertEqual(sorted(self.files()), ["journal-0", "lock", "tree-0.sum", "tree-0.txt"])
            state = read_folder(self.folder)
            assert state is not None
            self.assertEqual((state.base, state.commands, state.told), (0, EDITS[:2], []))
            shutil.rmtree(self.folder)


class Starts(unittest.TestCase):
    @at_length
    def test_a_tree_that_is_refused_can_be_corrected(self) -> None:
        with tempfile.TemporaryDirectory() as name:
            folder = Path(name)
            files = calculator(folder)
            right = Path(files[1]).read_text("utf-8")
            for wrong in (right.replace("Print(", "Prin("), ""):
                Path(files[1]).write_text(wrong, "utf-8")
                status, told = run_hub("--socket", str(folder / "s"), "--state", str(folder / "state"), *files)
                self.assertEqual(status, 1, told)
                self.assertIn(f"{files[1]}:", told)
                self.assertEqual([it.name for it in (folder / "state").iterdir()], ["lock"])
            hub = Hub()
            self.addCleanup(hub.close)
            hub.kill()
            shutil.rmtree(hub.state)
            shutil.copytree(folder / "state", hub.state)
            hub.start()
            self.assertEqual(hub.client().ask("0 show /"), f"0 = {right.strip()}")

    def test_a_journal_of_before_is_read_and_goes_on(self) -> None:
        """It has neither check sums of terms nor who made the edits."""
        hub = Hub()
        self.addCleanup(hub.close)
        hub.kill()
        (hub.state / "tree-0.sum").unlink()
        first = record(1, b'token /Block/Stmt:0 ID "y"')
        (hub.state / "journal-0").write_bytes(head(0) + first)
        hub.start()
        client = hub.client()
        self.assertEqual(client.ask("0 drop /Block/Stmt:1"), "0 ok 2")
        hub.kill()
        self.assertTrue((hub.state / "journal-0").read_bytes().startswith(head(0) + first))
        hub.start()
        self.assertEqual(hub.client().ask("0 show /"), '0 = Program(Block([Decl("y",Num(1))]))')

    @at_length
    def test_a_state_that_is_refused(self) -> None:
        hub = Hub()
        self.addCleanup(hub.close)
        self.assertEqual(hub.client().ask("0 drop /Block/Stmt:0"), "0 ok 1")
        hub.kill()
        journal = (hub.state / "journal-0").read_bytes()
        for name, data in (("journal-0", b"attrd journal 9 from 0\n"), ("tree-0.txt", b"Program(Block([]))\n")):
            before = (hub.state / name).read_bytes()
            (hub.state / name).write_bytes(data)
            status, told = run_hub("--socket", hub.socket, "--state", str(hub.state), *hub.files)
            self.assertEqual(status, 5, told)
            self.assertIn(name, told)
            self.assertEqual((hub.state / name).read_bytes(), data)
            (hub.state / name).write_bytes(before)
        hub.start()
        self.assertEqual(hub.client().ask("0 version"), "0 ok 1")
        self.assertEqual((hub.state / "journal-0").read_bytes(), journal)


if __name__ == "__main__":
    unittest.main()
