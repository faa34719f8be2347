"""Files that are refused: in which order they are looked at, what is no text, and each front of a tree. What their texts are refused
for is shown by the examples of tests/pages/REFUSALS.md and EDGES.md."""
import os
import socket
import unittest
from pathlib import Path
from typing import Sequence

from tools.of_the_program.runs import ProgramTest, ended

UNKNOWN = b"aspect A { syn int A.a() = b(); }"
ASPECTS = ["first.jrag", "second.jrag"]

# A grammar, a tree and aspects, and what is told of them: nothing where they are accepted.
ROWS = [
    (b"A", b"", [b"aspect"], "g.ast: G1 syntax at 1:2"),
    (b"A;", b"", [b"aspect"], "first.jrag: J1 syntax at 1:7"),
    (b"A;", b"", [b""], "t.txt: F1 syntax"),
    (b"A;", b"B()", [b""], "t.txt: F6 class"),
    (b"A;", b"A()\n", [b""], ""),
    (b"A ::= ;", b"A()", [b""], ""),
    (b"A;", b"A()\n\n", [b""], "t.txt: F1 syntax"),
    # all aspects are read before any is judged
    (b"A;", b"A()", [UNKNOWN, b"\naspect"], "second.jrag: J1 syntax at 2:7"),
    (b"A;", b"A()", [b"\n", UNKNOWN], "second.jrag: J3 unknown name at 1:28"),
    # what is no UTF-8 is no text
    (b"A;\xff", b"A()", [b"", b""], "g.ast: G1 syntax at 1:1"),
    (b"A;", b"A()", [b"", b"\n\xff"], "second.jrag: J1 syntax at 1:1"),
    (b"A;", b"A()\xff", [b"", b""], "t.txt: F1 syntax"),
]

SAMPLE = Path(__file__).resolve().parents[2] / "samples/calculator"


class Files(ProgramTest):
    """Starts that may end by a fault of a file."""

    def assert_verdict(self, grammar: bytes, tree: bytes, aspects: Sequence[bytes], told: str) -> None:
        """The files are refused with this text, where it isn't empty, and else accepted."""
        names = ["g.ast", "t.txt", *ASPECTS[:len(aspects)]]
        for name, text in zip(names, [grammar, tree, *aspects]):
            (self.folder / name).write_bytes(text)
        self.assertEqual(ended(self.begin(names)), (1, b"", f"{told}\n".encode()) if told else (0, b"", b""))

    def test_files_are_looked_at_one_after_the_other(self) -> None:
        for row in ROWS:
            with self.subTest(row=row):
                self.assert_verdict(*row)

    def test_a_front_of_a_tree_is_no_tree(self) -> None:
        grammar, text, aspects = ((SAMPLE / it).read_bytes() for it in ("calc.ast", "tree.txt", "calc.jrag"))
        tree = text.rstrip(b"\n")
        self.assert_verdict(grammar, tree, [aspects], "")
        for length in range(len(tree)):
            with self.subTest(length=length):
                self.assert_verdict(grammar, tree[:length], [aspects], "t.txt: F1 syntax")


class Unreadable(ProgramTest):
    """Files that can't be read: the system's reason stands on the next line."""

    def assert_unread(self, name: str, reason: str) -> None:
        """Where the tree has this name, nothing is served for this reason."""
        told = f"{name}: read fault\n{reason}\n".encode()
        self.assertEqual(ended(self.begin(["sum.ast", name, "sum.jrag"])), (3, b"", told))

    def test_the_reasons_of_the_system(self) -> None:
        (self.folder / "folder").mkdir()
        (self.folder / "itself").symlink_to("itself")
        with socket.socket(socket.AF_UNIX) as bound:
            bound.bind(str(self.folder / "bound"))
        for name, reason in (
                ("nosuch", "No such file or directory"), ("folder", "Is a directory"), ("sum.txt/x", "Not a directory"),
                ("itself", "Too many levels of symbolic links"), ("n" * 256, "File name too long"), ("bound", "No such device or address")):
            with self.subTest(name):
                self.assert_unread(name, reason)

    @unittest.skipIf(os.geteuid() == 0, "root may read each file")
    def test_a_file_that_this_user_may_not_read(self) -> None:
        (self.folder / "closed").touch(0)
        self.assert_unread("closed", "Permission denied")
