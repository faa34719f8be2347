"""Streams that bring and take bytes in pieces, as a pipe may at any time: by a library that is loaded first (tools/pieces.c)."""
import os
import subprocess
import tempfile
from typing import Dict, List

from tools.of_the_program.runs import SECONDS, THREE, End, ProgramTest, all_of, ended
from tools.starve import preloading

# How many bytes a read brings at most; the program asks for 8,192.
PIECES = (1, 2, 3, 7, 8_191, 8_192)
# How long a line is at most, and how many reads there are.
LINE, READS = 65_535, 1_000_000_000
QUESTION, ANSWER = b"0 ask / total()\n", b"0 = 11\n"
# Empty lines among others, and a last one without a newline.
LINES = b"0 version\n\n\n" + QUESTION + b"1 token /Left Value 5\n0 show /\n" + QUESTION + b"7 version"
REPLIES = b"0 ok 0\n" + ANSWER + b"1 ok 1\n0 = Sum(Num(5),Num(4))\n0 = 13\n7 ok 1\n"
# The longest line, which has a wrong token, and one that is a byte longer, which is no line.
LONGEST = b'3 token /Left Value "' + b"a" * (LINE - 22) + b'"\n'
LONGER = LONGEST.replace(b"aa", b"aaa", 1)
LONG_LINES = LONGEST + LONGER + QUESTION
LONG_REPLIES = b"3 refused 7 fit\n3 refused 1 syntax\n" + ANSWER


class Pieces(ProgramTest):
    """Pieces of a few bytes."""

    def setUp(self) -> None:
        super().setUp()
        library = tempfile.TemporaryDirectory()
        self.addCleanup(library.cleanup)
        self.library = preloading(library.name, "pieces")

    def answered(self, lines: bytes, **pieces: int) -> End:
        """The end of a run by pipes over these lines."""
        run = self.begin(THREE, **self.library, **in_environment(pieces))
        out, err = run.communicate(lines, timeout=SECONDS)
        return run.returncode, out, err

    def on_a_connection(self, lines: bytes, **pieces: int) -> List[object]:
        """What one connection receives that sends these lines, and the end of the run."""
        run = self.begin(["--socket", self.path, *THREE], **self.library, **in_environment(pieces))
        stream = self.connect(run)
        stream.sendall(lines)
        return [all_of(stream), ended(run)]

    def test_reads_of_a_few_bytes(self) -> None:
        self.assertEqual(len(LONGEST), LINE + 1)
        for size in PIECES:
            with self.subTest(size=size):
                self.assertEqual(self.answered(LINES, READ_PIECE=size), (0, REPLIES, b""))
                self.assertEqual(self.answered(LONG_LINES, READ_PIECE=size), (0, LONG_REPLIES, b""))
                self.assertEqual(self.on_a_connection(LINES, READ_PIECE=size), [REPLIES, (0, b"", b"")])

    def test_writes_that_take_a_few_bytes(self) -> None:
        for size in PIECES:
            with self.subTest(size=size):
                self.assertEqual(self.answered(LINES, WRITE_PIECE=size), (0, REPLIES, b""))
                self.assertEqual(self.on_a_connection(LINES, WRITE_PIECE=size), [REPLIES, (0, b"", b"")])

    def test_a_write_that_takes_no_byte_is_a_write_fault(self) -> None:
        self.assertEqual(self.answered(LINES, WRITE_PIECE=0), (3, b"", b"write fault\n"))
        self.assertEqual(self.on_a_connection(LINES, WRITE_PIECE=0), [b"", (3, b"", b"write fault\n")])
        self.assertEqual(self.answered(b"\n", WRITE_PIECE=0), (0, b"", b""))

    def test_reads_end_at_their_limit(self) -> None:
        """Two reads bring lines, several bytes each: behind them a third one is left, which finds the end, or none."""
        if "ATTRD_READS" not in os.environ:
            self.skipTest("a billion reads take half a minute: ATTRD_READS=1")
        size = len(QUESTION) + 4
        lines = (QUESTION + b"0 version\n" + QUESTION)[:2 * size]
        told = ANSWER + b"0 ok 0\n"
        runs = [self.begin(THREE, **self.library, NEWLINES=str(READS - left), READ_PIECE=str(size)) for left in (3, 2)]
        for run in runs:
            assert run.stdin
            run.stdin.write(lines)
            run.stdin.close()
            run.stdin = None
        self.assertEqual([at_last(run) for run in runs], [(0, told + b"0 refused 1 syntax\n", b""), (3, told, b"too many reads\n")])


def in_environment(pieces: Dict[str, int]) -> Dict[str, str]:
    """The sizes of pieces as the library reads them."""
    return {name: str(size) for name, size in pieces.items()}


def at_last(run: "subprocess.Popen[bytes]") -> End:
    """Status, standard output and standard error of a run that takes its time."""
    out, err = run.communicate(timeout=SECONDS)
    return run.returncode, out, err
