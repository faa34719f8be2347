"""Replies that are sent on together: `--gather`."""
import os
import socket
import subprocess
import tempfile
from typing import List

from tools.of_the_program.runs import NOTHING, SECONDS, THREE, ProgramTest, all_of, ended
from tools.of_the_program.test_pieces import LINES, LONG_LINES, LONG_REPLIES, PIECES, REPLIES
from tools.of_the_program.test_streams import BY_TURNS, WELL
from tools.starve import preloading

WORDS = ["--gather", *THREE, "lazy.jrag"]
VERSION, OK = b"0 version\n", b"0 ok 0\n"
ASK, SIX = b"0 ask /Left twice()\n", b"0 = 6\n"
# Lines that come together, and what each write has then. What isn't kept, what is never kept and what waits are asked for behind
# what was told before, and so is everything while a question is open.
WRITTEN = [
    (VERSION * 3, [OK * 3]),
    (VERSION + b"\n\n" + VERSION, [OK, OK]),
    (VERSION + b"0 vers", [OK, b"0 refused 1 syntax\n"]),
    (b"\n\n0 version\n", [OK]),
    (VERSION + ASK + ASK + VERSION, [OK, SIX * 2 + OK]),
    (VERSION + b"0 ask / total()\n" * 2, [OK, b"0 = 11\n", b"0 = 11\n"]),
    (ASK + b"0 at 0 ask /Left twice()\n0 at 1 ask /Left twice()\n", [SIX * 2 + b"0 refused 2 stale 0\n"]),
    (b"0 ask /None x()\n0 ask / none()\n0 wait 7\n", [b"0 refused 4 path\n0 refused 13 attribute\n", b"0 refused 15 question\n"]),
    (VERSION + b"0 token /Left Value 5\n0 show /\n", [b"0 ok 0\n0 ok 1\n0 = Sum(Num(5),Num(4))\n"]),
    (VERSION + b"0 post / total()\n" + VERSION, [b"0 ok 0\n0 open 1\n", b"0 done 1 0 = 11\n", OK]),
]
# More than the buffer holds, of the lines of one read.
MANY, SHOWN = 900, b"0 = Sum(Num(3),Num(4))\n"


class Gathering(ProgramTest):
    """What is sent on, and when."""

    def writes(self, lines: bytes, words: List[str]) -> List[bytes]:
        """What each write of a run with these words has that reads all of these lines at once."""
        ours, theirs = socket.socketpair(socket.AF_UNIX, socket.SOCK_SEQPACKET)
        with ours, theirs, tempfile.TemporaryFile() as given:
            ours.settimeout(SECONDS)
            given.write(lines)
            given.seek(0)
            run = subprocess.run([self.program, *words], cwd=self.folder, env=NOTHING, stdin=given, stdout=theirs.fileno(),
                                 stderr=subprocess.PIPE, timeout=SECONDS)
            self.assertEqual((run.returncode, run.stderr), (0, b""))
            theirs.close()
            return list(iter(lambda: ours.recv(1 << 16), b""))

    def test_lines_that_come_together_are_answered_together(self) -> None:
        for lines, wanted in WRITTEN:
            with self.subTest(lines):
                self.assertEqual(self.writes(lines, WORDS), wanted)

    def test_without_it_each_reply_is_written_alone(self) -> None:
        for lines, wanted in WRITTEN:
            with self.subTest(lines):
                self.assertEqual(self.writes(lines, WORDS[1:]), b"".join(wanted).splitlines(keepends=True))

    def test_a_full_buffer_is_written(self) -> None:
        written = self.writes(b"0 show /\n" * MANY, WORDS)
        self.assertEqual(b"".join(written), SHOWN * MANY)
        self.assertTrue(all(len(it) <= 8_192 for it in written))
        self.assertLessEqual(len(written), 4)


class Same(ProgramTest):
    """Replies that are the same with it."""

    def setUp(self) -> None:
        super().setUp()
        library = tempfile.TemporaryDirectory()
        self.addCleanup(library.cleanup)
        self.library = preloading(library.name, "pieces")

    def test_a_client_that_waits_for_each_reply_has_it_by_a_pipe(self) -> None:
        run = self.begin(["--gather", *THREE])
        for line, reply in BY_TURNS:
            self.assert_told(run, line, reply)
        self.assertEqual(ended(run), WELL)

    def test_a_client_that_waits_for_each_reply_has_it_by_a_socket(self) -> None:
        run = self.serve("--gather", *THREE)
        self.assert_served(run, BY_TURNS)
        self.assertEqual(ended(run), WELL)

    def test_replies_to_pieces_are_the_same(self) -> None:
        for size in PIECES:
            for name in "READ_PIECE", "WRITE_PIECE":
                for lines, replies in (LINES, REPLIES), (LONG_LINES, LONG_REPLIES):
                    with self.subTest(size=size, name=name):
                        run = self.begin(["--gather", *THREE], **self.library, **{name: str(size)})
                        out, err = run.communicate(lines, timeout=SECONDS)
                        self.assertEqual((run.returncode, out, err), (0, replies, b""))

    def test_connections_one_after_the_other(self) -> None:
        received, end = self.served(["--gather", *THREE], [(LINES, False), (b"", False), (VERSION, False)])
        self.assertEqual((received, end), ([REPLIES, b"", b"0 ok 1\n"], WELL))

    def test_a_writer_that_fails_is_a_write_fault(self) -> None:
        """What was written is a front of what was told."""
        with open("/dev/full", "wb") as full:
            run = subprocess.Popen([self.program, "--gather", *THREE], cwd=self.folder, env=NOTHING, stdin=subprocess.PIPE, stdout=full,
                                   stderr=subprocess.PIPE)
            self.addCleanup(self.kill, run)
            _, err = run.communicate(LINES, timeout=SECONDS)
        self.assertEqual((run.returncode, err), (3, b"write fault\n"))
        run = self.begin(["--gather", *THREE], **self.library, WRITE_PIECE="0")
        self.assertEqual((run.communicate(LINES, timeout=SECONDS), run.returncode), ((b"", b"write fault\n"), 3))

    def test_a_pipe_that_breaks_in_the_middle_is_a_write_fault(self) -> None:
        reader, writer = os.pipe()
        run = subprocess.Popen([self.program, "--gather", *THREE], cwd=self.folder, env=NOTHING, stdin=subprocess.PIPE, stdout=writer,
                               stderr=subprocess.PIPE)
        self.addCleanup(self.kill, run)
        os.close(writer)
        assert run.stdin
        run.stdin.write(VERSION * 3)
        run.stdin.flush()
        self.assertEqual(os.read(reader, 100), OK * 3)
        os.close(reader)
        _, err = run.communicate(VERSION * 3, timeout=SECONDS)
        self.assertEqual((run.returncode, err), (3, b"write fault\n"))

    def test_a_client_that_goes_away_ends_its_connection_alone(self) -> None:
        received, end = self.served(["--gather", *THREE], [(VERSION * 2, False), (VERSION * 900, True), (VERSION, False)])
        self.assertEqual((received, end[0]), ([OK * 2, OK], 3))

    def test_it_ends_with_all_replies(self) -> None:
        run = self.serve("--gather", *THREE)
        stream = self.connect(run)
        stream.sendall(VERSION * 50 + b"0 vers")
        self.assertEqual(all_of(stream), OK * 50 + b"0 refused 1 syntax\n")
        self.assertEqual(ended(run), WELL)
