"""Sessions whose reads or writes fail, at each call in turn (tools/pieces.c): a read or a write is of one byte where calls are counted."""
import contextlib
import os
import socket
import subprocess
import tempfile
from typing import Dict, List, NamedTuple, Tuple

from tools.of_the_program.keeping import KeepingTest
from tools.of_the_program.runs import SECONDS, End, all_of, ended
from tools.of_the_program.sessions import CALCULATOR
from tools.starve import preloading

# Each how many of the calls fails.
EVERY = int(os.environ.get("ATTRD_CALLS_EVERY", "1"))


class Session(NamedTuple):
    """Lines, and a reply to each."""

    lines: str
    replies: str


# Two questions, which are answered at the end of the input, and their answers.
POSTS = """0 post /Block/Stmt:1/Expr value()
1 post /Block/Stmt:1/Expr/Right value()
"""
FIRST, SECOND = b"0 done 1 0 = 3\n", b"1 done 2 0 = 2\n"
SESSIONS = [
    Session("""0 ask /Block/Stmt:1/Expr value()
0 token /Block/Stmt:1/Expr/Right Value 5
0 ask /Block/Stmt:1/Expr value()
""", "0 = 3\n0 ok 1\n0 = 6\n"),
    Session("""1 mark u /Block/Stmt:1/Expr/Left
2 insert /Block Stmt 0 Decl("y",-)
1 ask $u decl()
1 where u
2 where u
""", "1 ok 0\n2 ok 1\n1 = /Block/Stmt:1\n1 = /Block/Stmt:2/Expr/Left\n2 refused 3 mark\n"),
    Session("0 version\n0 version\n", "0 ok 0\n0 ok 0\n"),
    Session("0 post /Block/Stmt:1/Expr value()\n0 wait 1\n", "0 open 1\n0 done 1 0 = 3\n"),
    Session(POSTS, "0 open 1\n1 open 2\n" + (FIRST + SECOND).decode()),
]
# How many reads of one byte and writes of one byte succeed on the first connection, and what the next one is told, which sends nothing:
# the answers that the first one didn't begin to write.
BROKEN: List[Tuple[Dict[str, int], bytes]] = [
    ({"READS": 0}, b""),
    ({"READS": 33}, b""),
    ({"READS": 34}, FIRST),
    ({"READS": 73}, FIRST),
    ({"READS": 74}, FIRST + SECOND),
    ({"WRITES": 0}, FIRST),
    ({"WRITES": 8}, FIRST),
    ({"WRITES": 9}, FIRST + SECOND),
    ({"WRITES": 17}, FIRST + SECOND),
    ({"WRITES": 18}, SECOND),
    ({"WRITES": 32}, SECOND),
    ({"WRITES": 33}, b""),
    ({"WRITES": 47}, b""),
    ({}, b""),
]


class FailingCalls(KeepingTest):
    """Reads and writes that fail."""

    def setUp(self) -> None:
        super().setUp()
        library = tempfile.TemporaryDirectory()
        self.addCleanup(library.cleanup)
        self.library, self.files = preloading(library.name, "pieces"), self.write(CALCULATOR)

    def ended(self, lines: str, **calls: int) -> End:
        """The end of a run over these lines with such calls."""
        environment = {**self.library, **{name: str(it) for name, it in calls.items()}}
        run = subprocess.run([self.program, *self.files], cwd=self.folder, env=environment, input=lines.encode(), capture_output=True,
                             timeout=SECONDS)
        return run.returncode, run.stdout, run.stderr

    def test_a_failed_read_leaves_whole_lines(self) -> None:
        for lines, replies in SESSIONS:
            told = replies.splitlines(keepends=True)
            for reads in range(0, len(lines) + 1, EVERY):
                whole = "".join(told[:lines[:reads].count("\n")])
                end = self.ended(lines, READ_PIECE=1, READS=reads)
                self.assertEqual(end, (3, whole.encode(), b"read fault\n"), reads)

    def test_a_failed_write_leaves_a_front(self) -> None:
        for lines, replies in SESSIONS:
            for writes in range(0, len(replies), EVERY):
                for nothing in (0, 1):
                    end = self.ended(lines, WRITE_PIECE=1, WRITES=writes, NOTHING=nothing)
                    self.assertEqual(end, (3, replies[:writes].encode(), b"write fault\n"), writes)

    def test_without_a_failure_all_is_told(self) -> None:
        for lines, replies in SESSIONS:
            whole = (0, replies.encode(), b"")
            self.assertEqual(self.ended(lines, READ_PIECE=1, READS=len(lines) + 1), whole)
            self.assertEqual(self.ended(lines, WRITE_PIECE=1, WRITES=len(replies)), whole)

    def test_the_next_connection_goes_on_with_open_questions(self) -> None:
        for calls, told in BROKEN:
            environment = {name: str(it) for name, it in {"READ_PIECE": 1, "WRITE_PIECE": 1, **calls}.items()}
            run = self.begin(["--socket", self.path, "--connections", "2", *self.files], **self.library, **environment)
            first, second = self.connect(run), self.connect(run)
            # A program whose reads fail may have closed the connection before anything is sent.
            with contextlib.suppress(OSError):
                first.sendall(POSTS.encode())
                first.shutdown(socket.SHUT_WR)
            self.assertEqual(all_of(second), told, calls)
            fault = "".join(f"{kind.lower()[:-1]} fault\n" for kind in calls)
            self.assertEqual(ended(run), (3 if calls else 0, b"", fault.encode()), calls)
