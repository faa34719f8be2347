"""Runs of the program, in a folder of their own, by pipes and by sockets."""
import os
import socket
import subprocess
import tempfile
import time
import unittest
from pathlib import Path
from typing import Callable, Dict, List, Sequence, Tuple, Union

Run = subprocess.Popen[bytes]
End = Tuple[int, bytes, bytes]
Words = Sequence[Union[str, Path]]
# Bytes that a client sends, and whether it goes away without its replies.
Sent = Tuple[bytes, bool]

FILES = {
    "sum.ast": "Sum ::= Left:Num Right:Num; Num ::= <Value:int>;\n",
    "sum.txt": "Sum(Num(3),Num(4))\n",
    "sum.jrag": "aspect S { syn int Sum.total() = getLeft().getValue() + getRight().getValue() * 2; }\n",
    "more.jrag": "aspect M { syn int Sum.half() = total() / 2; }\n",
    "lazy.jrag": "aspect L { syn lazy int Num.twice() = getValue() * 2; }\n",
    "lines": "0 version\n",
}
# The environment of runs: none.
NOTHING: Dict[str, str] = {}
THREE = ["sum.ast", "sum.txt", "sum.jrag"]
# How long a run may take before a test fails: long, since the machine may have other work.
SECONDS = 300
# How long nothing has to come where nothing may.
QUIET_SECONDS = 0.3


def ended(run: Run) -> End:
    """Status, standard output and standard error of a run, at its end."""
    out, err = run.communicate(timeout=SECONDS)
    return run.returncode, out, err


def until(run: Run, test: Callable[[], bool]) -> None:
    """Waits until that holds of the run. AssertionError where it doesn't in time, or the run ends."""
    end = time.monotonic() + SECONDS
    while not test():
        if time.monotonic() > end or run.poll() is not None:
            raise AssertionError("there is no socket")
        time.sleep(0.01)


def connected(path: str, run: Run) -> socket.socket:
    """A stream that is connected as soon as the socket is there. AssertionError where the run ends before."""
    stream = socket.socket(socket.AF_UNIX)
    stream.settimeout(SECONDS)

    def is_connected() -> bool:
        try:
            stream.connect(path)
        except OSError:
            return False
        return True

    until(run, is_connected)
    return stream


def all_of(stream: socket.socket) -> bytes:
    """What is received on a stream on which no more is sent."""
    with stream:
        stream.shutdown(socket.SHUT_WR)
        return b"".join(iter(lambda: stream.recv(4096), b""))


def is_listened_on(path: str) -> bool:
    """Whether a socket with that path is listened on, as the system tells without a connection."""
    rows = [line.split() for line in Path("/proc/net/unix").read_text(errors="replace").splitlines()]
    return any(row[-1] == path and row[3] == "00010000" for row in rows)


class ProgramTest(unittest.TestCase):
    """A test of the program that the variable ATTRD names, in a folder with FILES."""

    maxDiff = None

    def setUp(self) -> None:
        folder = tempfile.TemporaryDirectory(prefix="attrd-program-")
        self.addCleanup(folder.cleanup)
        self.program, self.folder = Path(os.environ["ATTRD"]).resolve(), Path(folder.name)
        self.path = str(self.folder / "s")
        for name, text in FILES.items():
            (self.folder / name).write_text(text)

    def begin(self, words: Words, **environment: str) -> Run:
        """A run with these words and, but for these, no environment. It is killed at the test's end, should it go on."""
        run = subprocess.Popen([self.program, *words], cwd=self.folder, env=environment,
                               stdin=subprocess.PIPE, stdout=subprocess.PIPE, stderr=subprocess.PIPE)
        self.addCleanup(self.kill, run)
        return run

    @staticmethod
    def kill(run: Run) -> None:
        """Ends the run, and lets its streams go."""
        run.kill()
        run.wait()
        for stream in filter(None, (run.stdin, run.stdout, run.stderr)):
            stream.close()

    def serve(self, *words: str) -> Run:
        """A run that serves the socket at `self.path`, one connection if the words don't say."""
        return self.begin(["--socket", self.path, *words])

    def connect(self, run: Run) -> socket.socket:
        """A connection to the run's socket, which is closed at the test's end."""
        stream = connected(self.path, run)
        self.addCleanup(stream.close)
        return stream

    def served(self, words: Sequence[str], sent: Sequence[Sent]) -> Tuple[List[bytes], End]:
        """Serves connections on which these bytes are sent, one after the other. Gives what those received whose clients don't go
        away, and the end of the run."""
        run = self.serve("--connections", str(len(sent)), *words)
        streams = [(self.connect(run), *it) for it in sent]
        # The first connection is open, so that the others wait till their clients have sent all, or are gone.
        for stream, data, goes_away in streams:
            stream.sendall(data)
            if goes_away:
                stream.close()
        received = [all_of(stream) for stream, _, goes_away in streams if not goes_away]
        end = ended(run)
        self.assertFalse(Path(self.path).exists(), "the socket's file is still there")
        return received, end

    def assert_told(self, run: Run, line: bytes, reply: bytes) -> None:
        """By the run's pipes the line has that reply."""
        assert run.stdin and run.stdout
        run.stdin.write(line)
        run.stdin.flush()
        self.assertEqual(run.stdout.readline(), reply)

    def assert_served(self, run: Run, turns: Sequence[Tuple[bytes, bytes]]) -> None:
        """On one connection each line has its reply before the next one is sent."""
        with self.connect(run) as stream, stream.makefile("rb") as replies:
            for line, reply in turns:
                stream.sendall(line)
                self.assertEqual(replies.readline(), reply)

    def assert_no_start(self, path: Union[str, Path], reason: str) -> None:
        """A start at that path ends by a fault of the socket, with the system's reason behind it."""
        self.assertEqual(ended(self.begin(["--socket", path, *THREE])), (3, b"", f"socket fault\n{reason}\n".encode()))
