"""Real streams: clients that wait for each reply, and streams that fail."""
import os
import select
import subprocess
import tempfile
from pathlib import Path
from typing import IO, Tuple, Union

from tools.of_the_program.runs import NOTHING, QUIET_SECONDS, SECONDS, THREE, ProgramTest, ended
from tools.starve import refusing

WELL = (0, b"", b"")
READ_FAULT = (3, b"", b"read fault\n")

# Lines, each with the reply that comes before the next one is sent.
BY_TURNS = [
    (b"0 ask / total()\n", b"0 = 11\n"),
    (b"1 token /Left Value 5\n", b"1 ok 1\n"),
    (b"\n0 ask / total()\n", b"0 = 13\n"),
    (b"x\n", b"? refused 1 syntax\n"),
]


class Waiting(ProgramTest):
    """Clients that wait, and streams that stay open."""

    def test_a_client_that_waits_for_each_reply_has_it_by_a_pipe(self) -> None:
        run = self.begin(THREE)
        for line, reply in BY_TURNS:
            self.assert_told(run, line, reply)
        self.assertEqual(ended(run), WELL)

    def test_a_client_that_waits_for_each_reply_has_it_by_a_socket(self) -> None:
        run = self.serve(*THREE)
        self.assert_served(run, BY_TURNS)
        self.assertEqual(ended(run), WELL)

    def test_an_idle_stream_gives_no_turns(self) -> None:
        run = self.begin([*THREE, "more.jrag"])
        for line, reply in (b"0 post / half()\n", b"0 open 1\n"), (b"0 version\n", b"0 ok 0\n"):
            self.assert_told(run, line, reply)
            self.assertEqual(select.select([run.stdout], [], [], QUIET_SECONDS)[0], [], "more comes")
        self.assertEqual(ended(run), (0, b"0 done 1 0 = 5\n", b""))


class Failing(ProgramTest):
    """Streams that fail, each with what the program tells of it."""

    def streamed(self, source: Path, target: Union[int, IO[bytes]]) -> Tuple[int, bytes]:
        """Status and standard error of a run from that file to that one."""
        given = os.open(source, os.O_RDONLY)
        try:
            run = subprocess.run([self.program, *THREE], cwd=self.folder, env=NOTHING, stdin=given, stdout=target,
                                 stderr=subprocess.PIPE, timeout=SECONDS)
        finally:
            os.close(given)
        return run.returncode, run.stderr

    def test_a_folder_as_input_is_a_read_fault(self) -> None:
        self.assertEqual(self.streamed(self.folder, subprocess.DEVNULL), (3, b"read fault\n"))

    def test_a_full_device_as_output_is_a_write_fault(self) -> None:
        with open("/dev/full", "wb") as full:
            self.assertEqual(self.streamed(self.folder / "lines", full), (3, b"write fault\n"))

    def test_an_output_that_nobody_reads_is_a_write_fault(self) -> None:
        reader, writer = os.pipe()
        os.close(reader)
        self.addCleanup(os.close, writer)
        self.assertEqual(self.streamed(self.folder / "lines", writer), (3, b"write fault\n"))

    def test_an_input_that_is_closed_is_a_read_fault(self) -> None:
        run = subprocess.run(["/bin/sh", "-c", 'exec "$0" "$@" <&-', self.program, *THREE], cwd=self.folder, env=NOTHING,
                             capture_output=True, timeout=SECONDS)
        self.assertEqual((run.returncode, run.stdout, run.stderr), READ_FAULT)

    def test_an_input_that_does_not_block_is_a_read_fault(self) -> None:
        reader, writer = os.pipe()
        self.addCleanup(os.close, reader)
        self.addCleanup(os.close, writer)
        os.set_blocking(reader, False)
        run = subprocess.run([self.program, *THREE], cwd=self.folder, env=NOTHING, stdin=reader, capture_output=True, timeout=SECONDS)
        self.assertEqual((run.returncode, run.stdout, run.stderr), READ_FAULT)

    def test_no_memory_at_the_start_is_told(self) -> None:
        with tempfile.TemporaryDirectory() as folder:
            run = self.begin(THREE, **refusing(folder), REFUSE="1")
            self.assertEqual(ended(run), (4, b"", b"refused\nmemory\n"))
