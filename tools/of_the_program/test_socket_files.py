"""What becomes of a socket's file, and of files that stand in its place."""
import os
import socket
import subprocess
from pathlib import Path

from tools.of_the_program.runs import FILES, NOTHING, SECONDS, THREE, ProgramTest, Run, all_of, ended, is_listened_on, until

WELL = (0, b"", b"")
IN_USE = "Address already in use"
VERSION = [(b"0 version\n", b"0 ok 0\n")]


class AtTheStart(ProgramTest):
    """A file that is there when the program starts."""

    def test_a_socket_on_which_nobody_answers_is_taken_over(self) -> None:
        # it waits for another connection, so that it doesn't end by itself before it is killed
        killed = self.serve("--connections", "2", *THREE)
        self.connect(killed).close()
        self.kill(killed)
        self.assertTrue(Path(self.path).is_socket(), "the program that was killed has left no file")
        received, end = self.served(THREE, [(b"0 version\n", False)])
        self.assertEqual(received, [b"0 ok 0\n"])
        self.assertEqual(end, WELL)

    def test_a_socket_that_is_answered_stays(self) -> None:
        """The start that is refused has had a connection of its own, the first one."""
        run = self.serve("--connections", "2", *THREE)
        until(run, lambda: is_listened_on(self.path))
        self.assert_no_start(self.path, IN_USE)
        self.assert_served(run, VERSION)
        self.assertEqual(ended(run), WELL)
        self.assertFalse(Path(self.path).exists(), "the socket's file is still there")

    def test_another_file_stays(self) -> None:
        with socket.socket(socket.AF_UNIX) as left:
            left.bind(str(self.folder / "left"))
        (self.folder / "link").symlink_to("left")
        (self.folder / "folder").mkdir()
        for name in ("sum.txt", "link", "folder"):
            self.assert_no_start(self.folder / name, IN_USE)
        self.assertEqual((self.folder / "sum.txt").read_text(), FILES["sum.txt"])
        self.assertTrue((self.folder / "left").is_socket())
        self.assertTrue((self.folder / "link").is_symlink())
        self.assertTrue((self.folder / "folder").is_dir())

    def test_a_file_that_cannot_be_made_is_a_socket_fault(self) -> None:
        missing = "No such file or directory"
        for path, reason in (("nosuch/s", missing), ("sum.txt/s", "Not a directory"), ("/proc/s", missing), ("s" * 108, "File name too long")):
            with self.subTest(path):
                self.assert_no_start(path, reason)

    def test_a_path_of_107_bytes_is_short_enough(self) -> None:
        self.path = str(self.folder / ("s" * (107 - len(str(self.folder)) - 1)))
        self.assertEqual(self.served(THREE, [(b"0 version\n", False)]), ([b"0 ok 0\n"], WELL))

    def test_the_file_has_the_permissions_that_the_mask_leaves(self) -> None:
        for mask, wanted in ("077", 0o700), ("000", 0o777):
            words = ["/bin/sh", "-c", f'umask {mask}; exec "$0" "$@"', str(self.program), "--socket", self.path, *THREE]
            with self.subTest(mask), subprocess.Popen(words, cwd=self.folder, env=NOTHING) as run:
                stream = self.connect(run)
                self.assertEqual(Path(self.path).stat().st_mode & 0o777, wanted)
                self.assertEqual(all_of(stream), b"")
                self.assertEqual(run.wait(SECONDS), 0)


class AtTheEnd(ProgramTest):
    """A file that took the socket's place meanwhile."""

    def heard(self, run: Run) -> socket.socket:
        """A stream on which one reply has come: the server has looked which file its socket's is by then."""
        stream = self.connect(run)
        stream.sendall(b"0 version\n")
        self.assertEqual(stream.recv(64), b"0 ok 0\n")
        return stream

    def test_the_end_leaves_the_file_of_another_server(self) -> None:
        old = self.serve(*THREE)
        stream = self.heard(old)
        os.remove(self.path)
        new = self.serve(*THREE)
        until(new, Path(self.path).exists)
        self.assertEqual(all_of(stream), b"")
        self.assertEqual(ended(old), WELL)
        self.assert_served(new, VERSION)
        self.assertEqual(ended(new), WELL)
        self.assertFalse(Path(self.path).exists(), "the new server's file is still there")

    def test_the_end_leaves_a_file_that_is_no_socket(self) -> None:
        run, path = self.serve(*THREE), Path(self.path)
        stream = self.heard(run)
        path.unlink()
        path.write_text("mine")
        self.assertEqual(all_of(stream), b"")
        self.assertEqual(ended(run), WELL)
        self.assertEqual(path.read_text(), "mine")
