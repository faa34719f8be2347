"""What the page tells where a file is refused or can't be read: a sentence with the place or the reason, and a status."""
from __future__ import annotations

import os
import shutil
import subprocess
import sys
import tempfile
import unittest
from pathlib import Path
from typing import Tuple

from page_support import CLONE, PYTHONPATH, SECONDS, program

NAMES = ("calc.ast", "tree.txt", "calc.jrag")


class Told(unittest.TestCase):
    def setUp(self) -> None:
        temporary = tempfile.TemporaryDirectory(prefix="attrd-page-test-")
        self.addCleanup(temporary.cleanup)
        self.folder = Path(temporary.name)
        for name in NAMES:
            shutil.copy(CLONE / "samples" / "calculator" / name, self.folder)
        self.tree = self.folder / "tree.txt"

    def told(self) -> Tuple[int, str]:
        """The status of the page, which doesn't come to serve, and what it told."""
        ran = subprocess.run([sys.executable, "-m", "attrd_page", "--no-browser", "--program", program(), *NAMES], cwd=self.folder,
                             capture_output=True, text=True, timeout=SECONDS, env={**os.environ, "PYTHONPATH": os.pathsep.join(PYTHONPATH)})
        return ran.returncode, ran.stderr

    def test_a_tree_whose_lines_end_with_crlf(self) -> None:
        term = self.tree.read_text("utf-8").rstrip("\n")
        self.tree.write_bytes(f"{term}\r\n".encode())
        status, told = self.told()
        self.assertEqual(status, 1)
        place = f"tree.txt:1:{len(term) + 1}"
        self.assertIn(f"{place}: F1 syntax. The file is no term: a carriage return, as of lines that end with CRLF, stands", told)

    def test_a_directory_and_a_file_that_is_not_there(self) -> None:
        self.tree.unlink()
        status, told = self.told()
        self.assertEqual((status, told.splitlines()[0]), (3, "tree.txt: read fault. There is no such file."))
        self.tree.mkdir()
        status, told = self.told()
        self.assertEqual((status, told.splitlines()[0]), (3, "tree.txt: read fault. It is a directory."))


if __name__ == "__main__":
    unittest.main()
