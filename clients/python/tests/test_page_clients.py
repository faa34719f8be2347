"""docs/CLIENTS.md: its Python runs as it stands there, over the files that it names."""
import contextlib
import io
import os
import re
import shutil
import tempfile
import unittest
from pathlib import Path as FilePath

from attrd.__main__ import main
from attrd.prompt import Prompt
from support import PROGRAM, ROOT, page_files

PAGE = (ROOT / "docs" / "CLIENTS.md").read_text(encoding="utf-8")
COMMENT = re.compile(r"(.*?)(?:^|  +)# (.*)")


def told(block):
    """What the comments of a block say is printed: those behind a `print`, and those in lines of their own."""
    found = [COMMENT.fullmatch(it) for it in block.splitlines()]
    return [it[2] for it in found if it and ("print(" in it[1] or not it[1].strip())]


class Page(unittest.TestCase):
    def setUp(self):
        folder = tempfile.TemporaryDirectory()
        self.addCleanup(folder.cleanup)
        self.addCleanup(os.chdir, os.getcwd())
        os.chdir(folder.name)
        for file in (ROOT / "clients" / "lsp" / "attrd_lsp" / "data").iterdir():
            shutil.copy(file, file.name)
        os.symlink(os.path.abspath(PROGRAM), "attrd")
        tree = re.search(r"^cat > tree.txt << 'END'\n(.*?)^END$", PAGE, re.M | re.S)[1]
        FilePath("tree.txt").write_text(tree, encoding="utf-8")

    def test_its_files_are_those_of_the_tutorial(self):
        for name, text in page_files("TUTORIAL.md").items():
            self.assertEqual(FilePath(name).read_text(encoding="utf-8"), text, name)

    def test_its_python(self):
        names = {}
        try:
            for block in re.findall(r"^```python\n(.*?)^```$", PAGE, re.M | re.S):
                printed = io.StringIO()
                with contextlib.redirect_stdout(printed):
                    exec(compile(block, "docs/CLIENTS.md", "exec"), names)
                self.assertEqual(printed.getvalue().splitlines(), told(block))
        finally:
            names["session"].connection.close()
            names["server"].close()

    def test_its_prompt(self):
        """The prompt answers what stands behind each line that is typed on the page."""
        files = ["kinds.jrag", "names.jrag", "types.jrag", "errors.jrag"]
        with Prompt.start("small.ast", "tree.txt", files, PROGRAM, ["error"]) as prompt:
            count = 0
            for block in re.findall(r"^```text\n(attrd> .*?)^```$", PAGE, re.M | re.S):
                for typed, wanted in re.findall(r"^attrd> (.*)\n((?:(?!attrd> ).*\n)*)", block, re.M):
                    self.assertEqual(f"{prompt.answer(typed)}\n", wanted)
                    count += 1
            self.assertEqual(count, 5)

    def test_its_faults_of_a_tree_file(self):
        """Lines that end with CRLF, and a directory in the place of the file, are told as on the page."""
        wanted = re.search(r"^```text\n(tree\.txt:.*?)^```$", PAGE, re.M | re.S)[1].splitlines()
        tree = FilePath("tree.txt")
        tree.write_bytes(tree.read_bytes().replace(b"\n", b"\r\n"))
        first = self.told_of_the_files(1)
        tree.unlink()
        tree.mkdir()
        self.assertEqual([first, self.told_of_the_files(3)], wanted)

    def told_of_the_files(self, status):
        """The first line that the prompt tells of the page's files, where it ends with that status."""
        printed = io.StringIO()
        with contextlib.redirect_stderr(printed):
            self.assertEqual(main(["--program", "./attrd", "small.ast", "tree.txt", "kinds.jrag"]), status)
        return printed.getvalue().splitlines()[0]

    def test_its_faults(self):
        """The command that tells all faults of `more.jrag` tells what stands below it."""
        aspect, command, wanted = re.search(r"^```text\n(aspect More \{\n.*?)^```\n\n```sh\npython -m attrd (check .*?)\n```\n\n```text\n(.*?)^```$",
                                            PAGE, re.M | re.S).groups()
        FilePath("more.jrag").write_text(aspect, encoding="utf-8")
        printed = io.StringIO()
        with contextlib.redirect_stdout(printed):
            status = main(command.split(" "))
        self.assertEqual((status, printed.getvalue()), (1, wanted))


if __name__ == "__main__":
    unittest.main()
