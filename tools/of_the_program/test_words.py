"""The words of the command line."""
from typing import List

from tools.of_the_program.runs import SECONDS, THREE, ProgramTest, ended
from tools.sources import ROOT

# Words that ask for nothing that can be served, and what their text says.
REFUSED = [
    (["--connections", "0", *THREE], ["0 is not in 1..=1000"]),
    (["--connections", "1001", *THREE], ["1001 is not in 1..=1000"]),
    (["--slice", "0", *THREE], ["0 is not in 1..=1000000"]),
    (["--slice=1000001", *THREE], ["1000001 is not in 1..=1000000"]),
    (["--slice=1", "--slice=1", *THREE], ["cannot be used multiple times"]),
    (["--keep", "0", *THREE], ["0 is not in 1..=1000000000"]),
    (["--keep=1000000001", *THREE], ["1000000001 is not in 1..=1000000000"]),
    (["--keep=many", *THREE], ["invalid value 'many' for '--keep <N>'"]),
    (["--keep=1", "--keep=1", *THREE], ["cannot be used multiple times"]),
    (["--nodes", "0", *THREE], ["0 is not in 1..=16777216"]),
    (["--nodes=16777217", *THREE], ["16777217 is not in 1..=16777216"]),
    (["--nodes=many", *THREE], ["invalid value 'many' for '--nodes <N>'"]),
    (["--nodes=", *THREE], ["for '--nodes <N>'"]),
    (["--nodes=7", "--nodes=7", *THREE], ["cannot be used multiple times"]),
    (["--nodes"], ["a value is required for '--nodes <N>'"]),
    (["--forms", "nta", *THREE], ["invalid value 'nta' for '--forms <WORDS>'", "[possible values: circular, jastadd]"]),
    (["--forms=circular,nta", *THREE], ["invalid value 'nta' for '--forms <WORDS>'"]),
    (["--forms=circular,", *THREE], ["invalid value '' for '--forms <WORDS>'"]),
    (["--forms=Circular", *THREE], ["invalid value 'Circular' for '--forms <WORDS>'"]),
    (["--forms= circular", *THREE], ["invalid value ' circular' for '--forms <WORDS>'"]),
    (["--forms=JastAdd", *THREE], ["invalid value 'JastAdd' for '--forms <WORDS>'"]),
    (["--forms=jastadd,nta", *THREE], ["invalid value 'nta' for '--forms <WORDS>'"]),
    (["--forms=", *THREE], ["a value is required for '--forms <WORDS>'"]),
    (["--forms"], ["a value is required for '--forms <WORDS>'"]),
    (["--forms=nta"], ["<ASPECT>"]),
    (["--forms=circular", "--forms=circular", *THREE], ["cannot be used multiple times"]),
    (["--cut-off", "--cut-off", *THREE], ["cannot be used multiple times"]),
    (["--cut-off=1", *THREE], ["unexpected value '1' for '--cut-off'"]),
    (["--gather", "--gather", *THREE], ["cannot be used multiple times"]),
    (["--gather=1", *THREE], ["unexpected value '1' for '--gather'"]),
    (["sum.ast", "sum.txt"], ["<ASPECT>"]),
    (["--work", "--work", *THREE], ["cannot be used multiple times"]),
    (["--port", *THREE], ["unexpected argument '--port'"]),
    (["--socket=", *THREE], ["a value is required for '--socket <PATH>'"]),
]
HELP = ["--socket <PATH>", "--connections <N>", "--slice <N>", "--keep <N>", "--nodes <N>", "[default: 65536]", "--forms <WORDS>",
        "[possible values: circular, jastadd]", "--cut-off", "--gather", "--work", "--version", "<GRAMMAR>", "<TREE>", "<ASPECT>", "$ attrd calc.ast", "ask PLACE", "move PLACE", "version ", "wait NUMBER"]

# Two values are kept when an edit comes that touches the first one, and then the second is asked for anew.
KEPT_BY_TURNS = b"0 ask /Left twice()\n0 ask /Right twice()\n0 token /Left Value 5\n0 ask /Right twice()\n"


class Words(ProgramTest):
    """Words that are refused, and what the others do."""

    def assert_refused(self, words: List[str], texts: List[str]) -> None:
        status, out, err = ended(self.begin(words))
        self.assertEqual((status, out), (2, b""))
        for text in texts:
            self.assertIn(text, err.decode())

    def test_words_that_are_refused_are_told(self) -> None:
        for words, texts in REFUSED:
            with self.subTest(" ".join(words)):
                self.assert_refused(words, texts)

    def test_the_help_has_all_options_and_commands(self) -> None:
        self.assert_refused(["--help"], HELP)

    def test_the_version_is_that_of_its_file(self) -> None:
        """The man page has it, too, in its first line."""
        wanted = f"attrd {(ROOT / 'VERSION').read_text()}"
        for word in "--version", "-V":
            self.assertEqual(ended(self.begin([word])), (2, b"", wanted.encode()))
        self.assertIn(f'"{wanted.strip()}"', (ROOT / "docs/attrd.1").read_text().splitlines()[0])

    def test_options_stand_anywhere(self) -> None:
        received, end = self.served(["--work", *THREE, "more.jrag"], [(b"0 ask / half()\n", False)])
        self.assertEqual(received, [b"0 = 5\n"])
        self.assertEqual(end, (0, b"", b"work 0\n"))


class CutOff(ProgramTest):
    """What is kept again where nothing that it was found from has another value."""

    def test_replies_and_work_are_the_same(self) -> None:
        sent = KEPT_BY_TURNS + b"0 token /Left Value 3\n0 ask /Left twice()\n0 ask /Right twice()\n"
        told = []
        for options, made in ("", b""), ("--cut-off", b"made 3\n"), ("--cut-off --keep 2", b"made 3\n"):
            run = self.begin([*options.split(), "--work", *THREE, "lazy.jrag"])
            out, err = run.communicate(sent, timeout=SECONDS)
            self.assertTrue(err.endswith(made))
            told.append((out, err.removesuffix(made), run.returncode))
        self.assertEqual(told[1:], told[:1] * 2)


class Bounds(ProgramTest):
    """What an edit forgets that finds more values than the bound."""

    def test_an_edit_that_finds_more_than_the_bound_forgets_all(self) -> None:
        """The bound, and how many values were evaluated then."""
        for bound, work in ("", 2), ("--keep 2", 2), ("--keep=1000000000", 2), ("--keep 1", 3):
            with self.subTest(bound):
                run = self.begin([*bound.split(), "--work", *THREE, "lazy.jrag"])
                out, err = run.communicate(KEPT_BY_TURNS, timeout=SECONDS)
                self.assertEqual(out, b"0 = 6\n0 = 8\n0 ok 1\n0 = 8\n")
                self.assertEqual((run.returncode, err), (0, f"work {work}\n".encode()))

    def test_a_bound_holds_over_connections(self) -> None:
        lines = KEPT_BY_TURNS.splitlines(keepends=True)
        sent = [(b"".join(lines[:2]), False), (b"".join(lines[2:]), False)]
        received, end = self.served(["--keep=1", "--work", *THREE, "lazy.jrag"], sent)
        self.assertEqual(received, [b"0 = 6\n0 = 8\n", b"0 ok 1\n0 = 8\n"])
        self.assertEqual(end, (0, b"", b"work 3\n"))
