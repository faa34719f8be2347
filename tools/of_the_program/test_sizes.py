"""How many nodes a tree may have, by --nodes and without it, and how many bytes the file of one."""
from typing import Sequence

from tools.of_the_program.runs import SECONDS, End, ProgramTest

USUAL, MOST = 65_536, 16_777_216
USUAL_BYTES, BYTES_A_NODE = 4_194_304, 64
FILES = {
    "row.ast": "Row ::= Item*;\nItem ::= <ID>;\n",
    "row.jrag": "aspect R {\n  syn int Row.many() = getNumItem();\n  inh lazy int Item.at();\n  eq Row.getItem(int i).at() = i;\n"
                "  syn lazy int Row.all() = sum (i : getItemList()) { i.at() };\n}\n",
}
# What a list takes of a file beside its elements, and an element beside its text.
FRAME, ELEMENT = len("Row([])"), len('Item(""),')
TEXT = 4_096
TOO_MANY = (1, b"", b"row.txt: F12 limit\n")


def row(nodes: int) -> str:
    """A tree of so many nodes."""
    return "Row([" + ",".join(['Item("a")'] * (nodes - 1)) + "])"


def row_of_bytes(count: int) -> str:
    """A tree of few nodes whose file has so many bytes."""
    whole, left = divmod(count + 1 - FRAME, TEXT + ELEMENT)
    # The last two elements share what is left, so that neither is longer than a text may be.
    left += TEXT + ELEMENT
    lengths = [TEXT] * (whole - 1) + [left // 2 - ELEMENT, left - left // 2 - ELEMENT]
    return "Row([" + ",".join(f'Item("{"a" * it}")' for it in lengths) + "])"


class OfRows(ProgramTest):
    """A test over rows."""

    def setUp(self) -> None:
        super().setUp()
        for name, text in FILES.items():
            (self.folder / name).write_text(text, encoding="utf-8")

    def told(self, tree: str, options: Sequence[str], lines: Sequence[str] = ()) -> End:
        """What a run over this tree is told for these lines."""
        (self.folder / "row.txt").write_text(tree, encoding="utf-8")
        run = self.begin([*options, "row.ast", "row.txt", "row.jrag"])
        out, err = run.communicate("".join(f"{it}\n" for it in lines).encode(), timeout=SECONDS)
        return run.returncode, out, err

    def assert_replies(self, tree: str, options: Sequence[str], turns: Sequence[str]) -> None:
        """Each line, which stands in front of ` -> `, has the reply behind that."""
        lines, replies = zip(*(it.split(" -> ") for it in turns))
        self.assertEqual(self.told(tree, options, lines), (0, "".join(f"{it}\n" for it in replies).encode(), b""))


class Sizes(OfRows):
    """Trees on both sides of a limit."""

    def assert_full(self, nodes: int, options: Sequence[str]) -> None:
        """A tree of so many nodes is taken and edited, one of one more is refused, and no edit makes it one."""
        last = nodes - 2
        self.assert_replies(row(nodes), options, [
            f"0 ask / many() -> 0 = {last + 1}",
            '0 insert / Item 0 Item("b") -> 0 refused 12 limit',
            f"0 drop /Item:{last} -> 0 ok 1",
            '0 insert / Item 0 Item("b") -> 0 ok 2',
            '1 insert / Item 0 Item("b") -> 1 refused 12 limit',
            '0 token /Item:0 ID "c" -> 0 ok 3',
            f"0 move /Item:0 to / Item {last} -> 0 ok 4",
            f'0 show /Item:{last} -> 0 = Item("c")',
            f"0 ask /Item:{last} at() -> 0 = {last}",
            "0 version -> 0 ok 4",
        ])
        self.assertEqual(self.told(row(nodes + 1), options), TOO_MANY)

    def test_without_the_option_the_limit_is_the_usual_one(self) -> None:
        self.assert_full(USUAL, [])

    def test_the_usual_number_can_be_named(self) -> None:
        self.assert_full(USUAL, [f"--nodes={USUAL}"])

    def test_fewer_nodes_and_more(self) -> None:
        for nodes in 2, 100, USUAL - 1, USUAL + 1, 100_000:
            with self.subTest(nodes=nodes):
                self.assert_full(nodes, ["--nodes", str(nodes)])

    def test_one_node_alone(self) -> None:
        turns = ["0 ask / many() -> 0 = 0", '0 insert / Item 0 Item("b") -> 0 refused 12 limit', "0 set / Row([]) -> 0 ok 1",
                 '0 set / Row([Item("b")]) -> 0 refused 12 limit']
        self.assert_replies(row(1), ["--nodes=1"], turns)
        self.assertEqual(self.told(row(2), ["--nodes=1"]), TOO_MANY)

    def test_terms_of_several_nodes_are_counted_whole(self) -> None:
        """The tree behind the edit is what is counted: a smaller term may come in the place of a larger one."""
        self.assert_replies(row(6), ["--nodes=8"], [
            f"0 set / {row(9)} -> 0 refused 12 limit",
            f"0 set / {row(8)} -> 0 ok 1",
            f"0 set / {row(8)} -> 0 ok 2",
            "0 ask / all() -> 0 = 21",
            '0 insert / Item 0 Item("b") -> 0 refused 12 limit',
            f"0 set / {row(3)} -> 0 ok 3",
            "0 ask / all() -> 0 = 1",
        ])

    def test_a_million_nodes_are_asked_and_edited(self) -> None:
        last = 999_998
        self.assert_replies(row(last + 2), [f"--nodes={MOST}"], [
            f"0 ask / many() -> 0 = {last + 1}",
            f"0 mark m /Item:{last} -> 0 ok 0",
            f"0 ask $m at() -> 0 = {last}",
            f'0 set /Item:{last} Item("b") -> 0 ok 1',
            "0 where m -> 0 refused 3 mark",
            '0 insert / Item 0 Item("c") -> 0 ok 2',
            f'0 show /Item:{last + 1} -> 0 = Item("b")',
            f"0 move /Item:0 to / Item {last + 1} -> 0 ok 3",
            f"0 ask /Item:{last + 1} at() -> 0 = {last + 1}",
            f"0 drop /Item:{last + 1} -> 0 ok 4",
            f"0 ask / many() -> 0 = {last + 1}",
        ])

    def test_all_sessions_and_connections_have_the_one_limit(self) -> None:
        (self.folder / "row.txt").write_text(row(4), encoding="utf-8")
        insert = b'%d insert / Item 0 Item("b")\n'
        sent = [insert % 0, insert % 1 + b"1 drop /Item:0\n", insert % 2]
        received, end = self.served(["--nodes=5", "row.ast", "row.txt", "row.jrag"], [(it, False) for it in sent])
        self.assertEqual(received, [b"0 ok 1\n", b"1 refused 12 limit\n1 ok 2\n", b"2 ok 3\n"])
        self.assertEqual(end, (0, b"", b""))


class Bytes(OfRows):
    """Files of trees on both sides of what a file may have."""

    def assert_bytes(self, most: int, options: Sequence[str]) -> None:
        """A file of so many bytes is taken, and one of one more is refused."""
        tree = row_of_bytes(most)
        self.assertEqual(len(tree), most)
        self.assert_replies(tree, options, ["0 version -> 0 ok 0"])
        self.assertEqual(self.told(row_of_bytes(most + 1), options), TOO_MANY)

    def test_a_file_without_the_option(self) -> None:
        self.assert_bytes(USUAL_BYTES, [])

    def test_a_file_of_no_more_nodes_than_the_usual(self) -> None:
        for nodes in 2_000, USUAL:
            with self.subTest(nodes=nodes):
                self.assert_bytes(USUAL_BYTES, [f"--nodes={nodes}"])

    def test_a_file_of_more_nodes(self) -> None:
        for nodes in USUAL + 1, 80_000:
            with self.subTest(nodes=nodes):
                self.assert_bytes(BYTES_A_NODE * nodes, [f"--nodes={nodes}"])

    def test_other_files_have_the_usual_bytes(self) -> None:
        """Comments make a grammar or an aspect file as long as that."""
        for name, code in ("row.ast", "G8"), ("row.jrag", "J11"):
            with self.subTest(name):
                long = FILES[name].ljust(USUAL_BYTES + 1, "\n")
                self.assert_ends(name, long[:-1], (0, b"", b""))
                self.assert_ends(name, long, (1, b"", f"{name}: {code} limit at 1:1\n".encode()))

    def assert_ends(self, name: str, text: str, wanted: End) -> None:
        """With this text of that file, and most nodes allowed, the program ends so."""
        (self.folder / name).write_text(text, encoding="utf-8")
        self.assertEqual(self.told(row(3), [f"--nodes={MOST}"]), wanted)
        (self.folder / name).write_text(FILES[name], encoding="utf-8")
