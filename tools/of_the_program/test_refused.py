"""Edits that are refused, and one that isn't, where each node is marked: a mark shows where the node of its number is."""
from typing import List

from tools.of_the_program.keeping import KeepingTest
from tools.of_the_program.sessions import CALCULATOR

PATHS = ["/", "/Block", "/Block/Stmt:0", "/Block/Stmt:0/Init", "/Block/Stmt:1", "/Block/Stmt:1/Expr", "/Block/Stmt:1/Expr/Left",
         "/Block/Stmt:1/Expr/Right"]
TREE = 'Program(Block([Decl("x",Num(1)),Print(Add(Use("x"),Num(2)))]))'
# Edits that are refused, and why.
REFUSED = {
    # a number as an element of a block, and in the declaration, which has one
    "insert /Block Stmt 0 Num(1)": "7 fit",
    "put /Block/Stmt:0 Init Num(1)": "9 taken",
    # a plain child
    "drop /Block": "10 fixed",
    # a declaration more, behind an element that isn't there
    'insert /Block Stmt 3 Decl("x",Num(1))': "8 index",
}
# The declaration goes, and the other statement is the first one.
DROP, LEFT = "drop /Block/Stmt:0", 'Program(Block([Print(Add(Use("x"),Num(2)))]))'
GONE = ("/Block/Stmt:0", "/Block/Stmt:0/Init")


class Refused(KeepingTest):
    """What an edit leaves of tree and numbers."""

    def assert_leaves(self, edit: str, reply: str, tree: str, places: List[str]) -> None:
        """The edit has that reply with each keeper, and behind it the tree is that one, and marks lead there; "" where one is gone."""
        marks, looks = [f"0 mark n{i} {path}" for i, path in enumerate(PATHS)], [f"0 where n{i}" for i in range(len(PATHS))]
        lines = [*marks, f"0 {edit}", "0 show /", *looks]
        told = [*(["0 ok 0"] * len(marks)), f"0 {reply}", f"0 = {tree}", *(f"0 = {it}" if it else "0 refused 3 mark" for it in places)]
        files = self.write(CALCULATOR)
        for keeper in self.keepers:
            with self.subTest(edit=edit, keeper=keeper):
                self.assertEqual(self.played(keeper, 1, files, "\n".join(lines) + "\n")[0].splitlines(), told)

    def test_a_refused_edit_leaves_tree_and_numbers(self) -> None:
        for edit, why in REFUSED.items():
            self.assert_leaves(edit, f"refused {why}", TREE, PATHS)

    def test_a_drop_leaves_the_numbers_of_the_others(self) -> None:
        self.assert_leaves(DROP, "ok 1", LEFT, ["" if it in GONE else it.replace("Stmt:1", "Stmt:0") for it in PATHS])
