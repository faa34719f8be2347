"""Lines by chance over three samples: with each keeper the same replies, so what is kept is never heard."""
import re
from typing import List, NamedTuple

from tools.of_the_program.chance import CALCULATED, Chance, Words
from tools.of_the_program.keeping import KeepingTest
from tools.of_the_program.sessions import CALCULATOR, Sample

SUM = Sample("Sum ::= Left:Num Right:Num; Num ::= <Value:int>;", "Sum(Num(3),Num(4))", ["""aspect Sums {
  syn lazy int Sum.total() = getLeft().twice() + getRight().twice();
  syn lazy int Num.twice() = getValue() * 2;
}
"""])
SUM_WORDS = Words(
    places=("/", "/Left", "/Right", "$u", "$v", "/Left:0", "/Middle"),
    parts=("Value", "Value", "Left", "Stmt"),
    values=("5", "-7", "2147483647", "2147483648", '"x"'),
    terms=("Num(4)", "Num(-1)", "Sum(Num(1),Num(2))", 'Num("x")', "Non(1)"),
    attributes=("total()", "total()", "twice()", "total(1)", "none()"),
    edits=(
        "token /Left Value 5", "token /Right Value -7", "token /Left Value 2147483647", "set /Right Num(4)",
        "set / Sum(Num(1),Num(2))",
    ),
)
# Ten items, each of which has the sizes before it added up by a chain that isn't kept, and that all of them share.
TEN = "Names([" + ",".join(f"Item({it})" for it in range(1, 11)) + "])"
SHARED = Sample("Names ::= Item*; Item ::= <Size:int>;", TEN, ["""aspect Shared {
  syn lazy int Item.kept() = chained() * 2;
  syn lazy int Item.twice() = chained() + kept();
  inh int Item.chained();
  eq Names.getItem(int i).chained() = i == 0 ? 0 : getItem(i - 1).chained() + getItem(i - 1).getSize();
  syn int Names.all() = sum (i : getItemList()) { i.kept() + i.twice() };
  syn int Names.backward() = from(getItem(9)) + getItem(5).twice();
  syn int Names.from(Item i) = i.kept() + (i.pos() == 0 ? 0 : from(getItem(i.pos() - 1)));
  inh int Item.pos();
  eq Names.getItem(int i).pos() = i;
}
"""])
SHARED_WORDS = Words(
    places=("/", "/Item:0", "/Item:3", "/Item:5", "/Item:9", "$u", "$v", "/Item:12"),
    parts=("Item", "Size", "Names"),
    values=("1", "-2", "7", "2147483647", '"x"'),
    terms=("Item(3)", "Item(-4)", 'Item("x")', "Names([Item(1)])"),
    attributes=("kept()", "twice()", "chained()", "all()", "backward()"),
    edits=(
        "token /Item:0 Size 5", "token /Item:4 Size -6", "token /Item:8 Size 7", "token /Item:9 Size 8", "insert / Item 0 Item(2)",
        "insert / Item 5 Item(-1)", "drop /Item:1", "drop /Item:6", "move /Item:2 / Item 7", "set /Item:3 Item(9)", f"set / {TEN}",
    ),
)
# How many entries a keeper may have that folds some, or forgets all, at an edit that finds more.
BOUNDS = (1, 4, 10)
# The version at the end: how many edits were accepted.
VERSION = re.compile(r"^0 ok (\d+)\n\Z", re.M)


class Chosen(NamedTuple):
    """Lines by chance: where they come from, how many there are, and more edits than these are accepted of them."""

    sample: Sample
    words: Words
    seed: int
    length: int
    edits: int


CHOSEN = {
    "sums": Chosen(SUM, SUM_WORDS, 1968, 7_000, 1_000),
    "calculator": Chosen(CALCULATOR, CALCULATED, 2000, 6_000, 600),
    "shared": Chosen(SHARED, SHARED_WORDS, 1977, 1_200, 100),
}


class Keepers(KeepingTest):
    """Lines by chance with each keeper."""

    def assert_alike(self, files: List[str], lines: str, edits: int) -> None:
        """The lines have the same replies with each keeper and each bound. More edits than these are accepted; and with the two that keep
        all the work is the same."""
        told, work = self.played("verified", 1, files, lines)
        accepted = VERSION.search(told)
        self.assertGreater(int(accepted[1]) if accepted else 0, edits)
        for keeper in self.keepers:
            others = self.played(keeper, 1, files, lines)
            self.assertEqual(others[0], told, keeper)
            self.assertTrue(keeper != "cut-off" or others[1].startswith(work + "made "))
        for bound in BOUNDS:
            self.assertEqual(self.played_with(["--keep", str(bound)], 1, files, lines)[0], told, bound)

    def test_lines_by_chance_are_told_alike(self) -> None:
        for name, chosen in CHOSEN.items():
            with self.subTest(name):
                chance = Chance(chosen.seed, chosen.words)
                lines = "".join(f"{chance.line()}\n" for _ in range(chosen.length))
                self.assert_alike(self.write(chosen.sample), lines + "0 version\n", chosen.edits)
