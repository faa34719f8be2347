"""Trees of about so many nodes, and the questions after which every attribute of every node is kept."""
from __future__ import annotations

from typing import List

SIZES = (1_000, 10_000, 60_000)

GRAMMAR = """Top ::= Main:Expr Item*;
abstract Expr;
Add : Expr ::= Left:Expr Right:Expr;
Num : Expr ::= <Value:int> <Note>;
Spare : Expr ::= [Extra:Expr];
Item ::= <Cost:int>;
"""

ASPECTS = """aspect Kept {
  syn lazy int Expr.value();
  eq Add.value() = getLeft().value() + getRight().value();
  eq Num.value() = getValue();
  eq Spare.value() = hasExtra() ? getExtra().value() : 0;
  inh lazy int Expr.depth();
  eq Top.getMain().depth() = 0;
  eq Add.getLeft().depth() = depth() + 1;
  eq Add.getRight().depth() = depth() + 1;
  eq Spare.getExtra().depth() = depth() + 1;
  syn lazy int Item.price() = getCost() * 2;
}
aspect Filling {
  syn int Expr.filled() = value() + depth();
  eq Add.filled() = getLeft().filled() + getRight().filled() + depth();
  syn int Top.prices() = sum (i : getItemList()) { i.price() };
}
"""

FILL = "0 ask /Main value()\n0 ask /Main filled()\n0 ask / prices()\n"

# The depth of the leaves that are edited: with the sum over all, an edit of one has 16 values anew.
DEPTH = 15
# How many leaves are edited, by turns.
EDITED = 16
# How many leaves a subtree of 61 nodes has.
SMALL = 31


def balanced(leaves: int) -> str:
    """A sum of so many numbers, as deep on the left as on the right."""
    if leaves == 1:
        return 'Num(1,"")'
    return f"Add({balanced(leaves // 2)},{balanced(leaves - leaves // 2)})"


def leaves_at(leaves: int, path: str, depth: int) -> List[str]:
    """The paths of those numbers of a sum of so many that stand so many levels below its root."""
    if leaves == 1:
        return [path] if depth == 0 else []
    if depth == 0:
        return []
    return leaves_at(leaves // 2, f"{path}/Left", depth - 1) + leaves_at(leaves - leaves // 2, f"{path}/Right", depth - 1)


class SumTree:
    """About so many nodes, nearly all of them of one sum: each number of it is within 15 levels and some; from its root goes a row of
    15 sums down to an optional, and beside each stands a sum of its own."""

    def __init__(self, nodes: int, items: int = 0) -> None:
        side = ((nodes - items) // (DEPTH - 1) + 1) // 2 - 3
        term = "Spare(-)"
        paths: List[str] = []
        for level in reversed(range(DEPTH)):
            count = SMALL if level == DEPTH - 1 else side
            term = f"Add({balanced(count)},{term})"
            paths += leaves_at(count, "/Main" + "/Right" * level + "/Left", DEPTH - level - 1)
        self.name = f"sums{nodes}_{items}"
        self.leaves = [paths[k * len(paths) // EDITED] for k in range(EDITED)]
        self.small = "/Main" + "/Right" * (DEPTH - 1) + "/Left"
        self.small_term = balanced(SMALL)
        self.spare = "/Main" + "/Right" * DEPTH
        self.items = items
        self.term = f"Top({term},[{','.join(['Item(3)'] * items)}])\n"
        self.nodes = self.term.count("(")
        self.entries = 2 * (self.nodes - items - 1) + items


class ListTree(SumTree):
    """About so many nodes, of which half are the elements of one list."""

    def __init__(self, nodes: int) -> None:
        super().__init__(nodes, nodes // 2)
