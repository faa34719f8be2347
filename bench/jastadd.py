#!/usr/bin/env python3
"""What JastAdd's own language costs (`--forms jastadd`): reading it, and bodies of statements against expressions that mean the same.

    python3 bench/jastadd.py [PROGRAM]

PROGRAM is ./attrd where none is given. All is told in instructions, as `valgrind` counts them. A file of 5,000 declarations that both
languages read is read with the word and without it: whole, and up to a fault behind its last declaration, which reading alone meets. Then
2,000 lists of five elements are asked for attributes that are written as statements, and as expressions by hand. The run ends with status 1
where a bound doesn't hold.
"""
from __future__ import annotations

import sys
import tempfile
from pathlib import Path
from typing import List, NamedTuple, Optional, Sequence

from bounds import Bounds
from figures import program_in, row, table
from instructions import instructions, instructions_behind

FORMS = ("--forms", "jastadd")
# How many declarations the file has, and how many of them are equations: of each class one for each of so many attributes.
DECLARATIONS, CLASSES, ATTRIBUTES = 5_000, 300, 10
# How many instructions more reading may take with the word, and what is written as statements.
READING, WRITTEN = 1.5, 1.1
LISTS, ELEMENTS = 2_000, 5
GRAMMAR = "All ::= Row*;\nRow ::= <Name> Item*;\nItem ::= <Size:int> <Name>;\n"


class Body(NamedTuple):
    """An attribute of a row or an item as statements, and as an expression."""

    what: str
    head: str
    statements: str
    expression: str
    # what it comes to for a row, as a number
    counted: str


BODIES = (
    Body("`if`", "int Item.it()",
         "if (getSize() > 3) return getSize() * 2; else if (getSize() == 1) { return 5; } return getName().equals(\"n\") ? 1 : 0;",
         "getSize() > 3 ? getSize() * 2 : getSize() == 1 ? 5 : getName().equals(\"n\") ? 1 : 0", "sum (i : r.getItemList()) { i.it() }"),
    Body("a loop to `true`", "boolean Row.it()", "for (Item i : getItemList()) if (i.getSize() == 3) return true; return false;",
         "exists (i : getItemList()) { i.getSize() == 3 }", "r.it() ? 1 : 0"),
    Body("a loop to `false`", "boolean Row.it()", "for (Item i : getItemList()) if (i.getSize() == 3) return false; return true;",
         "!exists (i : getItemList()) { i.getSize() == 3 }", "r.it() ? 1 : 0"),
    Body("a loop to its element", "Item Row.it()", "for (Item i : getItemList()) if (i.getSize() == 3) return i; return null;",
         "first (i : getItemList()) { i.getSize() == 3 }", "r.it() == null ? 0 : 1"),
    Body("a loop to a value", "int Row.it()", "for (Item i : getItemList()) if (i.getSize() == 3) return i.getSize() + 1; return 0;",
         "exists (i : getItemList()) { i.getSize() == 3 } ? first (i : getItemList()) { i.getSize() == 3 }.getSize() + 1 : 0", "r.it()"),
)


def classes() -> str:
    """A grammar of so many classes, with a list in each."""
    listed = "".join(f"C{it} : Expr ::= Left:Expr Right:Expr Part:Expr*;\n" for it in range(CLASSES))
    return f"Program ::= Expr;\nabstract Expr ::= <Name>;\nLeaf : Expr ::= <Value:int>;\n{listed}"


def declarations() -> List[str]:
    """Declarations that both languages read."""
    found = [f"syn int Expr.a{it}() = 1;" for it in range(ATTRIBUTES)]
    own = "eq C{}.a{}() = getLeft().a{}() + getRight().a{}() * 2;"
    found += [own.format(of, it, (it + 1) % ATTRIBUTES, (it + 2) % ATTRIBUTES) for of in range(CLASSES) for it in range(ATTRIBUTES)]
    rest = "syn lazy boolean Expr.b{}(String n) = getName().equals(n) && exists (x : ((C{}) this).getPartList()) {{ x.hasName(n) }};"
    others = [rest.format(it, it % CLASSES) for it in range(DECLARATIONS - len(found) - 1)]
    return [*found, "syn boolean Expr.hasName(String n) = getName().equals(n);", *others]


class JastAdd:
    """What is counted of the program in a folder."""

    def __init__(self, program: str, folder: Path) -> None:
        self.program, self.folder, self.bounds = program, folder, Bounds()

    def put(self, name: str, text: str) -> str:
        """Writes a file, whose name is returned."""
        (self.folder / name).write_text(text, encoding="utf-8")
        return name

    def told(self, what: str, value: Optional[int], unit: Optional[int]) -> float:
        """A row with two numbers of instructions, and how often the second goes into the first, which is returned."""
        if value is None or unit is None:
            sys.exit("there is no valgrind, which counts the instructions")
        row(what, f"{value:,}", f"{unit:,}", f"{value / unit:.3f}")
        return value / unit

    def held(self, what: str, ratios: Sequence[float], most: float) -> None:
        """Tells the greatest of the ratios with its bound."""
        print(f"\n{what}, the most: {self.bounds.at_most(f'{what}, the most, ratio', max(ratios), most)}")

    def read(self) -> None:
        """A start with the file of many declarations, in both languages."""
        table("5,000 declarations", "with the word", "without it", "ratio")
        text, ratios = "aspect A {\n" + "\n".join(declarations()) + "\n", list[float]()
        files = [self.put("c.ast", classes()), self.put("c.txt", 'Program(Leaf("x",1))\n')]
        for what, end in ("a start with the file", "}\n"), ("the reading of the file", ""):
            names = [*files, self.put("c.jrag", text + end)]
            with_word, without = (instructions([self.program, *words, *names], self.folder, "") for words in (FORMS, ()))
            ratios.append(self.told(what, with_word, without))
        self.held("reading with the word", ratios, READING)

    def ask(self) -> None:
        """A question over many rows, of which each has its statements, or its expression."""
        table("2,000 lists of five", "as statements", "as an expression", "ratio")
        items, ratios = ",".join(f'Item({it},"n")' for it in range(ELEMENTS)), list[float]()
        rows = ",".join([f'Row("r",[{items}])'] * LISTS)
        files = [self.put("r.ast", GRAMMAR), self.put("r.txt", f"All([{rows}])\n")]
        for it in BODIES:
            words = [[self.program, *FORMS, *files, self.put(f"{form}.jrag", self.aspect(it, body))]
                     for form, body in (("statements", it.statements), ("expression", f"return {it.expression};"))]
            statements, expression = (instructions_behind(each, self.folder, "", "0 ask / all()\n") for each in words)
            ratios.append(self.told(it.what, statements, expression))
        self.held("bodies of statements", ratios, WRITTEN)

    @staticmethod
    def aspect(it: Body, body: str) -> str:
        """An aspect that has the attribute with this body, and asks all rows for it."""
        return f"aspect A {{ syn {it.head} {{ {body} }} syn int All.all() = sum (r : getRowList()) {{ {it.counted} }}; }}\n"


def main(words: Sequence[str]) -> None:
    program = program_in(words, __doc__)
    with tempfile.TemporaryDirectory() as folder:
        bench = JastAdd(program, Path(folder))
        bench.read()
        bench.ask()
    if bench.bounds.broken:
        sys.exit(bench.bounds.told())
    print(bench.bounds.told())


if __name__ == "__main__":
    main(sys.argv[1:])
