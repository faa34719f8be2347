"""Constant nonterminal attributes whose trees grow by the constants of their classes: they are refused before they are too large."""
import subprocess
from typing import Tuple

from tools.of_the_program.runs import NOTHING, SECONDS, ProgramTest

# A class with two constants of the class before it has twice the nodes and one more: the sixteenth is the last of no more than 65,536.
MOST = 16
# So many nodes stand in each other in each constant, and one more at their end; eight of these, each at the end of the one before, are within
# 512 levels, and nine are one beyond.
NESTED, CHAINED = 56, 8


def doubling(classes: int) -> Tuple[str, str]:
    """A grammar and aspects in which so many classes have two constants each, the first one none."""
    grammar = "P ::= ;\n" + "".join(f"A{i} ::= ;\n" for i in range(classes + 1))
    constants = "".join(f"  syn nta A{i - 1} A{i}.{name}() = new A{i - 1}();\n" for i in range(1, classes + 1) for name in "lr")
    return grammar, f"aspect D {{\n{constants}}}\n"


def deepening(classes: int) -> Tuple[str, str]:
    """The same of classes in which each constant is a chain of nodes, with a node at its end that has the next one."""
    grammar = "P ::= ;\n" + "".join(f"B{i} ::= [Next:B{i}] [End:E{i}];\nE{i} ::= ;\n" for i in range(classes + 1))
    constants = "".join(f"  syn nta B{i} E{i - 1}.c() = {chain(i, NESTED)};\n" for i in range(1, classes + 1))
    return grammar, f"aspect D {{\n{constants}}}\n"


def chain(i: int, nodes: int) -> str:
    """So many nodes of the class of that number in each other, and the end in the last of them."""
    return f"new B{i}(new Opt(), new Opt(new E{i}()))" if nodes == 1 else f"new B{i}(new Opt({chain(i, nodes - 1)}), new Opt())"


class Constants(ProgramTest):
    """What is told of files with such constants, over a tree that has none of them."""

    def told(self, files: Tuple[str, str]) -> Tuple[int, bytes]:
        """The status, and what is printed of files that are refused."""
        for name, text in {"d.ast": files[0], "d.jrag": files[1], "d.txt": "P()\n"}.items():
            (self.folder / name).write_text(text, encoding="utf-8")
        run = subprocess.run([self.program, "--forms", "jastadd", "d.ast", "d.txt", "d.jrag"], cwd=self.folder, env=NOTHING, input=b"",
                             stdout=subprocess.PIPE, stderr=subprocess.PIPE, timeout=SECONDS, check=False)
        return run.returncode, run.stderr

    def test_constants_that_double(self) -> None:
        """The constants of the class behind the last that may be one are too large: the first of them is told, at its `new`."""
        self.assertEqual(self.told(doubling(MOST)), (0, b""))
        line = 2 * MOST + 2
        for classes in (MOST + 1, MOST + 8):
            self.assertEqual(self.told(doubling(classes))[1], f"d.jrag: J11 limit at {line}:25\n".encode())

    def test_constants_that_nest(self) -> None:
        """Each stands at the end of the one before it, so the first one is the deepest."""
        self.assertEqual(self.told(deepening(CHAINED)), (0, b""))
        self.assertEqual(self.told(deepening(CHAINED + 1))[1], b"d.jrag: J11 limit at 2:23\n")
