"""Which class is below which, in a forest of a thousand classes: a deep tree, a wide one, and classes with no superclass."""
import random
from typing import List

from tools.of_the_program.runs import ProgramTest

# Below D0 a chain of classes, and below W classes beside each other.
DEEP = ["D0;", *(f"D{k}:D{k - 1};" for k in range(1, 600))]
WIDE = ["W;", *(f"W{k}:W;" for k in range(390))]
ALONE = [f"A{k};" for k in range(8)]
CLASSES = [*DEEP, *WIDE, *ALONE]

# Each node, and those of the classes asked for of which it is an instance.
ASKED = "D0 D1 D299 D300 D301 D598 D599 W W0 W1 W388 W389 A0 A7 Box".split()
NODES = [
    ("/Deep:0", "D0", "D0"),
    ("/Deep:1", "D1", "D0 D1"),
    ("/Deep:2", "D298", "D0 D1"),
    ("/Deep:3", "D300", "D0 D1 D299 D300"),
    ("/Deep:4", "D599", "D0 D1 D299 D300 D301 D598 D599"),
    ("/Wide:0", "W", "W"),
    ("/Wide:1", "W0", "W W0"),
    ("/Wide:2", "W200", "W"),
    ("/Wide:3", "W389", "W W389"),
    ("/A0", "A0", "A0"),
]
TREE = f"Box([{','.join(f'{node}()' for _, node, _ in NODES[:5])}],[{','.join(f'{node}()' for _, node, _ in NODES[5:9])}],A0())\n"
KINDS = " + ".join(f'(this instanceof {it} ? "{it} " : "")' for it in ASKED)
ASPECT = "aspect K {\n" + "".join(f"  syn String {root}.kinds() = {KINDS};\n" for root in ("D0", "W", "A0")) + "}\n"


class Classes(ProgramTest):
    """Nodes of classes that stand in the grammar in one order or another; the first class is that of whole trees."""

    def kinds(self, classes: List[str]) -> str:
        """What is told of each node, where the classes are declared in that order."""
        files = {"g.ast": "\n".join(["Box ::= Deep:D0* Wide:W* A0;", *classes]) + "\n", "t.txt": TREE, "k.jrag": ASPECT}
        for name, text in files.items():
            (self.folder / name).write_text(text, encoding="utf-8")
        run = self.begin(["g.ast", "t.txt", "k.jrag"])
        out, err = run.communicate("".join(f"0 ask {path} kinds()\n" for path, _, _ in NODES).encode())
        self.assertEqual((run.returncode, err), (0, b""))
        return out.decode()

    def test_nodes_are_instances_of_the_classes_above(self) -> None:
        mixed = CLASSES.copy()
        random.Random(7).shuffle(mixed)
        told = "".join(f'0 = "{kinds} "\n' for _, _, kinds in NODES)
        for name, classes in (("superclasses first", CLASSES), ("superclasses last", CLASSES[::-1]), ("mixed", mixed)):
            with self.subTest(order=name):
                self.assertEqual(self.kinds(classes), told)
