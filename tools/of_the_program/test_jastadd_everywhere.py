"""Attributes that are declared for ASTNode, in JastAdd's own language, by chance: each node has the value of the nearest class with a body,
or else that of ASTNode, whatever declares it; and what is inherited has every node, but that the root has a fault for it."""
import os
import random
from typing import Dict, List, Optional

from tools.of_the_program.runs import ProgramTest

# How many specifications there are, of so many classes and attributes; the variables give others.
COUNT, SEED, CLASSES, ATTRIBUTES = 40, 4242, 8, 4
WORDS = ["--forms", "jastadd", "x.ast", "x.txt", "x.jrag"]


class Chosen:
    """A specification by chance: the class above each class, and of each attribute its value for ASTNode and for classes."""

    def __init__(self, chance: random.Random) -> None:
        self.above: List[Optional[int]] = [None if at == 0 or chance.random() < 0.4 else chance.randrange(at) for at in range(CLASSES)]
        self.everywhere = [chance.randrange(1000) for _ in range(ATTRIBUTES)]
        self.own: List[Dict[int, int]] = [{of: 1000 + chance.randrange(1000) for of in range(-1, CLASSES) if chance.random() < 0.3}
                                          for _ in range(ATTRIBUTES)]
        said = [self.text_of(chance, name, of) for name in range(ATTRIBUTES) for of in self.own[name]]
        said += [f"public int ASTNode.a{name}() {{ return {value}; }}" if chance.random() < 0.5 else
                 f"syn {chance.choice(('', 'lazy '))}int ASTNode.a{name}() = {value};" for name, value in enumerate(self.everywhere)]
        said += ["inh int ASTNode.i();", "eq Program.getChild().i() = 7;"]
        chance.shuffle(said)
        self.aspect = "aspect A {\n" + "".join(f"{it}\n" for it in said) + "}\n"

    def text_of(self, chance: random.Random, name: int, of: int) -> str:
        """What a class says of an attribute: an equation, or a declaration with a body."""
        value, heading = self.own[name][of], f"{class_name(of)}.a{name}()"
        return chance.choice((f"eq {heading} = {value};", f"int {heading} {{ return {value}; }}", f"syn int {heading} = {value};"))

    def value(self, name: int, of: Optional[int]) -> int:
        """What a node of the class answers."""
        if of is None:
            return self.everywhere[name]
        return self.own[name][of] if of in self.own[name] else self.value(name, None if of < 0 else self.above[of])


def class_name(of: int) -> str:
    """A class's name; -1 is that of the root."""
    return "Program" if of < 0 else f"C{of}"


class Everywhere(ProgramTest):
    """What is told of such specifications."""

    def assert_answered(self, it: Chosen) -> None:
        """The program tells the value of each attribute of each node."""
        parts = " ".join(f"P{at}:C{at}" for at in range(CLASSES))
        classes = "".join(f"C{at}{'' if up is None else f' : C{up}'};\n" for at, up in enumerate(it.above))
        (self.folder / "x.ast").write_text(f"Program ::= {parts};\n{classes}")
        (self.folder / "x.txt").write_text(f"Program({','.join(f'C{at}()' for at in range(CLASSES))})\n")
        (self.folder / "x.jrag").write_text(it.aspect)
        asked = [(name, of) for name in range(ATTRIBUTES) for of in range(-1, CLASSES)]
        lines = [f"0 ask {path(of)} a{name}()" for name, of in asked] + [f"0 ask {path(of)} i()" for of in range(-1, CLASSES)]
        wanted = [f"0 = {it.value(name, of)}" for name, of in asked] + ["0 fault null in /.i"] + ["0 = 7"] * CLASSES
        out, err = self.begin(WORDS).communicate("".join(f"{line}\n" for line in lines).encode())
        self.assertEqual((out.decode().splitlines(), err.decode()), (wanted, ""), it.aspect)

    def test_the_nearest_body_counts(self) -> None:
        count, seed = (int(os.environ.get(f"ATTRD_EVERYWHERE_{name}", usual)) for name, usual in (("COUNT", COUNT), ("SEED", SEED)))
        for at in range(count):
            self.assert_answered(Chosen(random.Random(f"{seed} {at}")))


def path(of: int) -> str:
    """The path of the class's node."""
    return "/" if of < 0 else f"/P{of}"
