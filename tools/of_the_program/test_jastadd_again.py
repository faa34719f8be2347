"""Attributes that are declared again for classes below, in JastAdd's own language, by chance: each node has the value of the nearest class
with a body, whatever declares it; and where a kind differs from one that is declared above, the first such kind is told."""
import os
import random
from dataclasses import dataclass
from typing import Dict, List, Optional, Sequence

from tools.of_the_program.runs import ProgramTest

# How many specifications there are, of so many classes and attributes; the variables give others.
COUNT, SEED, CLASSES, ATTRIBUTES = 60, 1516, 9, 4
# Of so many at least some kind differs, and so many at least are accepted.
FEWEST = 10
WORDS = ["--forms", "jastadd", "x.ast", "x.txt", "x.jrag", "y.jrag"]


@dataclass(frozen=True)
class Said:
    """A declaration or an equation: of which attribute and class, its kind (none of an equation), its value (none without a body)."""

    attribute: str
    of: int
    kind: Optional[str]
    value: Optional[str]
    text: str

    def column(self) -> int:
        """Where its kind stands in its text, from 1."""
        assert self.kind is not None
        return self.text.index(f"{self.kind} ") + 1


class Chosen:
    """A specification by chance: the class above each class, and what is said, in two files."""

    def __init__(self, chance: random.Random) -> None:
        self.chance, self.numbers = chance, iter(range(1, 1000))
        self.above: List[Optional[int]] = [None if at == 0 or chance.random() < 0.2 else chance.randrange(at) for at in range(CLASSES)]
        said = [one for at in range(ATTRIBUTES) for one in self.said_of(f"a{at}")]
        chance.shuffle(said)
        half = chance.randrange(len(said) + 1)
        self.files = [said[:half], said[half:]]

    def line(self, of: int) -> List[int]:
        """The class, and those above it."""
        above = self.above[of]
        return [of] if above is None else [of, *self.line(above)]

    def value(self, kind: str) -> str:
        """A value of the kind; numbers are apart."""
        return str(next(self.numbers)) if kind == "int" else self.chance.choice(("true", "false"))

    def said_of(self, attribute: str) -> List[Said]:
        """What is said of an attribute: some classes declare it, and have a body where none above does; others have an equation."""
        found: List[Said] = []
        kinds: Dict[int, str] = {}
        for of in range(CLASSES):
            top = next((kinds[it] for it in reversed(self.line(of)) if it in kinds), None)
            if self.chance.random() < 0.4:
                kind = top if top and self.chance.random() < 0.8 else self.chance.choice(("int", "boolean"))
                is_declared = any(it in kinds for it in self.line(of))
                kinds[of] = kind
                found += self.declared(attribute, of, kind, is_declared)
            elif top and self.chance.random() < 0.3:
                found.append(self.equation(attribute, of, top))
        return found

    def equation(self, attribute: str, of: int, kind: str) -> Said:
        """An equation for the class."""
        value = self.value(kind)
        return Said(attribute, of, None, value, f"eq C{of}.{attribute}() = {value};")

    def declared(self, attribute: str, of: int, kind: str, is_declared: bool) -> List[Said]:
        """A declaration for the class, with a body, or perhaps with an equation beside it or none where it is declared above, too."""
        value, lazy = self.value(kind), self.chance.choice(("", "lazy "))
        head = f"{kind} C{of}.{attribute}()"
        form = self.chance.randrange(4 if is_declared else 2)
        if form > 1:
            without = Said(attribute, of, kind, None, f"syn {lazy}{head};")
            return [without, self.equation(attribute, of, kind)] if form == 3 else [without]
        texts = (f"public {head} {{ return {value}; }}", f"syn {lazy}{head} = {value};")
        return [Said(attribute, of, kind, value, texts[form])]

    def fault(self) -> str:
        """What is told of the first kind that differs from one that is declared above; nothing where none does."""
        for name, said in zip(("x", "y"), self.files):
            for at, one in enumerate(said):
                if one.kind is not None and self.differs(one):
                    return f"{name}.jrag: J4 kind at {at + 2}:{one.column()}\n"
        return ""

    def differs(self, one: Said) -> bool:
        """Whether a class above declares the attribute of another kind."""
        above = self.line(one.of)[1:]
        return any(other.kind not in (None, one.kind) for said in self.files for other in said
                   if other.attribute == one.attribute and other.of in above)

    def values(self, attribute: str, of: int) -> Optional[str]:
        """What a node of the class answers; nothing where it has no such attribute."""
        bodies = {one.of: one.value for said in self.files for one in said if one.attribute == attribute and one.value is not None}
        return next((bodies[it] for it in self.line(of) if it in bodies), None)


def text_of(said: Sequence[Said]) -> str:
    """An aspect with a line for each."""
    return "aspect A {\n" + "".join(f"{one.text}\n" for one in said) + "}\n"


class Again(ProgramTest):
    """What is told of such specifications."""

    def put(self, it: Chosen) -> None:
        """Writes the files, with a node of each class."""
        above = (f"C{at} : {'Any' if up is None else f'C{up}'};\n" for at, up in enumerate(it.above))
        (self.folder / "x.ast").write_text("Program ::= Any*;\nabstract Any;\n" + "".join(above))
        (self.folder / "x.txt").write_text(f"Program([{','.join(f'C{at}()' for at in range(CLASSES))}])\n")
        for name, said in zip(("x.jrag", "y.jrag"), it.files):
            (self.folder / name).write_text(text_of(said))

    def assert_answered(self, it: Chosen) -> bool:
        """The program tells the fault, or the value of each attribute of each node; gives whether it was accepted."""
        self.put(it)
        asked = [(f"a{name}", of) for name in range(ATTRIBUTES) for of in range(CLASSES)]
        run = self.begin(WORDS)
        out, err = run.communicate("".join(f"0 ask /Any:{of} {name}()\n" for name, of in asked).encode())
        texts = "".join(map(text_of, it.files))
        self.assertEqual(err.decode(), it.fault(), texts)
        if err:
            return False
        for (name, of), reply in zip(asked, out.decode().splitlines()):
            value = it.values(name, of)
            self.assertTrue(reply == f"0 = {value}" if value else reply.startswith("0 refused"), f"{name} of C{of}: {reply}\n{texts}")
        return True

    def test_the_nearest_body_counts(self) -> None:
        count, seed = (int(os.environ.get(f"ATTRD_AGAIN_{name}", usual)) for name, usual in (("COUNT", COUNT), ("SEED", SEED)))
        accepted = [self.assert_answered(Chosen(random.Random(f"{seed} {at}"))) for at in range(count)]
        least = FEWEST * count // COUNT
        self.assertGreaterEqual(sum(accepted), least)
        self.assertGreaterEqual(count - sum(accepted), least)
