"""Attributes that are overloaded by the number of their parameters, in JastAdd's own language, by chance: each call, and each question of a
line, has the value of the attribute with as many parameters; where there is none it is told, as is what is declared twice."""
import os
import random
from dataclasses import dataclass
from typing import Callable, Dict, List, Optional, Sequence, Tuple

from tools.of_the_program.runs import ProgramTest

# How many specifications there are, of so many classes, names and call sites; the variables give others.
COUNT, SEED, CLASSES, NAMES, SITES, ASKED = 40, 8491, 7, 4, 5, 60
# At least so many are told a fault, and so many are answered.
FEWEST = 6
WORDS = ["--forms", "jastadd", "x.ast", "x.txt", "x.jrag", "y.jrag"]
# A name with a number of parameters.
Pair = Tuple[str, int]
# The value on a node, by the class of the node and the values of parameters.
Value = Callable[[int, Sequence[int]], int]


@dataclass(frozen=True)
class Made:
    """An expression: its text, and its value."""

    text: str
    value: Value


def wrapped(value: int) -> int:
    """The number as 32 bits have it."""
    return (value + 2 ** 31) % 2 ** 32 - 2 ** 31


def number(value: int) -> Made:
    """A number written out."""
    return Made(str(value), lambda of, given: value)


def parameter(at: int) -> Made:
    """The parameter at that position."""
    return Made(f"p{at}", lambda of, given: given[at])


def heading(name: str, count: int) -> str:
    """A name with parameters."""
    return f"{name}({', '.join(f'int p{at}' for at in range(count))})"


class Chosen:
    """A specification by chance: the class above each class, and each attribute with its bodies; what is said, in two files."""

    def __init__(self, chance: random.Random) -> None:
        self.chance, self.numbers = chance, iter(range(10, 100000, 10))
        self.above: List[Optional[int]] = [None if at == 0 or chance.random() < 0.3 else chance.randrange(at) for at in range(CLASSES)]
        # Of each attribute the body for each class; -1 is that of all nodes. Bodies call those that came before alone.
        self.bodies: Dict[Pair, Dict[int, Made]] = {}
        self.inherited: Dict[Pair, Made] = {}
        self.known: Dict[Tuple[Pair, int, Tuple[int, ...]], int] = {}
        said: List[str] = []
        for name in (f"m{at}" for at in range(NAMES)):
            for count in sorted(chance.sample(range(5), chance.choice((1, 2, 2, 3, 5)))):
                said += self.passed(name, count) if chance.random() < 0.25 else self.computed(name, count)
        self.sites = {f"s{at}": self.made(3, 0) for at in range(SITES)}
        said += [f"syn {chance.choice(('', 'lazy '))}int Any.{name}() = {site.text};" for name, site in self.sites.items()]
        # Calls in the braces of folds and in loops, which nodes of the list are asked.
        self.whole, self.wanted = (self.call(2, 0, chance.choice([*self.bodies, *self.inherited]), "n.") for _ in range(2))
        said += [f"syn int Program.whole() = sum (n : getAnyList()) {{ {self.whole.text} }};",
                 f"int Program.wanted() {{ for (Any n : getAnys()) if ({self.wanted.text} > 200) return {self.wanted.text}; return -1; }}"]
        chance.shuffle(said)
        half = chance.randrange(len(said) + 1)
        self.files = [said[:half], said[half:]]
        self.fault = self.spoiled() if chance.random() < 0.3 else ""

    def line(self, of: int) -> List[int]:
        """The class and those above it; the last, -1, is that of all nodes."""
        above = self.above[of] if of >= 0 else None
        return [of] if of < 0 else [of, *self.line(-1 if above is None else above)]

    def value(self, pair: Pair, of: int, given: Sequence[int]) -> int:
        """The value of an attribute on a node; each is computed once."""
        key = (pair, of, tuple(given))
        if key not in self.known:
            self.known[key] = self.body(pair, of).value(of, given)
        return self.known[key]

    def body(self, pair: Pair, of: int) -> Made:
        """The body for nodes of the class."""
        if pair in self.inherited:
            return self.inherited[pair]
        return next(self.bodies[pair][it] for it in self.line(of) if it in self.bodies[pair])

    def call(self, deep: int, count: int, pair: Pair, node: str) -> Made:
        """A call with arguments."""
        arguments = [self.made(deep - 1, count, node) for _ in range(pair[1])]
        front = node or self.chance.choice(("", "", "this.", "((Any) this)."))
        text = f"{front}{pair[0]}({', '.join(it.text for it in arguments)})"
        return Made(text, lambda of, given: self.value(pair, of, [it.value(of, given) for it in arguments]))

    def made(self, deep: int, count: int, node: str = "") -> Made:
        """An expression with so many parameters around it, in which that node is asked."""
        known = [*self.bodies, *self.inherited]
        if deep > 0 and known and self.chance.random() < 0.6:
            return self.call(deep, count, self.chance.choice(known), node)
        if deep > 0 and self.chance.random() < 0.6:
            one, other = self.made(deep - 1, count, node), self.made(deep - 1, count, node)
            if self.chance.random() < 0.5:
                return Made(f"({one.text} + {other.text})", lambda of, given: wrapped(one.value(of, given) + other.value(of, given)))
            return Made(f"({one.text} < {other.text} ? {other.text} : {one.text})",
                        lambda of, given: max(one.value(of, given), other.value(of, given)))
        return parameter(self.chance.randrange(count)) if count and self.chance.random() < 0.7 else number(next(self.numbers))

    def passed(self, name: str, count: int) -> List[str]:
        """An inherited attribute, with the program's equation."""
        parameters = [parameter(at) for at in range(count)]
        start = next(self.numbers)
        sums = " + ".join([str(start), *(it.text for it in parameters)])
        self.inherited[name, count] = Made(sums, lambda of, given: wrapped(start + sum(given)))
        return [f"inh {self.chance.choice(('', 'lazy '))}int Any.{heading(name, count)};",
                f"eq Program.get{self.chance.choice(('Any', 'Child'))}().{heading(name, count)} = {sums};"]

    def computed(self, name: str, count: int) -> List[str]:
        """A synthesized attribute or a method of all nodes, with others for some classes."""
        bodies = {of: self.made(2, count) for of in range(-1, CLASSES) if of < 0 or self.chance.random() < 0.3}
        self.bodies[name, count] = bodies
        return [self.said(of, name, count, body.text) for of, body in bodies.items()]

    def said(self, of: int, name: str, count: int, body: str) -> str:
        """What declares it for a class, or is its equation."""
        head = f"{class_name(of)}.{heading(name, count)}"
        forms = [f"syn {self.chance.choice(('', 'lazy '))}int {head} = {body};", f"public int {head} {{ return {body}; }}"]
        return self.chance.choice([*forms, f"eq {head} = {body};"] if of >= 0 else forms)

    def spoiled(self) -> str:
        """Adds what is a fault to the end of the second file; gives what is told of it."""
        numbers: Dict[str, List[int]] = {}
        for name, count in [*self.bodies, *self.inherited]:
            numbers.setdefault(name, []).append(count)
        name = self.chance.choice([it for it, counts in numbers.items() if len(counts) > 1] or ["none"])
        counts = numbers.get(name, [0])
        missing, last = self.chance.choice([it for it in range(7) if it not in counts]), (name, counts[-1])
        call = f"{name}({', '.join(map(str, range(missing)))})"
        faults = [(f"syn int Any.wrong() = {call};", "J3 unknown name", 23),
                  (f"eq C0.{heading(name, missing)} = 1;", "J9 equation without attribute", 1)]
        if last in self.inherited:
            faults.append((f"syn String Any.{heading(*last)} = \"\";", "J2 attribute twice", 1))
        elif last in self.bodies:
            faults.append((f"inh String Any.{heading(*last)};", "J2 attribute twice", 1))
        text, code, column = self.chance.choice(faults)
        self.files[1].append(text)
        return f"y.jrag: {code} at {len(self.files[1]) + 1}:{column}\n"


def class_name(of: int) -> str:
    """A class's name; -1 is that above all."""
    return "Any" if of < 0 else f"C{of}"


def text_of(said: Sequence[str]) -> str:
    """An aspect with a line for each."""
    return "aspect A {\n" + "".join(f"{one}\n" for one in said) + "}\n"


class Session:
    """Lines for a specification, with their replies, while the nodes of the list come and go."""

    def __init__(self, it: Chosen, chance: random.Random) -> None:
        self.it, self.chance, self.nodes, self.version = it, chance, list(range(CLASSES)), 0
        self.lines: List[str] = []
        self.replies: List[str] = []
        for _ in range(ASKED):
            line, reply = chance.choice((self.asked, self.asked, self.site, self.of_all, self.edited))()
            self.lines.append(f"0 {line}\n")
            self.replies.append(f"0 {reply}")

    def asked(self) -> Tuple[str, str]:
        """A question of an attribute with that many arguments, or with a number of them that none has."""
        it, at = self.it, self.chance.randrange(len(self.nodes))
        pairs = [*it.bodies, *it.inherited]
        name, count = self.chance.choice(pairs) if self.chance.random() < 0.8 else (self.chance.choice(pairs)[0], self.chance.randrange(7))
        given = [self.chance.randrange(1000) for _ in range(count)]
        line = f"ask /Any:{at} {name}({','.join(map(str, given))})"
        return line, f"= {it.value((name, count), self.nodes[at], given)}" if (name, count) in pairs else "refused 14 arguments"

    def site(self) -> Tuple[str, str]:
        """A question of a call site, or of what there isn't."""
        at, name = self.chance.randrange(len(self.nodes)), self.chance.choice([*self.it.sites, "none"])
        site = self.it.sites.get(name)
        return f"ask /Any:{at} {name}()", f"= {site.value(self.nodes[at], [])}" if site else "refused 13 attribute"

    def of_all(self) -> Tuple[str, str]:
        """A question of the program, which asks its nodes."""
        if self.chance.random() < 0.5:
            return "ask / whole()", f"= {wrapped(sum(self.it.whole.value(of, []) for of in self.nodes))}"
        values = [self.it.wanted.value(of, []) for of in self.nodes]
        return "ask / wanted()", f"= {next((value for value in values if value > 200), -1)}"

    def edited(self) -> Tuple[str, str]:
        """A node comes, goes, or becomes one of another class."""
        at, of, form = self.chance.randrange(len(self.nodes)), self.chance.randrange(CLASSES), self.chance.randrange(3)
        self.version += 1
        if form == 0 and len(self.nodes) > 2:
            del self.nodes[at]
            return f"drop /Any:{at}", f"ok {self.version}"
        if form == 1:
            self.nodes.insert(at, of)
            return f"insert / Any {at} C{of}()", f"ok {self.version}"
        self.nodes[at] = of
        return f"set /Any:{at} C{of}()", f"ok {self.version}"


class Overloaded(ProgramTest):
    """What is told of such specifications."""

    def assert_answered(self, it: Chosen, chance: random.Random) -> bool:
        """The program tells the fault, or answers a session; gives whether it was accepted."""
        above = (f"C{at} : {'Any' if up is None else f'C{up}'};\n" for at, up in enumerate(it.above))
        (self.folder / "x.ast").write_text("Program ::= Any*;\nabstract Any;\n" + "".join(above))
        (self.folder / "x.txt").write_text(f"Program([{','.join(f'C{at}()' for at in range(CLASSES))}])\n")
        for name, said in zip(("x.jrag", "y.jrag"), it.files):
            (self.folder / name).write_text(text_of(said))
        texts, session = "".join(map(text_of, it.files)), Session(it, chance)
        out, err = self.begin(WORDS).communicate("".join(session.lines).encode())
        self.assertEqual(err.decode(), it.fault, texts)
        if not err:
            for line, reply, wanted in zip(session.lines, out.decode().splitlines(), session.replies):
                self.assertEqual(reply, wanted, f"{line}{texts}")
        return not err

    def test_each_number_has_its_attribute(self) -> None:
        count, seed = (int(os.environ.get(f"ATTRD_OVERLOADED_{name}", usual)) for name, usual in (("COUNT", COUNT), ("SEED", SEED)))
        chances = [random.Random(f"{seed} {at}") for at in range(count)]
        accepted = [self.assert_answered(Chosen(chance), chance) for chance in chances]
        least = FEWEST * count // COUNT
        self.assertGreaterEqual(sum(accepted), least)
        self.assertGreaterEqual(count - sum(accepted), least)
