#!/usr/bin/env python3
"""The Python client: from a keystroke to all diagnostics, by the tutorial's checker.

    python3 bench/clients.py [PROGRAM] [NODES ..]

PROGRAM is ./attrd where none is given, NODES are 1,000, 5,000 and 50,000. Times are medians. They are processor times, the client's
and the server's, which wait for each other; beside them stands what the clock showed, which a machine that does other work makes
longer. It takes two minutes.
"""
import re
import statistics
import sys
import time
from pathlib import Path
from typing import Callable, Dict, List, Mapping, NamedTuple, Optional, Sequence, Tuple, TypeVar, cast

from figures import ROOT, ms, numbers_in, program_in, ratio, row, table

sys.path.insert(0, str(ROOT / "clients" / "python"))

import attrd  # noqa: E402
from attrd import Document, Grammar, Node  # noqa: E402
from attrd.channel import Program  # noqa: E402

# A change of a class's statements, of which it is told how often it was made.
Change = Callable[[Sequence[Node], int], List[Node]]
Result = TypeVar("Result")

ASPECTS = ("kinds.jrag", "names.jrag", "types.jrag", "errors.jrag")
STROKES = 9
# How many faults stand in a program where a keystroke is measured beside some: each in a class of its own.
STANDING = 36


def tutorial() -> Dict[str, str]:
    """The files of the tutorial."""
    page = (ROOT / "docs" / "TUTORIAL.md").read_text(encoding="utf-8")
    return {it[1]: it[2] for it in re.finditer(r"^```file (\S+)\n(.*?)^```$", page, re.M | re.S)}


def use(name: str) -> Node:
    """The use of a kind."""
    return Node("KindUse", name)


def name(text: str) -> Node:
    """The use of a declaration."""
    return Node("Name", text)


def class_of(number: int, faults: bool) -> Node:
    """A class of about 50 nodes, with a superclass but for the first; its names are declared where no faults are."""
    field = f"f{number}"
    above = use(f"C{number - 1}") if number else None
    statements = [Node("Decl", f"v{it}", None, Node("Plus", name(field), Node("Num", it))) for it in range(6)]
    statements += [Node("Show", name("nix" if faults and it == 0 else f"v{it}")) for it in range(6)]
    return Node("ClassDecl", f"C{number}", above, [Node("Decl", field, use("int"), None)], Node("Block", statements))


def program(nodes: int, faults: bool = False) -> Node:
    """A program of about so many nodes. Where faults are wanted, STANDING stand all over it, one in a class at most."""
    count = max(1, nodes // class_of(1, False).size)
    wrong = {it * count // STANDING for it in range(STANDING)} if faults else set()
    classes = [class_of(it, it in wrong) for it in range(count)]
    return Node("Program", [Node("Basic", "int"), Node("Basic", "boolean"), *classes])


def child(node: Node, at: int) -> Node:
    """A child that is no list."""
    return cast(Node, node.cells[at])


def elements(node: Node, at: int) -> Tuple[Node, ...]:
    """The elements of a list."""
    return cast(Tuple[Node, ...], node.cells[at])


def changed_class(tree: Node, at: int, change: Callable[[Node], Node]) -> Node:
    """The tree with another class at an index of its list."""
    kinds = elements(tree, 0)
    return Node("Program", [*kinds[:at], change(kinds[at]), *kinds[at + 1:]])


def with_statements(kind: Node, change: Callable[[Sequence[Node]], List[Node]]) -> Node:
    """The class with other statements."""
    return Node("ClassDecl", *kind.cells[:3], Node("Block", change(elements(child(kind, 3), 0))))


CHANGES: Dict[str, Change] = {
    "a number": lambda s, n: [Node("Decl", "v0", None, Node("Plus", child(s[0], 2).cells[0], Node("Num", 100 + n))), *s[1:]],
    "a use": lambda s, n: [*s[:-1], Node("Show", name(f"v{n % 5}"))],
    "a statement in": lambda s, n: [s[0], Node("Show", Node("Num", n)), *s[1:]],
    "a statement out": lambda s, n: [s[0], *s[2:]],
    "a statement elsewhere": lambda s, n: [*s[1:6], s[0], *s[6:]],
    "a block around a statement": lambda s, n: [*s[:6], Node("Block", [s[6]]), *s[7:]],
    "a + 1 to a + 1 + n": lambda s, n: [Node("Decl", "v0", None, Node("Plus", s[0].cells[2], Node("Num", n))), *s[1:]],
}


class Bench:
    """A server over a program of so many nodes."""

    def __init__(self, executable: str, files: Mapping[str, str], nodes: int, faults: bool = False) -> None:
        self.grammar = Grammar.read(files["small.ast"])
        self.checks = attrd.diagnostics(self.grammar, [files[it] for it in ASPECTS], ["error"])
        self.tree = program(nodes, faults)
        self.found: List[attrd.Diagnostic] = []
        self.open(executable, files)

    def open(self, executable: str, files: Mapping[str, str]) -> None:
        """Starts a server over the tree, and opens its document."""
        self.server = attrd.start(attrd.Text("small.ast", files["small.ast"]), self.tree, *[attrd.Text(it, files[it]) for it in ASPECTS],
                                  self.checks.aspect, program=executable)
        self.document = Document(self.server.session(), self.grammar)

    def processor(self) -> float:
        """The server's processor time so far, in milliseconds."""
        try:
            process = cast(Program, self.server._channel).process
            return int(Path(f"/proc/{process.pid}/schedstat").read_text().split()[0]) / 1e6
        except (OSError, ValueError):
            return 0.0

    def timed(self, work: Callable[[], Result]) -> "Tuple[Spent, Result]":
        """The milliseconds of a piece of work: the client's, the server's, and by the clock; and its result."""
        before, begun, clock = self.processor(), time.process_time(), time.perf_counter()
        result = work()
        ended = time.process_time()
        return Spent((ended - begun) * 1e3, self.processor() - before, (time.perf_counter() - clock) * 1e3), result

    def stroke(self, new: Node) -> "Stroke":
        """From a new tree to all diagnostics: what the difference, the edits and the questions took, and how many there were."""
        differing, edits = self.timed(lambda: attrd.difference(self.grammar, self.document.tree, new, self.document.costs))
        sending, _ = self.timed(lambda: self.document.send(edits, new))
        asking, self.found = self.timed(lambda: self.checks.find(self.document, self.found))
        return Stroke(differing, sending, asking, len(edits), len(self.found))

    def naive(self, new: Node) -> Optional[float]:
        """The same by `set /`, or None where its line is too long."""
        try:
            spent, _ = self.timed(lambda: self.document.session.set("/", new))
        except attrd.LineFault:
            return None
        self.document.tree, self.document.version = new, cast(int, self.server.version)
        asking, _ = self.timed(lambda: self.checks.find(self.document))
        return spent.both + asking.both


class Spent(NamedTuple):
    """Milliseconds: the client's and the server's processor time, and by the clock."""

    client: float
    server: float
    clock: float

    @property
    def both(self) -> float:
        """Both processor times."""
        return self.client + self.server


class Stroke(NamedTuple):
    """What a change took."""

    differing: Spent
    sending: Spent
    asking: Spent
    edits: int
    faults: int

    def sum(self, what: Callable[[Spent], float]) -> float:
        """The sum of that over the three parts."""
        return sum(what(it) for it in (self.differing, self.sending, self.asking))


def middle(numbers: Sequence[float]) -> float:
    """The median."""
    return statistics.median(numbers)


def openings(executable: str, files: Mapping[str, str], sizes: Sequence[int]) -> None:
    """A server is started over a tree that the client has, and its document is opened; the same by reading the tree back."""
    table("Nodes", "Opening: start and document", "The client's share", "With the tree read back", "The client's share",
          "Client against reading back")
    for nodes in sizes:
        bench = Bench(executable, files, nodes)
        bench.server.close()
        spent, _ = bench.timed(lambda: bench.open(executable, files))
        reading, _ = bench.timed(bench.document.refresh)
        checking, _ = bench.timed(lambda: bench.grammar.check(bench.tree))
        client = spent.client + reading.client - checking.client
        row(f"{bench.tree.size:,}", ms(spent.clock), ms(spent.client), ms(spent.clock + reading.clock - checking.clock), ms(client),
            ratio(spent.client, client))
        bench.server.close()


def keystrokes(executable: str, files: Mapping[str, str], sizes: Sequence[int]) -> None:
    """From a changed number to all diagnostics, in programs of these sizes, without faults and with STANDING of them.

    Each time is the median of STROKES, but for the least one."""
    table("Nodes", "Faults", "First diagnostics", "A keystroke, to all diagnostics", "At least", "Difference", "Edits",
          "Questions", "The server's share", "By the clock", "Against the smallest tree", "`set /` in its place",
          "Against the keystroke")
    units: Dict[bool, float] = {}
    for nodes in sizes:
        for faults in (False, True):
            bench = Bench(executable, files, nodes, faults)
            first, bench.found = bench.timed(lambda: bench.checks.find(bench.document))
            count = len(bench.found)
            rows = [bench.stroke(numbered(bench, it)) for it in range(STROKES)]
            whole = middle([it.sum(lambda spent: spent.both) for it in rows])
            server = middle([it.sum(lambda spent: spent.server) for it in rows])
            parts = [middle([getattr(it, part).both for it in rows]) for part in ("differing", "sending", "asking")]
            naive = bench.naive(numbered(bench, 99))
            least = min(it.sum(lambda spent: spent.both) for it in rows)
            clock = middle([it.sum(lambda spent: spent.clock) for it in rows])
            row(f"{bench.tree.size:,}", count, ms(first.both), ms(whole), ms(least), *map(ms, parts),
                f"{server / whole:.0%}", ms(clock), ratio(whole, units.setdefault(faults, whole)),
                "refused: its line is too long" if naive is None else ms(naive), ratio(naive, whole))
            bench.server.close()


def numbered(bench: Bench, number: int) -> Node:
    """The program with another number in the class in its middle."""
    at = len(elements(bench.tree, 0)) // 2
    return changed_class(bench.document.tree, at, lambda kind: with_statements(kind, lambda s: CHANGES["a number"](s, number)))


def edits_of_changes(executable: str, files: Mapping[str, str]) -> None:
    """The edits that each kind of change comes to, and what it takes to all diagnostics."""
    table("Change, at 5,000 nodes", "Edits", "To all diagnostics", "Against another number")
    bench = Bench(executable, files, 5000)
    unit: Optional[float] = None
    bench.checks.find(bench.document)
    for what, change in CHANGES.items():
        rows = []
        for it in range(5):
            rows.append(bench.stroke(changed_class(bench.tree, 50, lambda kind: with_statements(kind, lambda s: change(s, it + 200)))))
            bench.stroke(bench.tree)
        spent = middle([it.sum(lambda spent: spent.both) for it in rows])
        unit = unit or spent
        row(what, rows[0].edits, ms(spent), ratio(spent, unit))
    bench.server.close()


def lines(executable: str, files: Mapping[str, str]) -> None:
    """A kept question again and again, waited for each time and not; and what edits of each kind cost."""
    table("A line, a kept question", "The client", "The server", "By the clock", "Both against a round trip")
    bench = Bench(executable, files, 5000)
    session = bench.document.session
    unit: Optional[float] = None
    session.ask("/", "errors")
    kinds: Dict[str, Tuple[int, Callable[[int], object]]] = {
        "a round trip": (2_000, lambda count: [session.ask("/", "errors") for _ in range(count)]),
        "without waiting": (50_000, lambda count: [it.reply() for it in session.send_all(["ask / errors()"] * count)])}
    for what, (count, work) in kinds.items():
        spent, _ = bench.timed(lambda: work(count))
        unit = unit or spent.both / count
        row(what, *(f"{it / count * 1e3:.1f} us" for it in spent), ratio(spent.both / count, unit))
    table("An edit, at 5,000 nodes", "The server", "Against a token")
    costs = attrd.measured(session, bench.grammar, bench.tree, [f"ask / {bench.checks.count}()"], clock=lambda: bench.processor() / 1e3)
    for what, seconds in vars(costs).items():
        row("each node of a new term" if what == "node" else what, f"{seconds * 1e6:.1f} us", ratio(seconds, costs.token))
    bench.server.close()


def main(words: Sequence[str]) -> None:
    executable = program_in(words, __doc__)
    sizes, files = numbers_in(words[1:], (1000, 5000, 50_000), __doc__), tutorial()
    openings(executable, files, sizes)
    keystrokes(executable, files, sizes)
    edits_of_changes(executable, files)
    lines(executable, files)


if __name__ == "__main__":
    main(sys.argv[1:])
