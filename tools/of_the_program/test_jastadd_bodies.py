"""Bodies of statements by chance: the program answers what is answered where they are done one statement after the other."""
import os
import random
from collections import Counter
from typing import Dict, List, NamedTuple, Sequence

from tools.of_the_program.jastadd_bodies import GRAMMAR, NAMES, Method, Node, Value, aspects, methods, tree
from tools.of_the_program.jastadd_java import Java, told
from tools.of_the_program.keeping import OPTIONS, KeepingTest
from tools.of_the_program.sessions import Sample

FORMS = ["--forms", "jastadd"]
# How many files there are, of so many methods, and on how many trees each is asked; the variables give others.
FILES, METHODS, TREES, SEED = 40, 8, 3, 1958
# Of a tree at most so many nodes are asked.
ASKED = 8
# What is answered somewhere: values of these kinds, and these faults.
ANSWERED = {"int", "boolean", "String", "Item", "null", "zero", "index", "cast", "long"}
# Ints that are passed by a line.
GIVEN = (0, 0, 1, 2, 3, -1, 7, 65_536, 1_048_576, -1_048_577)


class Sent(NamedTuple):
    """A line, its reply, and of a question the kind of its value or of its fault."""

    line: str
    reply: str
    sort: str = ""


def argument(kind: str, root: Node, chance: random.Random) -> Value:
    """An argument for a parameter of the kind."""
    given: Dict[str, Sequence[Value]] = {"String": NAMES, "int": GIVEN, "boolean": (True, False), "Item": [None, *root.all()]}
    return chance.choice(given[kind])


def asked(java: Java, node: Node, method: Method, given: Sequence[Value]) -> Sent:
    """A question."""
    reply = java.reply(node, method.name, tuple(given))
    sort = reply.split(" ")[1] if reply.startswith("fault") else "" if reply == "= null" else method.kind
    return Sent(f"0 ask {node.path} {method.name}({','.join(map(told, given))})", f"0 {reply}", sort)


def session(made: List[Method], trees: Sequence[Node], chance: random.Random) -> List[Sent]:
    """Questions of each method on one tree after the other."""
    found: List[Sent] = []
    for at, root in enumerate(trees):
        if at:
            found.append(Sent(f"0 set / {root.term()}", f"0 ok {at}"))
        java, nodes = Java(made), list(root.all())
        for node in chance.sample(nodes, min(len(nodes), ASKED)):
            found += [asked(java, node, it, [argument(kind, root, chance) for kind in it.parameters]) for it in made]
    return found


class Bodies(KeepingTest):
    """Files of methods, with their answers."""

    def setUp(self) -> None:
        super().setUp()
        self.count, self.seed = (int(os.environ.get(f"ATTRD_BODIES_{name}", usual)) for name, usual in (("FILES", FILES), ("SEED", SEED)))

    def assert_answered(self, seed: str) -> List[str]:
        """The methods of a seed are answered right; gives the sorts of what was answered."""
        chance = random.Random(seed)
        made, trees = methods(chance, METHODS), [tree(chance) for _ in range(TREES)]
        sent, options = session(made, trees, chance), chance.choice(list(OPTIONS.values()))
        files = self.write(Sample(GRAMMAR, trees[0].term(), [aspects(made)]))
        replies = self.played_with([*FORMS, *options], 1_000, files, "".join(f"{it.line}\n" for it in sent))[0].splitlines()
        for reply, it in zip(replies, sent):
            if reply != it.reply:
                self.fail(f"{it.line}: {reply} in place of {it.reply}\n{aspects(made)}")
        self.assertEqual(len(replies), len(sent))
        return [it.sort for it in sent]

    def test_bodies_are_answered_as_their_statements_are_done(self) -> None:
        sorts = Counter[str]()
        for number in range(self.count):
            with self.subTest(f"{self.seed}.{number}"):
                sorts.update(self.assert_answered(f"{self.seed}.{number}"))
        self.assertLessEqual(ANSWERED, set(sorts))
