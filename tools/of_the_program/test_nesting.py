"""Questions whose instances nest: to the depth to which they are evaluated in one go, a level beyond it, and far beyond, by a small stack."""
import resource
import subprocess

from tools.of_the_program.runs import NOTHING, SECONDS, ProgramTest

# Expressions nest 800 deep at most where they are evaluated in one go. Of each item there are three, and five more at the last one that fits:
# so depths on both sides of that.
DEPTH = (800 - 5) // 3 + 1
DEPTHS = (1, DEPTH - 1, DEPTH, DEPTH + 1, DEPTH + 2, 3_000)
# What the program takes at its start, and reading the deepest tree and a question with it: less than that.
STACK = 2336 * 1024

GRAMMAR = "Names ::= Item*;\nItem ::= <ID>;\n"
# Each item asks the one before it, and the first one ends.
ASPECT = "aspect C {{ inh {lazy} int Item.c(); eq Names.getItem(int i).c() = i == 0 ? {first} : getItem(i - 1).c() + 1; }}\n"
# The first one looks at its name, by an attribute in which a change of the name is lost, but for one name.
NAMED = """aspect C {
  inh lazy int Item.c();
  eq Names.getItem(int i).c() = i == 0 ? getItem(0).d() : getItem(i - 1).c() + 1;
  syn lazy int Item.d() = getID().equals("n") ? 0 : 1;
}
"""


# Each item looks for the one before it through all up to that one, so all of them look at two million names.
CHAIN, MEMORY = 2_000, 64 * 1024 * 1024
LINKED = "Names ::= Item*;\nItem ::= <ID> <Before>;\n"
LOOKED_UP = """aspect C {
  syn lazy int Item.c() = getBefore().equals("") ? 0 : before().c() + 1;
  syn lazy Item Item.before() = named(getBefore());
  inh Item Item.named(String n);
  eq Names.getItem(int i).named(String n) = first (j : getItemList()) { j.is(n) };
  syn boolean Item.is(String n) = getID().equals(n);
}
"""


def little_stack() -> None:
    """For a process that begins: it has no more than that."""
    resource.setrlimit(resource.RLIMIT_STACK, (STACK, STACK))


def little_memory() -> None:
    """The same of all that it maps."""
    resource.setrlimit(resource.RLIMIT_AS, (MEMORY, MEMORY))


class Nesting(ProgramTest):
    """Chains of items, asked at their last one, each twice."""

    def answered(self, items: int, aspect: str, lines: str, *options: str) -> bytes:
        """What is told of the lines, of so many items."""
        files = {"names.ast": GRAMMAR, "names.jrag": aspect, "names.txt": "Names([" + ",".join(['Item("n")'] * items) + "])\n"}
        for name, text in files.items():
            (self.folder / name).write_text(text, encoding="utf-8")
        run = subprocess.run([self.program, *options, "names.ast", "names.txt", "names.jrag"], cwd=self.folder, env=NOTHING,
                             input=lines.encode(), stdout=subprocess.PIPE, stderr=subprocess.PIPE, timeout=SECONDS, preexec_fn=little_stack)
        self.assertEqual((run.returncode, run.stderr), (0, b""))
        return run.stdout

    def told(self, items: int, lazy: str, first: str) -> bytes:
        """What is told of the last item of so many, asked twice."""
        return self.answered(items, ASPECT.format(lazy=lazy, first=first), f"0 ask /Item:{items - 1} c()\n" * 2)

    def test_verified_instances_nest(self) -> None:
        """The first name changes what rests on it, and then it doesn't."""
        for items in DEPTHS:
            with self.subTest(items=items):
                ask, wanted = f"0 ask /Item:{items - 1} c()\n", ""
                lines = ask + "".join(f'0 token /Item:0 ID "{name}"\n{ask}' for name in ("m", "k"))
                for version, value in enumerate((items - 1, items, items)):
                    wanted += (f"0 ok {version}\n" if version else "") + f"0 = {value}\n"
                self.assertEqual(self.answered(items, NAMED, lines, "--cut-off"), wanted.encode())

    def test_lazy_instances_nest(self) -> None:
        for items in DEPTHS:
            with self.subTest(items=items):
                self.assertEqual(self.told(items, "lazy", "0"), f"0 = {items - 1}\n".encode() * 2)

    def test_instances_that_are_not_lazy_nest(self) -> None:
        for items in DEPTHS:
            with self.subTest(items=items):
                self.assertEqual(self.told(items, "", "0"), f"0 = {items - 1}\n".encode() * 2)

    def test_a_fault_at_the_end_is_told_of_the_first_item(self) -> None:
        for items in DEPTHS:
            with self.subTest(items=items):
                self.assertEqual(self.told(items, "lazy", "1 / 0"), b"0 fault zero in /Item:0.c\n" * 2)

    def test_a_circle_is_told(self) -> None:
        for items in DEPTHS:
            with self.subTest(items=items):
                first = f"getItem({items - 1}).c()"
                self.assertEqual(self.told(items, "", first), f"0 circular /Item:{items - 1}.c\n".encode() * 2)

    def test_the_deepest_body_is_read_and_answered(self) -> None:
        """A body of as many forms as may be, each of whose choices stands in the one before."""
        body = "if (false) return 1; " * 1_365 + "return 2;"
        aspect = f"aspect C {{ syn lazy int Item.c() {{ {body} }} }}\n"
        lines = "0 ask /Item:0 c()\n0 token /Item:0 ID \"m\"\n0 post /Item:0 c()\n0 wait 1\n"
        wanted = b"0 = 2\n0 ok 1\n0 open 1\n0 done 1 1 = 2\n0 refused 15 question\n"
        for options in (), ("--cut-off",):
            with self.subTest(options=options):
                self.assertEqual(self.answered(1, aspect, lines, "--forms", "jastadd", *options), wanted)

    def test_what_a_deep_chain_looks_through_is_not_held(self) -> None:
        items = ",".join(f'Item("n{k}","{f"n{k - 1}" if k else ""}")' for k in range(CHAIN))
        for name, text in {"names.ast": LINKED, "names.jrag": LOOKED_UP, "names.txt": f"Names([{items}])\n"}.items():
            (self.folder / name).write_text(text, encoding="utf-8")
        run = subprocess.run([self.program, "--work", "names.ast", "names.txt", "names.jrag"], cwd=self.folder, env=NOTHING, timeout=SECONDS,
                             input=f"0 ask /Item:{CHAIN - 1} c()\n".encode(), capture_output=True, preexec_fn=little_memory)
        self.assertEqual((run.returncode, run.stdout, run.stderr), (0, f"0 = {CHAIN - 1}\n".encode(), f"work {2 * CHAIN - 1}\n".encode()))
