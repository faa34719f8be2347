"""Each request for memory refused in turn (tools/refuse.c), in a session that looks at tree, marks and version behind each line."""
import subprocess
import tempfile
from typing import Dict, List, Optional, Set

from tools.of_the_program.runs import SECONDS, ProgramTest
from tools.starve import refusing

FILES = {
    "row.ast": "Row ::= Item* [Last:Item];\nItem ::= <ID>;\n",
    "row.txt": 'Row([Item("a"),Item("b"),Item("c")],-)\n',
    "row.jrag": "aspect R {\n  inh lazy int Item.at();\n  eq Row.getItem(int i).at() = i;\n  eq Row.getLast().at() = -1;\n"
                "  syn lazy int Row.all() = sum (i : getItemList()) { i.at() };\n}\n",
}
# Edits of each kind, marks, and questions.
LINES = [
    "0 mark a /Item:0",
    "1 mark b /Item:1",
    "0 ask / all()",
    '0 insert / Item 0 Item("new")',
    "0 move $a to / Item 2",
    "0 ask $a at()",
    '0 set /Item:3 Item("other")',
    '0 put / Last Item("last")',
    '1 token $b ID "' + "long" * 20 + '"',
    "0 mark l /Last",
    "0 ask / all()",
    "0 drop /Last",
    "1 drop /Item:1",
    "0 unmark a",
]
# What is looked at behind each of them.
LOOKS = ["9 show /", "0 where a", "0 where l", "1 where b", "9 version"]
SESSION = [line for it in LINES for line in (it, *LOOKS)]
MOST = 100_000


class Memory(ProgramTest):
    """Want of memory, in each place where there can be one."""

    def setUp(self) -> None:
        super().setUp()
        for name, text in FILES.items():
            (self.folder / name).write_text(text, encoding="utf-8")
        library = tempfile.TemporaryDirectory()
        self.addCleanup(library.cleanup)
        self.refusing = refusing(library.name)
        self.told_without: Dict[Optional[int], List[str]] = {}

    def run_of(self, lines: List[str], nth: int = 0) -> "subprocess.CompletedProcess[str]":
        """A run over these lines, with the nth request refused; with none where that is 0."""
        environment = {**self.refusing, "REFUSE": str(nth)}
        return subprocess.run([self.program, "row.ast", "row.txt", "row.jrag"], cwd=self.folder, env=environment, capture_output=True,
                              input="".join(f"{it}\n" for it in lines), encoding="utf-8", timeout=SECONDS)

    def replies(self, lines: List[str]) -> List[str]:
        """What these lines are told where no request is refused, a reply for each."""
        run = self.run_of(lines)
        told = run.stdout.splitlines()
        self.assertEqual((run.returncode, run.stderr, len(told)), (0, "", len(lines)))
        return told

    def replies_without(self, line: Optional[int]) -> List[str]:
        """What the session is told without this line, or with all of them; many requests are made for one line, so it is kept."""
        if line not in self.told_without:
            self.told_without[line] = self.replies([it for i, it in enumerate(SESSION) if i != line])
        return self.told_without[line]

    def line_without_memory(self, told: List[str]) -> Optional[int]:
        """Which line of the session was answered `memory`, if one was. The others were told what they are told by a run without it."""
        wanting = [i for i, reply in enumerate(told) if reply == f"{SESSION[i].split()[0]} memory"]
        self.assertLessEqual(len(wanting), 1, told)
        line = wanting[0] if wanting else None
        self.assertEqual([it for i, it in enumerate(told) if i != line], self.replies_without(line))
        return line

    def test_a_line_without_memory_leaves_tree_marks_and_version(self) -> None:
        whole = self.replies_without(None)
        self.assertEqual(whole[-5:], ['9 = Row([Item("new"),Item("a"),Item("other")],-)', *["0 refused 3 mark"] * 2, "1 refused 3 mark", "9 ok 7"])
        starved: Set[Optional[int]] = set()
        for nth in range(1, MOST):
            run = self.run_of(SESSION, nth)
            if run.stderr == "":
                break
            with self.subTest(request=nth):
                if run.returncode == 4:
                    self.assertEqual((run.stdout, run.stderr), ("", "refused\nmemory\n"))
                    self.assertLessEqual(starved, {None}, "the program ends in its session")
                else:
                    self.assertEqual((run.returncode, run.stderr), (0, "refused\n"))
                    starved.add(self.line_without_memory(run.stdout.splitlines()))
        told = {SESSION[i].split()[1] for i in starved if i is not None}
        self.assertEqual(told, {"mark", "ask", "insert", "move", "set", "put", "token", "drop", "show", "where"})
