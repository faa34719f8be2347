"""Forms of aspects that are read where an option names them: `--forms circular`."""
from typing import List, Tuple

from tools.of_the_program.runs import SECONDS, THREE, ProgramTest, ended

GRAMMAR = b"A ::= <On:boolean> [B:A];\n"
TREE = b"A(true,A(false,-))\n"
# Aspects over that grammar, by names that say which way they come back to themselves.
CIRCLES = b"""aspect Circles {
  syn boolean A.some() circular [false] = back() || on();
  syn boolean A.back() circular [false] = some();
  syn boolean A.on() circular [false] = getOn();
  syn boolean A.one() circular [false] = other() || 1 / 0 == 0;
  syn boolean A.other() circular [false] = one() || getOn();
  syn boolean A.least() circular [false] = least();
  syn boolean A.greatest() circular [true] = greatest();
  syn boolean A.not() circular [false] = !not();
  syn boolean A.twice() circular [false] = !!twice() || getOn();
  syn boolean A.through() circular [false] = plain() || getOn();
  syn boolean A.plain() = through();
  syn boolean A.up() circular [false] = down() || getOn();
  syn boolean A.down() circular [true] = up();
  syn lazy int A.count() = (some() ? 1 : 0) + (least() ? 10 : 0) + (greatest() ? 100 : 0);
  syn boolean A.deep() circular [false] = getB().deep() || getOn();
  syn boolean A.guard() circular [false] = hasB() && getB().guard() || getOn();
  syn boolean A.into() circular [false] = either();
  syn boolean A.either() circular [false] = each() || zero();
  syn boolean A.each() circular [false] = either() || strict();
  syn boolean A.strict() circular [false] = each() ? true : false;
  syn boolean A.zero() circular [false] = 1 / 0 == 0;
  syn boolean A.outer() circular [false] = inner() || zero();
  syn boolean A.inner() circular [false] = outer() || some();
}
"""
# What each question is told, and how many values were evaluated for it alone.
ANSWERS: List[Tuple[str, str, int]] = [
    ("some", "= true", 3),
    ("one", "fault zero in /.one", 0),
    ("other", "fault zero in /.one", 0),
    ("least", "= false", 1),
    ("greatest", "= true", 1),
    ("not", "circular /.not", 0),
    ("twice", "= true", 1),
    ("through", "circular /.through", 0),
    ("plain", "circular /.plain", 0),
    ("up", "circular /.up", 0),
    ("down", "circular /.down", 0),
    ("count", "= 101", 6),
    ("deep", "fault absent in /B.deep", 0),
    ("guard", "= true", 2),
    ("into", "circular /.each", 0),
    ("each", "circular /.each", 0),
    ("strict", "circular /.strict", 0),
    ("inner", "fault zero in /.zero", 3),
    ("outer", "fault zero in /.zero", 3),
]
# A value that was true by going round isn't kept where what it began from is gone.
EDITED = b"0 ask / some()\n0 token / On false\n0 ask / some()\n0 token / On true\n0 ask / some()\n"
KEEPERS = "", "--cut-off", "--keep 2", "--cut-off --keep 2"
# A declaration, and what is told of it where the form isn't read, and where it is; nothing where it is accepted.
DECLARED = [
    ("syn boolean A.a() circular [false] = a();", "J10 form left out at 1:30", ""),
    ("syn lazy boolean A.a() circular [true] = a();", "J10 form left out at 1:35", ""),
    ("syn int A.a() circular [false] = 1;", "J10 form left out at 1:26", "J10 form left out at 1:26"),
    ("syn boolean A.a() circular [0] = a();", "J10 form left out at 1:30", "J10 form left out at 1:40"),
    ("syn boolean A.a() circular [+] = a();", "J10 form left out at 1:30", "J1 syntax at 1:40"),
    ("syn boolean A.a() circular = a();", "J10 form left out at 1:30", "J1 syntax at 1:39"),
    ("eq A.a() circular [true] = true;", "J1 syntax at 1:21", "J1 syntax at 1:21"),
]
# Two declarations of an inherited attribute that agree in their starts, or not.
INHERITED = "aspect C { inh boolean A.a() circular [%s]; inh boolean C.a()%s; eq B.getA().a() = false; eq B.getC().a() = true; }"
AGREEING = [
    ("false", " circular [false]", ""),
    ("true", " circular [true]", ""),
    ("true", " circular [false]", "J2 attribute twice at 1:47"),
    ("false", "", "J2 attribute twice at 1:48"),
]


def work_of(options: str, count: int) -> bytes:
    """What is told of that much work; with cut-off all of it is made, where nothing is kept again."""
    return "".join(f"{it} {count}\n" for it in ("work", *(["made"] if "--cut-off" in options else []))).encode()


class Forms(ProgramTest):
    """What `circular` means where it is read, and what is told of it where it isn't."""

    def setUp(self) -> None:
        super().setUp()
        for name, held in ("a.ast", GRAMMAR), ("a.txt", TREE), ("a.jrag", CIRCLES):
            (self.folder / name).write_bytes(held)

    def told(self, options: str, lines: bytes) -> Tuple[bytes, bytes]:
        """What is written for the lines, and on standard error."""
        run = self.begin(["--work", "--forms", "circular", *options.split(), "a.ast", "a.txt", "a.jrag"])
        out, err = run.communicate(lines, timeout=SECONDS)
        self.assertEqual(run.returncode, 0)
        return out, err

    def test_each_question_by_itself(self) -> None:
        for options in KEEPERS:
            for name, answer, work in ANSWERS:
                with self.subTest(f"{name} {options}"):
                    told = self.told(options, f"0 ask / {name}()\n".encode())
                    self.assertEqual(told, (f"0 {answer}\n".encode(), work_of(options, work)))

    def test_each_question_behind_the_others(self) -> None:
        """Those that come later find what was kept, and are told the same; so they are where they are posted, in any order."""
        for options in *KEEPERS, "--slice 1000":
            for rows in ANSWERS, ANSWERS[::-1]:
                asked = "".join(f"0 ask / {name}()\n" for name, _, _ in rows)
                self.assertEqual(self.told(options, asked.encode())[0].decode().splitlines(), [f"0 {answer}" for _, answer, _ in rows])
                done = [it for it in self.told(options, asked.replace("ask", "post").encode())[0].decode().splitlines() if " open " not in it]
                self.assertEqual(sorted(done), sorted(f"0 done {n} 0 {answer}" for n, (_, answer, _) in enumerate(rows, 1)))

    def test_a_value_goes_with_what_it_began_from(self) -> None:
        for options in KEEPERS:
            with self.subTest(options):
                self.assertEqual(self.told(options, EDITED), (b"0 = true\n0 ok 1\n0 = false\n0 ok 2\n0 = true\n", work_of(options, 9)))

    def assert_verdict(self, options: List[str], text: str, told: str) -> None:
        """The aspects are refused with this text, where it isn't empty, and else accepted."""
        (self.folder / "c.jrag").write_text(text, encoding="utf-8")
        run = self.begin([*options, "c.ast", "c.txt", "c.jrag"])
        self.assertEqual(ended(run), (1, b"", f"c.jrag: {told}\n".encode()) if told else (0, b"", b""))

    def test_declarations_without_the_option_and_with_it(self) -> None:
        (self.folder / "c.ast").write_text("A;", encoding="utf-8")
        (self.folder / "c.txt").write_text("A()", encoding="utf-8")
        for text, without, within in DECLARED:
            with self.subTest(text):
                self.assert_verdict([], f"aspect C {{ {text} }}", without)
                self.assert_verdict(["--forms", "circular"], f"aspect C {{ {text} }}", within)

    def test_inherited_ones_agree_in_their_start(self) -> None:
        (self.folder / "c.ast").write_text("B ::= A C; A; C;", encoding="utf-8")
        (self.folder / "c.txt").write_text("B(A(),C())", encoding="utf-8")
        for start, other, told in AGREEING:
            with self.subTest(start + other):
                self.assert_verdict(["--forms=circular"], INHERITED % (start, other), told)

    def test_connections_are_served_with_it_too(self) -> None:
        words = ["--forms=circular,circular", "a.ast", "a.txt", "a.jrag"]
        received, end = self.served(words, [(EDITED, False)])
        self.assertEqual((received, end), ([b"0 = true\n0 ok 1\n0 = false\n0 ok 2\n0 = true\n"], (0, b"", b"")))

    def test_nothing_changes_for_other_aspects(self) -> None:
        lines = b"0 ask / total()\n0 token /Right Value 5\n0 ask /Left twice()\n0 ask / total()\n"
        told = []
        without: List[str] = []
        for words in without, ["--forms", "circular"]:
            run = self.begin(["--work", *words, *THREE, "lazy.jrag"])
            told.append((run.communicate(lines, timeout=SECONDS), run.returncode))
        self.assertEqual(told, [((b"0 = 11\n0 ok 1\n0 = 6\n0 = 13\n", b"work 1\n"), 0)] * 2)
