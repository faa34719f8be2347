"""Grammars with components between slashes, and aspects with the constants that fill them, in which a token is spoiled by chance: the program
tells the code and the place that the definitions say."""
import os
import random
import sys
from collections import Counter
from typing import Dict, List, NamedTuple, Optional, Sequence

from tools.of_the_program.constants_faults import GRAMMAR, UNKNOWN, fault_of
from tools.of_the_program.runs import ProgramTest, ended
from tools.of_the_program.spoiling import TOKENS, spaced, spoiled_once

TREE, ASPECTS = "x.txt", ("x.jrag", "y.jrag")
WORDS = ["--forms", "jastadd", GRAMMAR, TREE, *ASPECTS]
# How many spoiled files there are of each form; the variables give others. With ATTRD_CONSTANTS_TOLD what was refused is told of each form.
FILES, SEED = 30, 1848
# How many files of each form are refused at least, and which codes are told of some of those of all forms.
FEWEST = 15
CODES = ("G1", "G3", "G5", "G7", "J1", "J2", "J3", "J4", "J6", "J7", "J10")


class Form(NamedTuple):
    """A grammar and two aspect files in which nothing is wrong."""

    grammar: str
    first: str
    second: str = "aspect B { }"

    def files(self) -> Dict[str, str]:
        """Their texts, by the names of the files."""
        return {GRAMMAR: self.grammar, **dict(zip(ASPECTS, (self.first, self.second)))}


CLASSES = " X ::= <N:int> ; W : X ; Y ::= X * [ Z ] ; Z ; Q ::= <S> ;"
MADE = "aspect A { syn nta X P.getX() = new X(1); syn nta List<X> P.getOneList() = new List<X>(); } "
FORMS = {
    "a tree": Form("P ::= /X/ ;" + CLASSES, "aspect A { syn nta X P.getX() = new X(1); }"),
    "a tree with a name": Form("P ::= /One:X/ Z * ;" + CLASSES, "aspect A { syn nta X P.getOne() { return new W(-2); } }"),
    "a list": Form("P ::= /X*/ [ Q ] ;" + CLASSES, "aspect A { syn nta List<X> P.getXList() = new List<X>().add(new X(1)).add(new W(2)); }"),
    "a list with a name": Form("P ::= Z * /One:X*/ ;" + CLASSES, "aspect A { syn lazy nta List<X> P.getOneList() { return new List(); } }"),
    "a local list": Form("P ::= /One:X*/ ;" + CLASSES, "aspect A { syn nta List<X> P.getOneList() { "
                         "List<X> l = new List<X>().add(new X(0)); l.add(new W(1)); l.add(new X(2)); return l; } }"),
    "an empty local list": Form("P ::= /X*/ ;" + CLASSES,
                                "aspect A { public syn nta final List<X> P.getXList() { List<X> l = new List(); return l; } }"),
    "several": Form("P ::= /X/ /Y/ /One:X*/ /Two:X*/ ;" + CLASSES,
                    "aspect A { syn nta X P.getX() = new X(1); syn nta List<X> P.getOneList() = new List(); }",
                    "aspect B { syn nta Y P.getY() = new Y(new List(), new Opt()); syn nta List<X> P.getTwoList() = new List(); }"),
    "alike": Form("P ::= /X/ /One:X/ /Two:X/ ;" + CLASSES, "aspect A { syn nta X P.getX() = new X(1); syn nta X P.getOne() = new X(2); }",
                  "aspect B { syn nta X P.getTwo() = new W(3); }"),
    "below each other": Form("P ::= A * /B/ ; abstract A ::= /Z/ <N> ; B : A ::= /Q*/ ; C : B ;" + CLASSES,
                             "aspect A { syn nta Z A.getZ() = new Z(); syn nta B P.getB() = new C(\"n\"); }",
                             "aspect B { syn nta List<Q> B.getQList() = new List<Q>().add(new Q(\"q\")); }"),
    "in each other": Form("P ::= /A/ ; A ::= /B/ ; B ::= /C*/ ; C ;" + CLASSES,
                          "aspect A { syn nta A P.getA() = new A(); syn nta B A.getB() = new B(); }",
                          "aspect B { syn nta List<C> B.getCList() = new List<C>().add(new C()); }"),
    "arguments": Form("P ::= /Y/ /T/ ; T ::= <S> <N:int> <B:boolean> Y [ Q ] ;" + CLASSES,
                      "aspect A { syn nta Y P.getY() = new Y(new List<X>().add(new X(1)), new Opt<Z>(new Z())); }",
                      "aspect B { syn nta T P.getT() = new T(\"s\", -1, true, new Y(new List(), new Opt()), new Opt()); }"),
    "more components": Form("P ::= /X/ /One:X*/ ;" + CLASSES, MADE + "aspect C { syn nta X P.more() = new W(3); syn nta Z X.z() = new Z(); }",
                            "aspect B { syn nta Q P.getTwo() = new Q(\"q\"); syn nta List<Z> W.getMoreList() = new List<Z>().add(new Z()); }"),
}
# What comes in the place of tokens of grammars and of aspects, or between them.
OF_GRAMMARS = ("/ / / /X/ * : ; [ ] < > ::= = . ( P X Y Z Q W A One Two NumOne OneList Nix abstract int String List Child 1 \"t\" # //").split()
OF_ASPECTS = ("syn inh eq lazy final nta public new return aspect int String List Opt add true null this P X Y Z Q W A B One get getX getY getZ "
              "getOne getXList getOneList getTwoList getList more equals l Nix ASTNode ; , . ( ) { } < > = - ! [ 0 1 007 2147483648 "
              "\"t\" \"\\q\" #").split()
# Names one of which comes in the place of another one, and how often that is what is spoiled.
NAMES = ("P X Y Z W Q A B Nix".split(), "getX getY getZ getB getOne getTwo more".split(), "getXList getQList getOneList getTwoList".split(),
         "X Y One Two NumOne OneList".split())
RENAMED = 0.5


def renamed(tokens: Sequence[str], chance: random.Random) -> List[str]:
    """The tokens with another class, component or accessor in the place of one, as often as not one that is there, too."""
    names = chance.choice([it for it in NAMES if any(token in it for token in tokens)])
    at = chance.choice([at for at, it in enumerate(tokens) if it in names])
    there = [it for it in tokens if it in names and it != tokens[at]]
    return [*tokens[:at], chance.choice(there if there and chance.random() < 0.5 else names), *tokens[at + 1:]]


class Spoiled(ProgramTest):
    """What is told of spoiled files."""

    def setUp(self) -> None:
        super().setUp()
        self.count, self.seed = (int(os.environ.get(f"ATTRD_CONSTANTS_{name}", usual)) for name, usual in (("FILES", FILES), ("SEED", SEED)))
        (self.folder / TREE).write_text("P()\n")

    def told(self, files: Dict[str, str]) -> Optional[str]:
        """The fault that the program tells of a grammar and aspects; None where they are accepted, whatever it tells of the tree."""
        for name, text in files.items():
            (self.folder / name).write_text(text, encoding="utf-8", newline="")
        status, out, err = ended(self.begin(WORDS))
        self.assertEqual((status, out), (1 if err else 0, b""))
        told = err.decode().rstrip("\n")
        return None if not told or told.startswith(f"{TREE}: ") else told

    def test_each_form_is_read(self) -> None:
        for name, form in FORMS.items():
            with self.subTest(name):
                files = form.files()
                self.assertEqual((fault_of(form.grammar, dict(list(files.items())[1:])), self.told(files)), (None, None))

    def test_spoiled_files_are_told_as_defined(self) -> None:
        found = Counter[str]()
        for name, form in FORMS.items():
            codes = [self.code_of(f"{self.seed}.{name}.{number}", form) for number in range(self.count)]
            refused = sum(map(bool, codes))
            if os.environ.get("ATTRD_CONSTANTS_TOLD"):
                print(f"{name}: {dict(Counter(codes))}", file=sys.stderr)
            self.assertGreaterEqual(refused, FEWEST * self.count // FILES, f"so few files of {name} are refused")
            found.update(codes)
        if self.count >= FILES:
            self.assertLessEqual(set(CODES), set(found))

    def code_of(self, seed: str, form: Form) -> str:
        """The code that is told of the form where one of its files is spoiled; nothing where none is."""
        chance, files = random.Random(seed), form.files()
        is_grammar = chance.random() < 0.4
        name = GRAMMAR if is_grammar else chance.choice([it for it in ASPECTS if "syn" in files[it]])
        files[name] = self.spoiled(files[name], OF_GRAMMARS if is_grammar else OF_ASPECTS, chance)
        wanted, told = fault_of(files[GRAMMAR], {it: files[it] for it in ASPECTS}), self.told(files)
        with self.subTest(seed):
            if wanted != UNKNOWN:
                self.assertEqual(told, wanted, files[name])
        return told.split(" ")[1] if told else ""

    @staticmethod
    def spoiled(text: str, others: List[str], chance: random.Random) -> str:
        """The text with one token spoiled."""
        tokens = TOKENS.findall(text)
        found = tokens
        while found == tokens:
            found = renamed(tokens, chance) if chance.random() < RENAMED else spoiled_once(tokens, others, chance)
        return spaced(found, chance)
