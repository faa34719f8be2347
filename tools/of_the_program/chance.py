"""Lines made by chance over a sample, the same for the same seed; over the calculator some post questions, and wait for them."""
from typing import Iterator, NamedTuple, Sequence, Tuple, Union


class Words(NamedTuple):
    """What the words of a sample's lines are taken from."""

    places: Sequence[str]
    parts: Sequence[str]
    values: Sequence[str]
    terms: Sequence[str]
    attributes: Sequence[str]
    # whole edits
    edits: Sequence[str]


CALCULATED = Words(
    places=(
        "/", "/Block", "/Block/Stmt:0", "/Block/Stmt:0/Init", "/Block/Stmt:1", "/Block/Stmt:1/Expr", "/Block/Stmt:1/Expr/Left",
        "/Block/Stmt:1/Expr/Right", "/Block/Stmt:2", "/Block/Stmt:2/Expr", "/Block/Stmt:2/Init", "/Block/Stmt:0/Stmt:0/Expr", "$u",
        "$v", "$v/Init", "/Block/Stmt", "/Left",
    ),
    parts=("Value", "ID", "Stmt", "Init", "Expr", "Left"),
    values=("5", "-7", "2147483647", '"x"', '"y"', '""'),
    terms=(
        "Num(4)", 'Use("x")', 'Add(Num(1),Use("y"))', 'Decl("x",Num(5))', 'Decl("x",Add(Use("y"),Num(1)))', 'Decl("y",-)',
        'Print(Use("x"))', 'Print(Add(Use("x"),Use("y")))', 'Block([Decl("y",Num(8)),Print(Use("x"))])', 'Num("x")', "Stmt()",
    ),
    attributes=(
        "value()", "value()", "value()", "decl()", "decl()", 'lookup("x")', 'local("x")', 'local("y")', 'declares("x")', "pos()", "circ()",
        "c2()", "c3()", "same()", "big()", "value(null)", "lookup(/)",
    ),
    edits=(
        'token /Block/Stmt:0 ID "x"', 'token /Block/Stmt:0 ID "y"', "token /Block/Stmt:1/Expr/Right Value 5",
        'set /Block/Stmt:1 Print(Add(Use("x"),Num(2)))', 'set /Block/Stmt:0/Init Add(Use("y"),Num(3))', "put /Block/Stmt:0 Init Num(6)",
        "drop /Block/Stmt:0/Init", "drop /Block/Stmt:0", "drop /Block/Stmt:1", 'insert /Block Stmt 0 Decl("x",Num(1))',
        'insert /Block Stmt 0 Decl("y",Use("x"))', 'insert /Block Stmt 1 Print(Add(Use("x"),Use("y")))',
        'insert /Block Stmt 1 Block([Print(Use("x"))])',
    ),
)
QUESTIONS = (
    "/Block/Stmt:0 value()", "/Block/Stmt:1/Expr value()", "/Block/Stmt:1/Expr value()", "/Block/Stmt:0/Init value()",
    '/Block local("x")', '/Block local("y")', "/Block/Stmt:1 pos()", "/ circ()", "$u value()", "$v decl()",
)
# Texts that are no lines.
BROKEN = (
    "", " ", "version", "0", "0  version", "1000 version", "01 version", "0 versions", "0 ask", "0 ask /", "0 ask / value",
    "0 ask / value(", '0 ask / lookup("x)', '0 ask / lookup("\\x")', "0 ask // value()", "0 show /Block/Stmt:01",
    "0 show /Block/Stmt:4294967296", "0 show Block", "0 token / Value 99999999999", "0 token / Value --1", "0 set / Num(",
    "0 set / Num(1))", '0 set / "Num"', "0 insert / Stmt -1 Num(1)", "0 move / to / Stmt", "0 move / / Stmt 0", "0 at version",
    "0 at -1 version", "0 mark 1 /", "0 where $u", "0 show $", '0 \x01', "0 ask / é()",
)
SESSIONS = ("0", "0", "0", "1", "999")
VERSIONS = (" at 0", " at 1", " at 2", " at 3", " at 18446744073709551615")
# What is taken one after the other for a command: a text of each, or a word of that kind, as a field of `Words` is called. A row that
# stands more often is taken more often.
Pieces = Tuple[Union[str, Sequence[str]], ...]
SPACE = (" ",)
ASK: Pieces = ((" ask ",), "places", SPACE, "attributes")
POST: Pieces = ((" post ",), QUESTIONS)
POSTS: Sequence[Pieces] = (((" post ",), "places", SPACE, "attributes"), POST, POST, POST)
DROP: Pieces = ((" drop ",), "places")
MOVE: Pieces = ((" move ",), "places", (" to ",), "places", SPACE, "parts", (" 0", " 0", " 1", " 2", " 7"))
WHOLE: Pieces = (SPACE, "edits")
# Commands that edit nothing.
COMMANDS: Sequence[Pieces] = (
    ((" version",),),
    ((" mark u ", " mark v "), "places"),
    ((" unmark u", " unmark v"),),
    ((" where u", " where v", " where w"),),
    ((" show ",), "places"),
    *[ASK] * 4,
)
EDITING: Sequence[Pieces] = (
    ((" set ",), "places", SPACE, "terms"),
    ((" put ",), "places", SPACE, "parts", SPACE, "terms"),
    *[DROP] * 2,
    ((" insert ",), "places", SPACE, "parts", (" 0 ", " 0 ", " 1 ", " 2 ", " 7 "), "terms"),
    ((" token ",), "places", SPACE, "parts", SPACE, "values"),
    *[MOVE] * 2,
    *[WHOLE] * 6,
)


class Chance:
    """Numbers, each made of the one before (Marsaglia 2003)."""

    def __init__(self, seed: int, words: Words = CALCULATED) -> None:
        self.state, self.words = seed, words

    def below(self, limit: int) -> int:
        """A number below the limit."""
        self.state ^= self.state << 13 & 0xFFFF_FFFF_FFFF_FFFF
        self.state ^= self.state >> 7
        self.state ^= self.state << 17 & 0xFFFF_FFFF_FFFF_FFFF
        return self.state % 1_000_003 % limit

    def among(self, texts: Sequence[str]) -> str:
        """One of the texts."""
        return texts[self.below(len(texts))]

    def joined(self, pieces: Pieces) -> str:
        """A text of each piece."""
        return "".join(self.among(getattr(self.words, it) if isinstance(it, str) else it) for it in pieces)

    def lines(self, count: int) -> Iterator[str]:
        """So many lines. One in eight posts a question, and another one waits for one."""
        posts = 1
        for _ in range(count):
            kind = self.below(8)
            if kind == 0:
                yield self.among(SESSIONS) + self.joined(POSTS[self.below(4)])
                posts += 1
            elif kind == 1:
                # some posts are refused, and take no number
                yield f"{self.among(SESSIONS)} wait {max(0, posts - posts // 8 - self.below(24))}"
            else:
                yield self.line()

    def line(self) -> str:
        """A line, of which one in sixteen is broken, and one in eight expects a version; seven in sixteen commands are edits."""
        if self.below(16) == 0:
            return self.among(BROKEN)
        front = self.among(SESSIONS) + (self.among(VERSIONS) if self.below(8) == 0 else "")
        kind = self.below(16)
        return front + self.joined(COMMANDS[kind] if kind < 9 else EDITING[self.below(14)])
