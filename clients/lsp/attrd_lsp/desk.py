"""A tree in a program of its own, and the questions that are asked of it.

Questions go in steps that are short, so that an edit waits for none of them: `Task.step` sends some and takes what is
answered. Where the program goes on with questions in turns, the questions of a check are posted. Then a step that sends no
more questions sends lines that tick, since the program gives turns behind lines alone."""
from __future__ import annotations

import time
from functools import lru_cache
from typing import Callable, Dict, FrozenSet, Generic, List, NamedTuple, Optional, Sequence, Tuple, TypeVar

import attrd
from attrd import commands
from attrd.authoring import Source, Specification
from attrd.connection import Pending
from attrd.edits import Edit, below
from attrd.lexical import TREE_DEPTH
from attrd.replies import Circular, Code, Done, Fault, Memory, Opened, RefusedReply, Value

from .inquiry import Answer, Inquiry, Kept, NoAnswer, Question

T = TypeVar("T")
Taker = Callable[[Question, Done], None]


class TooLarge(attrd.AttrdError):
    """A tree has more nodes than the program takes."""

    def __init__(self, nodes: int) -> None:
        super().__init__(f"the file is too large: its tree has more than {nodes:,} nodes")


SESSION = 0
# How many turns the program gives behind each line: a fraction of a millisecond.
SLICE = 100
# How long a step should take, in seconds.
SHORTEST, LONGEST = 0.003, 0.010
# How many questions a task sends in its first step, how many ticks it sends first, and how many lines at most.
QUESTIONS, TICKS, MOST = 64, 2, 1024
# How many questions are open at a time; the program takes 100 in a session.
OPEN = 90


class Pace:
    """How many lines a step sends: fewer where steps have become long, more where they have become short."""

    def __init__(self, count: int) -> None:
        self.count = count

    def follow(self, began: float) -> None:
        """Goes by the time that the step took which began then, by `time.perf_counter`."""
        spent = time.perf_counter() - began
        if spent > LONGEST:
            self.count = max(1, self.count // 2)
        elif spent < SHORTEST:
            self.count = min(MOST, self.count * 2)


class Desk:
    """A program over a tree. `posts` tells whether it knows questions in turns, `checks` what tells problems.

    Where the aspects don't declare what the language says, `checks` is None, and `why` the reason."""

    def __init__(self, server: attrd.Server, files: Sequence[Source], tree: attrd.Node, posts: bool, forms: str = "") -> None:
        """`files` are the grammar and the aspects of the program, which reads these forms. Raises GrammarFault."""
        self.server, self.files, self.posts, self.forms = server, tuple(files), posts, forms
        self.made: Callable[[], attrd.Node] = lambda: tree
        self.size = tree.size
        self.grammar = attrd.Grammar.read(files[0].text, forms)
        self.checks: Optional[attrd.Diagnostics] = None
        self.why = ""
        self.session = server.session(SESSION)
        self.open: Dict[Question, List[Taker]] = {}
        self.shown: List[Pending] = []

    @property
    def nodes(self) -> int:
        """How many nodes the program's tree may have."""
        return self.server.nodes

    @property
    def version(self) -> int:
        """The version of the tree, where all edits are accepted."""
        return (self.server.version or 0) + sum(not it.is_answered for it in self.shown)

    @property
    def specification(self) -> Specification:
        """What the files declare."""
        return specified(self.files, self.forms)

    def show(self, tree: attrd.Node) -> List[Edit]:
        """Makes this the program's tree, by few edits, which are returned. They go out with the lines that come next.

        Raises AttrdError; which tree the program has isn't known then."""
        if tree.size > self.nodes:
            raise TooLarge(self.nodes)
        if tree.depth > TREE_DEPTH:
            raise attrd.TermFault("/", f"the tree is {tree.depth} deep, and {TREE_DEPTH} is the limit")
        edits = attrd.difference(self.grammar, self.tree, tree, nodes=self.nodes)
        self.shown += self.session.send_all([it.command() for it in edits])
        self.made, self.size = lambda: tree, tree.size
        return edits

    def try_tree(self, tree: attrd.Node) -> None:
        """Shows a tree that is only tried. Raises NoAnswer where it is too large, which isn't shown then, and else as `show` does."""
        if tree.size > self.nodes or tree.depth > TREE_DEPTH:
            raise NoAnswer("the tree has no room for what is tried")
        self.show(tree)

    @property
    def tree(self) -> attrd.Node:
        """The tree that is shown."""
        return self.made()

    def show_part(self, path: str, old: attrd.Node, new: attrd.Node, made: Callable[[], attrd.Node]) -> List[Edit]:
        """The same where one node alone is another one, which nothing above it is looked at for; `made` makes the whole tree.

        Where the limits of a tree are near, or the node is the root, the whole tree is compared."""
        size = self.size + new.size - old.size
        if path in ("", "/") or size + new.size > self.nodes or max(old.depth, new.depth) + path.count("/") >= TREE_DEPTH:
            return self.show(made())
        above = attrd.Path.read(path)
        edits = [below(above, it) for it in attrd.difference(self.grammar, old, new, nodes=self.nodes)]
        self.shown += self.session.send_all([it.command() for it in edits])
        self.made, self.size = made, size
        return edits

    def look_at_edits(self) -> None:
        """Looks whether the edits were accepted, whose replies stand before those of later lines. Raises AttrdError where one wasn't."""
        shown, self.shown = self.shown, []
        for pending in shown:
            pending.accepted()

    def ask(self, questions: List[Question]) -> List[Answer]:
        """The answers of these questions, each evaluated to its end. Raises AttrdError."""
        sent = self.session.send_all([line_of("ask", it) for it in questions])
        answers = [answer_of(it.reply()) for it in sent]
        self.look_at_edits()
        return answers

    def post(self, questions: List[Question], take: Taker) -> List[Question]:
        """Posts these questions, but those that are open already; `take` has the answers as they come.

        Those that couldn't be posted are returned. Raises AttrdError."""
        new = [it for it in questions if it not in self.open]
        for question in questions:
            self.open.setdefault(question, []).append(take)
        *sent, tick = self.session.send_all([*(line_of("post", it) for it in new), commands.version()])
        tick.version()
        self.look_at_edits()
        return [question for question, pending in zip(new, sent) if not self.is_posted(question, pending.reply())]

    def is_posted(self, question: Question, reply: attrd.Reply) -> bool:
        """Whether the reply is that the question was posted; else it isn't open."""
        if isinstance(reply, Opened):
            self.server.on_done(reply.number, lambda done: self.answered(question, done))
            return True
        self.open.pop(question, None)
        if isinstance(reply, RefusedReply) and reply.code is Code.SYNTAX:
            self.posts = False
        return False

    def answered(self, question: Question, done: Done) -> None:
        """An open question was answered."""
        for take in self.open.pop(question, []):
            take(question, done)

    def tick(self, count: int) -> None:
        """Sends so many lines that do nothing but have turns behind them, and waits for the reply to the last one.

        What was answered before that is here then. Raises AttrdError."""
        sent = self.session.send_all([commands.version()] * count)
        sent[-1].version()
        self.look_at_edits()

    def close(self) -> None:
        """Ends the program."""
        self.server.close()


@lru_cache(maxsize=2)
def specified(files: Tuple[Source, ...], forms: str) -> Specification:
    """What these files declare, the grammar and the aspects, where these forms are read."""
    return Specification(files[0], files[1:], forms)


@lru_cache(maxsize=1 << 14)
def line_of(command: str, question: Question) -> str:
    """The line of a question, which is asked again at most keys. Raises SyntaxFault where its path is none."""
    words = commands.ask if command == "ask" else commands.post
    return words(question.path, question.attribute, question.arguments)


def answer_of(reply: attrd.Reply) -> Answer:
    """The reply to a question. Raises ProtocolFault where it is none."""
    if isinstance(reply, (Value, Fault, Circular, Memory, RefusedReply)):
        return reply
    raise attrd.ProtocolFault(f"{reply} is no answer")


class Program(NamedTuple):
    """The program attrd: its file, and how many values it keeps at most, where it has an option for that and a number is given."""

    file: str
    kept: Optional[int] = None

    def options(self, known: FrozenSet[str], size: int) -> List[str]:
        """The options with which it is started over a tree of that size; `known` are those that it knows."""
        kept = attrd.kept_for(size) if self.kept is None else self.kept
        return [*(["--slice", str(SLICE)] if "--slice" in known else []), *attrd.lasting_options(known, kept), *attrd.gathering_options(known)]


class Task(Generic[T]):
    """An inquiry under way at a desk. `result` is what it found, when `is_over`."""

    def __init__(self, inquiry: Inquiry[T], desk: Desk, in_turns: bool) -> None:
        self.inquiry, self.desk, self.in_turns = inquiry, desk, in_turns
        self.version = desk.version
        self.result: Optional[T] = None
        self.is_over = False
        self.questions: List[Question] = []
        self.unsent: List[Question] = []
        self.answers: Dict[Question, Answer] = {}
        self.pace = Pace(QUESTIONS)
        self.go_on(None)

    def step(self) -> None:
        """One short step. Raises AttrdError, and what the inquiry raises."""
        began = time.perf_counter()
        if not (self.in_turns and self.desk.posts) or isinstance(self.questions, Kept):
            self.ask_some()
            self.pace.follow(began)
        elif self.unsent and len(self.desk.open) < OPEN:
            self.post_some()
            self.pace.follow(began)
        else:
            self.desk.tick(self.ticks.count)
            self.ticks.follow(began)
        if len(self.answers) == self.wanted:
            self.go_on([self.answers[it] for it in self.questions])

    def ask_some(self) -> None:
        """Asks some of the questions that are left."""
        asked, self.unsent = self.unsent[: self.pace.count], self.unsent[self.pace.count :]
        self.answers.update(zip(asked, self.desk.ask(asked)))

    def post_some(self) -> None:
        """Posts some of the questions that are left."""
        count = min(self.pace.count, OPEN - len(self.desk.open))
        posted, self.unsent = self.unsent[:count], self.unsent[count:]
        self.unsent += self.desk.post(posted, self.take)

    def take(self, question: Question, done: Done) -> None:
        """The answer of a posted question. One for an older version is dropped, and the question is asked again."""
        if done.version == self.version:
            self.answers[question] = answer_of(done.answer)
        else:
            self.unsent.append(question)

    def go_on(self, answers: Optional[List[Answer]]) -> None:
        """Has the inquiry go on with the answers, to its next questions or its end. None begins it."""
        try:
            self.questions = next(self.inquiry) if answers is None else self.inquiry.send(answers)
            while not self.questions:
                self.questions = self.inquiry.send([])
        except StopIteration as end:
            self.result, self.is_over = end.value, True
            self.questions = []
        self.unsent, self.answers = list(dict.fromkeys(self.questions)), {}
        self.wanted, self.version, self.ticks = len(self.unsent), self.desk.version, Pace(TICKS)

    def close(self) -> None:
        """Ends the inquiry; what it had tried on the tree is undone. Raises AttrdError."""
        self.inquiry.close()
