"""The prompt of `python -m attrd`: reads lines as the manual has them, and completes them."""
from __future__ import annotations

import os
import re
import sys
from pathlib import Path as FilePath
from typing import TYPE_CHECKING, Callable, Dict, List, Optional, Sequence, TextIO, Tuple

from . import commands
from .authoring import Source, Specification
from .authoring.planting import planted
from .declarations import Attribute, attributes_of
from .document import Document
from .errors import AttrdError
from .grammar import Grammar, Shape, read_file
from .paths import FromMark, Path
from .programs import forms_options
from .replies import Done, Ok, Opened, Value
from .server import Server, start
from .terms import Node
from .why import Reason, Step, Why, read_instance

if TYPE_CHECKING:
    from .diagnosing import Diagnostics

HELP = """A line is [SESSION] [at VERSION] COMMAND; without a session it is of session 0. A '> ' in front is passed over, and so are replies
that were pasted with it.
  ask PLACE ATTRIBUTE(ARGUMENTS)       show PLACE          version
  set PLACE TERM                       put PLACE PART TERM
  insert PLACE PART INDEX TERM         drop PLACE
  token PLACE PART VALUE               move PLACE to PLACE PART INDEX
  mark NAME PLACE                      unmark NAME         where NAME
  why PLACE ATTRIBUTE(ARGUMENTS)       the equation of a value, and what it asked; then 'why 2' goes on with the second of these
  faults     all faults (with --faults ATTRIBUTE)     help     this     quit     the end"""
GREETING = "'help' shows what can be typed, 'quit' ends."
COMMANDS = ("ask", "show", "set", "put", "drop", "insert", "token", "move", "mark", "unmark", "where", "version", "post", "wait")
SHAPES = {"put": Shape.OPTIONAL, "insert": Shape.LIST, "move": Shape.LIST, "token": Shape.TOKEN}
_REPLY = re.compile(r"(\d+|\?) (ok \d+|= .*|fault .*|circular .*|refused \d+ .*|memory|open \d+|done .*)\Z")
_SESSION = re.compile(r"(0|[1-9]\d{0,2}) (.*)\Z", re.S)
_MARK = re.compile(r"mark (\S+) ")
_STEP = re.compile(r"[0-9]{1,9}")


class Completion:
    """What a line may go on with."""

    def __init__(self, grammar: Grammar, attributes: Sequence[Attribute], tree: Callable[[], Node], mark: Callable[[str], Optional[Path]]) -> None:
        """`tree` gives the tree as it is now, and `mark` the path of a mark."""
        self.grammar, self.attributes, self.tree, self.mark = grammar, attributes, tree, mark

    def words(self, line: str) -> List[str]:
        """All that the last word of a line may be."""
        words = line.split(" ")
        if words[0] == ">":
            words = words[1:]
        if len(words) > 1 and words[0].isdigit():
            words = words[1:]
        if len(words) > 2 and words[0] == "at":
            words = words[2:]
        last = words[-1]
        if len(words) == 1:
            return [it for it in (*COMMANDS, "why", "faults", "help", "quit") if it.startswith(last)]
        return sorted(it for it in self._candidates(words) if it.startswith(last))

    def _candidates(self, words: List[str]) -> List[str]:
        command, count, last = words[0], len(words), words[-1]
        place = {"mark": 2}.get(command, 1)
        if command in ("unmark", "where", "version", "wait"):
            return []
        if count == place + 1 or (command == "move" and count == 4):
            return self.paths(last)
        if command == "move" and count == 3:
            return ["to"]
        at = 3 if command == "move" else 1
        if command in ("ask", "post", "why") and count == 3:
            return [f"{it}(" for it in self.attribute_names(words[1])]
        if command in SHAPES and count == at + 2:
            return self.parts(words[at], SHAPES[command])
        return []

    def node(self, place: str) -> Optional[Node]:
        """The node at a place, where there is one."""
        try:
            if not place.startswith("$"):
                return self.grammar.node_at(self.tree(), Path.read(place))
            marked = FromMark.read(place)
            path = self.mark(marked.mark)
            return None if path is None else self.grammar.node_at(self.tree(), Path(path.steps + marked.steps))
        except AttrdError:
            return None

    def paths(self, begun: str) -> List[str]:
        """The paths one step further than the last whole one."""
        above, slash, _ = begun.rpartition("/")
        if not slash:
            return ["/"]
        node = self.node(above or "/")
        return [] if node is None else [f"{above}/{step}" for step, _ in self.grammar.children(node)]

    def parts(self, place: str, shape: Shape) -> List[str]:
        """The components of this form of the node at a place."""
        node = self.node(place)
        return [] if node is None else [it.name for it in self.grammar.parts(node.name) if it.shape is shape]

    def attribute_names(self, place: str) -> List[str]:
        """The attributes of the node at a place."""
        node = self.node(place)
        return [] if node is None else sorted({it.name for it in self.attributes if self.grammar.is_below(node.name, it.of)})


class Prompt:
    """A server, and what is typed to it."""

    def __init__(self, server: Server, grammar: Grammar, specification: Specification, checks: Optional[Diagnostics]) -> None:
        self.server, self.grammar, self.checks = server, grammar, checks
        self.specification = specification
        self._steps: Tuple[Step, ...] = ()
        attributes = [it for file in specification.aspects for it in attributes_of(file.text)]
        self._session = server.session(999)
        self._document: Optional[Document] = None
        self._marks: Dict[str, int] = {}
        self.completion = Completion(planted(specification), attributes, self._tree, self._where)

    @staticmethod
    def start(grammar: str, tree: str, aspects: Sequence[str], program: str, faults: Sequence[str],
              nodes: Optional[int] = None, forms: str = "") -> Prompt:
        """Starts the program, with so many nodes for its tree where that is said, and has it read these forms of aspects.

        Raises StartFault and AttrdError; a grammar that is refused is told by the program."""
        texts = [read_file(it).decode("utf-8", "replace") for it in aspects]
        options = forms_options(forms)
        server = start(grammar, tree, *aspects, program=program, options=options, nodes=nodes)
        known, sources = Grammar.load(grammar, forms), [Source(name, text) for name, text in zip(aspects, texts)]
        specification = Specification(Source(grammar, read_file(grammar).decode("utf-8")), sources, forms)
        if not faults:
            return Prompt(server, known, specification, None)
        server.close()
        from .diagnosing import diagnostics  # of --faults alone

        checks = diagnostics(known, texts, faults)
        server = start(grammar, tree, *aspects, checks.aspect, program=program, options=options, nodes=nodes)
        return Prompt(server, known, specification, checks)

    def __enter__(self) -> Prompt:
        return self

    def __exit__(self, *_: object) -> None:
        self.server.close()

    def _tree(self) -> Node:
        if self._document is None:
            self._document = Document(self._session, self.grammar)
        elif self._document.version != self._session.version():
            self._document.refresh()
        return self._document.tree

    def _where(self, mark: str) -> Optional[Path]:
        """Where a mark is that was made here, or None."""
        session = self._marks.get(mark)
        reply = None if session is None else self.server.send(session, commands.where(mark)).reply()
        value = reply.value if isinstance(reply, Value) else None
        return value if isinstance(value, Path) else None

    def answer(self, typed: str) -> Optional[str]:
        """What a typed line is answered; None where it is passed over. Raises ServerLost and its like."""
        line = typed.rstrip("\r\n")
        line = line[2:] if line.startswith("> ") else line
        if not line.strip() or line == ">" or line.startswith("$ ") or line.startswith("```") or (line == typed and _REPLY.match(line)):
            return None
        if line.strip() == "help":
            return HELP
        if line.strip() == "faults":
            return self.faults()
        if line.startswith("why "):
            return self.why(line[len("why "):].strip())
        found = _SESSION.match(line)
        session, command = (int(found[1]), found[2]) if found else (0, line)
        reply = self.server.send(session, command).reply()
        marked = _MARK.match(command)
        if marked and isinstance(reply, Ok):
            self._marks[marked[1]] = session
        if isinstance(reply, Opened):
            self.server.on_done(reply.number, lambda done: print(f"{session} {done}", flush=True))
        return None if isinstance(reply, Done) else f"{session} {reply}"

    def why(self, asked: str) -> str:
        """Why a value is what it is: of an instance, or of a step of the last reason, by its number. Raises what `Session.ask` raises,
        NoReason and SyntaxFault."""
        tree = self._tree()
        if _STEP.fullmatch(asked):
            if not 1 <= int(asked) <= len(self._steps):
                return f"the last reason has {len(self._steps)} steps"
            instance = self._steps[int(asked) - 1].instance
        else:
            instance = read_instance(self._with_path(asked))
        running = Why(self.specification, tree).reason_with_circle(instance)
        try:
            wanted = next(running)
            while True:
                answer = self._session.ask(wanted.path, wanted.attribute, *wanted.arguments)
                wanted = running.send(answer)
        except StopIteration as end:
            reason: Reason = end.value
        self._steps = reason.steps
        return str(reason)

    def _with_path(self, asked: str) -> str:
        """A question whose place is a path, where it was a mark that was made here."""
        place, blank, rest = asked.partition(" ")
        marked = FromMark.read(place) if place.startswith("$") else None
        path = None if marked is None else self._where(marked.mark)
        return asked if path is None or marked is None else f"{Path(path.steps + marked.steps)}{blank}{rest}"

    def faults(self) -> str:
        """All faults, one a line. Raises what `Diagnostics.find` raises."""
        if self.checks is None:
            return "start with --faults ATTRIBUTE, an attribute that tells a fault of its node"
        self._tree()
        assert self._document is not None
        found = self.checks.find(self._document)
        return "\n".join(f"{it.path}: {it.message}" for it in found) or "no faults"

    def run(self, lines: Optional[TextIO] = None) -> int:
        """Answers lines until their end, or `quit`; the status."""
        is_typed = lines is None and sys.stdin.isatty()
        history = _with_readline(self.completion) if is_typed else None
        if is_typed:
            print(GREETING, flush=True)
        try:
            while True:
                typed = _next_line("attrd> " if is_typed else "", lines)
                if typed is None or typed.strip() in ("quit", "exit"):
                    return 0
                self._show(typed)
        finally:
            if history is not None:
                history()

    def _show(self, typed: str) -> None:
        try:
            told = self.answer(typed)
        except AttrdError as fault:
            if self.server.lost is not None:
                raise
            told = str(fault)
        if told is not None:
            print(told, flush=True)


def _next_line(prompt: str, lines: Optional[TextIO]) -> Optional[str]:
    if lines is not None:
        return lines.readline() or None
    try:
        return input(prompt)
    except (EOFError, UnicodeDecodeError):
        return None


def _with_readline(completion: Completion) -> Optional[Callable[[], None]]:
    """Has the terminal complete lines and remember them; what is to be called at the end. None where Python has no readline."""
    try:
        import readline
    except ImportError:
        return None
    file = str(FilePath(os.path.expanduser("~")) / ".attrd_history")
    found: List[str] = []

    def complete(_: str, state: int) -> Optional[str]:
        if state == 0:
            words = completion.words(readline.get_line_buffer()[:readline.get_endidx()])
            found[:] = [it + " " if it in COMMANDS or it == "to" else it for it in words]
        return found[state] if state < len(found) else None

    def save() -> None:
        try:
            readline.write_history_file(file)
        except OSError:
            pass
    readline.set_completer(complete)
    readline.set_completer_delims(" ")
    readline.parse_and_bind("tab: complete")
    try:
        readline.read_history_file(file)
    except OSError:
        pass
    return save
