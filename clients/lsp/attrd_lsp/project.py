"""The files of one tree: their texts, the tree's program, and what is asked of it.

At most one inquiry is under way at a time. Requests come before the check for problems, in their order, but for those that are
patient; an edit ends them all, and begins a new check."""
from __future__ import annotations

from collections import deque
from contextlib import suppress
from dataclasses import dataclass
from typing import Any, Callable, Deque, Dict, Iterable, List, Optional

from attrd import AttrdError, Edit, Node, ServerLost

from .desk import Desk, Task, TooLarge
from .inquiry import Inquiry, NoAnswer
from .positions import Change, Span, Text
from .problems import Edited, Known, Problem, Replaced, edited_by, find_problems, known_by
from .reading import Reader, Stretch
from .renaming import CannotRename
from .rpc import CONTENT_MODIFIED, REQUEST_FAILED, Failure
from .source import Source

# How often in a row a program that ended is started anew, with nothing answered between.
RESTARTS = 1
# How many edits are remembered between two checks, so that problems are looked for there first.
REMEMBERED = 8
Start = Callable[[Node], Desk]
Publish = Callable[["Project", Iterable[str]], None]
CHANGED = Failure(CONTENT_MODIFIED, "the document was changed meanwhile")


@dataclass
class Request:
    """A request of the editor that takes questions: the inquiry that it begins, and what is done with its result or failure.

    One that is patient waits for the check."""

    number: Any
    begin: Callable[[Desk], Inquiry[Any]]
    answer: Callable[[Any], None]
    fail: Callable[[Failure], None]
    is_patient: bool = False
    task: Optional[Task[Any]] = None


class Project:
    """The files of one tree, by their names. Those that are open in the editor have versions."""

    def __init__(self, reader: Reader, start: Start, publish: Publish, tell: Callable[[str], None]) -> None:
        """`start` begins a program over a tree; `publish` has shown what there is to tell of files, `tell` a message."""
        self.texts: Dict[str, Text] = {}
        self.uris: Dict[str, str] = {}
        self.versions: Dict[str, int] = {}
        self.source = Source(reader, {})
        self.told: List[Problem] = []
        self.replaced: List[Replaced] = []
        self.known = Known()
        self.edited: List[Edited] = []
        self.trouble: Optional[str] = None
        self.desk: Optional[Desk] = None
        self.check: Optional[Task[List[Problem]]] = None
        self.wants_check = True
        self.requests: Deque[Request] = deque()
        self.losses = 0
        self.start, self.publish, self.tell = start, publish, tell

    @property
    def problems(self) -> List[Problem]:
        """The problems that were told, where they stand in the texts as they are now."""
        for it in self.replaced:
            self.told = it.carried(self.told)
        self.replaced.clear()
        return self.told

    @problems.setter
    def problems(self, problems: List[Problem]) -> None:
        """Has these told."""
        self.told = problems
        self.replaced.clear()

    @property
    def is_busy(self) -> bool:
        """Whether something is under way or wanted."""
        return bool(self.requests) or self.wants_check

    def put(self, name: str, uri: str, text: str) -> None:
        """A file has this text now, which isn't told by changes."""
        self.give_up(CHANGED)
        self.problems = [it for it in self.problems if it.file != name]
        self.texts[name], self.uris[name] = Text.of(text), uri
        self.follow(self.source.with_file(name, text))

    def remove(self, name: str) -> None:
        """A file isn't there any more."""
        self.give_up(CHANGED)
        self.problems = [it for it in self.problems if it.file != name]
        self.texts.pop(name)
        self.versions.pop(name, None)
        self.follow(self.source.without(name))

    def read_anew(self, reader: Reader) -> None:
        """All files are read from their beginning, by another grammar."""
        self.source = Source(reader, {})
        for name, text in self.texts.items():
            self.source = self.source.with_file(name, text.text)

    def change(self, name: str, version: int, changes: List[Change]) -> None:
        """Takes these changes, one after the other: what was under way ends, the program's tree follows, a new check is wanted."""
        self.give_up(CHANGED)
        stretch: Optional[Stretch] = None
        for it in changes:
            span = self.replace(name, it)
            stretch = Stretch(span, len(it.text)) if stretch is None else stretch.then(span, len(it.text))
        had_faults = not self.source.files[name].is_good
        self.versions[name] = version
        self.follow(self.source.with_file(name, self.texts[name].text, stretch=stretch))
        if had_faults or not self.source.files[name].is_good:
            self.publish(self, [name])

    def replace(self, name: str, change: Change) -> Span:
        """Changes the text, in the place of the span that is returned; the problems that were told move with it."""
        text = self.texts[name]
        span = text.changed_span(change)
        self.texts[name] = text.changed(span, change.text)
        self.replaced.append(Replaced(name, span, len(change.text)))
        return span

    def follow(self, source: Source) -> None:
        """The files are these now: the program's tree follows, and a new check is wanted."""
        before, self.source = self.source, source
        self.wants_check = True
        if self.desk is not None:
            try:
                self.edited += edited_by(self.shown(self.desk, before, source)[:REMEMBERED])
                del self.edited[:-REMEMBERED]
            except AttrdError as fault:
                self.lost(fault)

    def shown(self, desk: Desk, before: Source, source: Source) -> List[Edit]:
        """Has the program's tree follow, which is that of the source before; the edits for that. Raises AttrdError."""
        step = source.step
        if step is None or step.before is not before.mark:
            return desk.show(source.tree)
        return desk.show_part(source.path(step.number), step.old, step.new, lambda: source.tree)

    def give_up(self, failure: Failure) -> None:
        """Ends all that is under way; the requests fail so."""
        for request in self.requests:
            if request.task is not None:
                self.closed(request.task)
            request.fail(failure)
        self.requests.clear()
        self.check = None

    def closed(self, task: Task[Any]) -> None:
        """Ends the task. Where that fails the program isn't used any more."""
        try:
            task.close()
        except AttrdError:
            self.drop_desk()

    def cancel(self, number: Any, failure: Failure) -> None:
        """Ends the request of that number, where it is still under way; it fails so."""
        for request in [it for it in self.requests if it.number == number]:
            self.requests.remove(request)
            if request.task is not None:
                self.closed(request.task)
            request.fail(failure)

    def step(self) -> None:
        """One short step of what is under way."""
        try:
            desk = self.desk or self.opened()
            urgent = next((it for it in self.requests if not it.is_patient), None)
            if urgent is not None:
                self.step_request(desk, urgent)
            elif self.wants_check:
                self.step_check(desk)
            elif self.requests:
                self.step_request(desk, self.requests[0])
        except AttrdError as fault:
            self.lost(fault)

    def opened(self) -> Desk:
        """A program over the tree as it is, for which a check is wanted. Raises AttrdError where none can be started."""
        self.desk = self.start(self.source.tree)
        self.trouble, self.wants_check = None, True
        return self.desk

    def step_request(self, desk: Desk, request: Request) -> None:
        """A step of a request; at its end it is answered."""
        try:
            if request.task is None:
                request.task = Task(request.begin(desk), desk, not desk.open)
            if not request.task.is_over:
                request.task.step()
            if not request.task.is_over:
                return
        except (NoAnswer, CannotRename) as fault:
            self.requests.remove(request)
            request.fail(Failure(REQUEST_FAILED, str(fault)))
            return
        self.losses = 0
        self.requests.remove(request)
        request.answer(request.task.result)

    def step_check(self, desk: Desk) -> None:
        """A step of the check for problems; at its end they are told."""
        try:
            if self.check is None or self.check.desk is not desk or self.check.version != desk.version:
                self.check = Task(self.begun_check(desk), desk, True)
            if not self.check.is_over:
                self.check.step()
            if self.check.is_over:
                self.checked(self.check.result or [], None)
        except NoAnswer as fault:
            self.checked([], str(fault))

    def begun_check(self, desk: Desk) -> Inquiry[List[Problem]]:
        """The inquiry for problems. Raises NoAnswer where none can be told."""
        if desk.checks is None:
            raise NoAnswer(desk.why)
        return find_problems(self.source, desk.checks, self.known, self.edited)

    def checked(self, problems: List[Problem], trouble: Optional[str]) -> None:
        """The check is over, with these problems, or couldn't be made for that reason."""
        self.known, self.edited = known_by(self.source, problems), []
        self.problems = [it for it in problems if it.span.start < it.span.end or not self.is_gone(it)]
        self.trouble = trouble
        self.check, self.wants_check, self.losses = None, False, 0
        self.publish(self, self.texts)

    def is_gone(self, problem: Problem) -> bool:
        """Whether the problem's text, which is empty now, of a part that is held, isn't there any more."""
        spot = self.source.spot(problem.path)
        return spot is not None and spot.phrase.span[0] < spot.phrase.span[1]

    def lost(self, fault: AttrdError) -> None:
        """The program can't be used any more. Where it ended it is started anew once for what is under way; else that fails."""
        self.losses += 1
        may_go_on = isinstance(fault, ServerLost) and self.losses <= RESTARTS
        before, self.trouble = self.trouble, trouble_of(fault)
        self.restart()
        if may_go_on or before != self.trouble:
            self.tell(f"{self.trouble}; it is started anew" if may_go_on else self.trouble)
        if not may_go_on:
            self.wants_check = False
            self.give_up(Failure(REQUEST_FAILED, self.trouble))
        self.publish(self, self.texts)

    def restart(self) -> None:
        """Goes on with another program, from the start of all that is under way."""
        self.drop_desk()
        self.check, self.wants_check = None, True
        for request in self.requests:
            if request.task is not None:
                self.closed(request.task)
                request.task = None

    def stop(self, failure: Failure) -> None:
        """Ends all that is under way, and the program; the next change or request begins anew."""
        self.drop_desk()
        self.give_up(failure)
        self.wants_check = False

    def drop_desk(self) -> None:
        """Ends the program, where there is one."""
        desk, self.desk = self.desk, None
        if desk is not None:
            with suppress(AttrdError):
                desk.close()


def trouble_of(fault: AttrdError) -> str:
    """Why nothing can be asked, in a sentence."""
    if isinstance(fault, ServerLost):
        return f"attrd ended: {fault}"
    if isinstance(fault, TooLarge):
        return str(fault)
    return f"attrd can't be asked: {fault}"
