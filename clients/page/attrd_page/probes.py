"""Probes: a marked node and an attribute, asked again after each edit."""
from __future__ import annotations

import time
from dataclasses import dataclass, field
from typing import Any, Callable, Dict, List, Optional, Sequence, Union

from attrd import AttrdError, Path, accepted, commands
from attrd.paths import FromMark
from attrd.replies import Circular, Code, Fault, RefusedReply, Reply, Value

from .hub import SESSIONS, Hub, Member
from .mirror import Astray, Item, Mirror
from .surveys import Survey
from .views import Json, brief

# The marks of a session; how often a node that was moved meanwhile is looked for.
MARKS, TRIES = 100, 8


@dataclass(eq=False)
class Probe:
    """A probe of a window. `names` are its marks: that of its node, and those of nodes among its arguments.

    `then` are attributes that are asked of its result, and of the result of that, and so on.
    """

    number: int
    session: int
    names: List[str]
    attribute: str
    arguments: List[Any]
    then: Sequence[str] = ()
    shown: Json = field(default_factory=dict)

    @property
    def question(self) -> str:
        """The line that asks it."""
        return commands.ask(FromMark(self.names[0]), self.attribute, self.arguments)


@dataclass(frozen=True)
class Round:
    """All probes of a window asked once: the version of the tree, how long it took, and which ones show something else now."""

    version: int
    seconds: float
    probes: List[Json]


class Probes:
    """The probes of one window, and the sessions that have their marks: a session has 100."""

    def __init__(self, hub: Hub, member: Member, mirror: Mirror, plain_attributes: Callable[[str], List[str]]) -> None:
        """`plain_attributes` tells the attributes without parameters of a class."""
        self.hub, self.member, self.mirror, self.plain_attributes = hub, member, mirror, plain_attributes
        self.probes: Dict[int, Probe] = {}
        self.surveys: Dict[int, Survey] = {}
        self._count = 0
        self._marks: Dict[int, int] = {}

    def survey(self, of: str, attribute: str) -> Survey:
        """A survey of an attribute of all nodes of a class."""
        self._count += 1
        made = self.surveys[self._count] = Survey(self._count, of, attribute)
        return made

    async def add(self, item: Item, attribute: str, arguments: Sequence[Any], then: Sequence[str] = ()) -> Probe:
        """A probe of a node. An argument that is an Item is marked, too. Raises Refused and its like, and Astray for a node that is gone."""
        self._count += 1
        number = self._count
        wanted = [item, *(it for it in arguments if isinstance(it, Item))]
        session = next(it for it in range(SESSIONS) if self._marks.get(it, 0) + len(wanted) <= MARKS)
        self._marks[session] = self._marks.get(session, 0) + len(wanted)
        names = [f"p{number}" + (f"a{it}" if it else "") for it in range(len(wanted))]
        taken = iter(names[1:])
        spelled = [FromMark(next(taken)) if isinstance(it, Item) else it for it in arguments]
        probe = Probe(number, session, names, attribute, spelled, then)
        try:
            await self._mark(probe, wanted)
        except AttrdError:
            await self._unmark(probe)
            raise
        self.probes[number] = probe
        return probe

    async def _mark(self, probe: Probe, items: Sequence[Item]) -> None:
        """Marks the nodes, wherever they are by then."""
        for _ in range(TRIES):
            gone = next((it for it in items if it.number not in self.mirror.items), None)
            if gone is not None:
                raise Astray("that node is gone")
            lines = [commands.mark(name, self.mirror.path(it)) for name, it in zip(probe.names, items)]
            replies = await self.member.replies([(probe.session, f"at {self.hub.version} {it}") for it in lines])
            if not any(isinstance(it, RefusedReply) and it.code is Code.STALE for it in replies):
                break
        for line, reply in zip(lines, replies):
            accepted(reply, line)

    async def remove(self, number: int) -> None:
        """Takes a probe away, with its marks, or a survey."""
        self.surveys.pop(number, None)
        probe = self.probes.pop(number, None)
        if probe is not None:
            await self._unmark(probe)

    async def _unmark(self, probe: Probe) -> None:
        self._marks[probe.session] -= len(probe.names)
        await self.member.replies([(probe.session, commands.unmark(it)) for it in probe.names])

    async def round(self) -> Round:
        """Asks all probes, in one piece, so on one version of the tree; and then surveys, and what is asked of results. Raises ServerLost."""
        asked = list(self.probes.values())
        start, version = time.perf_counter(), self.hub.version
        nodes: List[Optional[Json]] = []
        shown: List[Json] = []
        results: Dict[int, Path] = {}

        def take(index: int, reply: Reply) -> None:
            nonlocal version
            version = self.hub.version
            if index % 2 == 0:
                nodes.append(self._node(reply.value if isinstance(reply, Value) else None))
                return
            probe, node = asked[index // 2], nodes[-1]
            shown.append({"probe": probe.number, "attribute": self._spelled(probe), "node": node, **self._answer(node, reply),
                          "spec": self._spec(probe, node), "instance": self._instance(probe, node)})
            if probe.then and node is not None and isinstance(reply, Value) and isinstance(reply.value, Path):
                results[probe.number] = reply.value
            elif probe.then:
                shown[-1].update(_ended(shown[-1], probe.then[0]))
        lines = [(it.session, line) for it in asked for line in (commands.where(it.names[0]), it.question)]
        await self.member.replies(lines, take)
        by_number = {it["probe"]: it for it in shown}
        await self._ask_results(results, by_number, version)
        changed = [self._changed(probe, it) for probe, it in zip(asked, shown) if probe.number in self.probes]
        changed += [self._changed(it, await self._surveyed(it)) for it in list(self.surveys.values())]
        return Round(version, time.perf_counter() - start, [it for it in changed if it is not None])

    async def _ask_results(self, results: Dict[int, Path], shown: Dict[int, Json], version: int) -> None:
        """Asks of the results of probes what is to be asked of them, level by level, as long as the tree has this version."""
        level = 0
        while results:
            asked, results_below = list(results.items()), {}
            lines = [(self.probes[number].session, f"at {version} {commands.ask(path, self.probes[number].then[level])}") for number, path in asked
                     if number in self.probes]
            replies = await self.member.replies(lines) if len(lines) == len(asked) else []
            for (number, path), reply in zip(asked, replies):
                probe = self.probes.get(number)
                if probe is None or (isinstance(reply, RefusedReply) and reply.code is Code.STALE):
                    shown[number].update({} if probe is None else probe.shown)
                    continue
                shown[number].update(self._answer(self._node(path), reply))
                shown[number]["instance"] = f"{path} {probe.then[level]}()"
                if level + 1 < len(probe.then):
                    if isinstance(reply, Value) and isinstance(reply.value, Path):
                        results_below[number] = reply.value
                    else:
                        shown[number].update(_ended(shown[number], probe.then[level + 1]))
            results, level = results_below, level + 1

    async def _surveyed(self, it: Survey) -> Json:
        """What a survey shows, asked anew where an edit came between."""
        for _ in range(TRIES):
            items, version = it.items(self.mirror), self.hub.version
            replies = await self.member.replies([(0, f"at {version} {it.command(self.mirror, item)}") for item in items])
            if not any(isinstance(reply, RefusedReply) and reply.code is Code.STALE for reply in replies) and version == self.hub.version:
                break
        known = [(item, reply) for item, reply in zip(items, replies) if item.number in self.mirror.items]
        return it.told(self.mirror, [item for item, _ in known], [reply for _, reply in known])

    def _spec(self, probe: Probe, node: Optional[Json]) -> Optional[Json]:
        """What makes this probe again: kept by a window in its address; None of a probe whose node is gone."""
        if node is None:
            return None
        given = [self._path_of(probe, it) if isinstance(it, FromMark) else "null" if it is None else it for it in probe.arguments]
        return {"path": node["path"], "attribute": probe.attribute, "arguments": given, "then": list(probe.then)}

    def _instance(self, probe: Probe, node: Optional[Json]) -> Optional[str]:
        """What a probe asks, by paths: what is told of why its value is what it is is asked by that."""
        if node is None:
            return None
        given = [self._path_of(probe, it) if isinstance(it, FromMark) else commands.argument_text(it) for it in probe.arguments]
        return f"{node['path']} {probe.attribute}({','.join(given)})"

    def _changed(self, probe: Union[Probe, Survey], shown: Json) -> Optional[Json]:
        """What the window has to show of a probe, where it is something else than before."""
        if shown["node"] is None:
            shown["node"] = probe.shown.get("node")
        if probe.shown and shown["value"] != probe.shown["value"]:
            shown["before"] = probe.shown["value"]
        is_same = {**probe.shown, "before": None} == {**shown, "before": None}
        probe.shown = shown
        return None if is_same else shown

    def _spelled(self, probe: Probe) -> str:
        spelled = []
        for it in probe.arguments:
            spelled.append(self._path_of(probe, it) if isinstance(it, FromMark) else commands.argument_text(it))
        return ".".join([f"{probe.attribute}({', '.join(spelled)})", *(f"{it}()" for it in probe.then)])

    def _path_of(self, probe: Probe, mark: FromMark) -> str:
        try:
            return str(self.mirror.path(self.mirror.at(mark, self.member.session(probe.session))))
        except Astray:
            return "a node that is gone"

    def _node(self, path: object) -> Optional[Json]:
        """A node as a link shows it; None for what is no path."""
        if not isinstance(path, Path):
            return None
        try:
            return {"path": str(path), **brief(self.mirror, self.mirror.at(path))}
        except Astray:
            return {"path": str(path), "id": None, "class": "", "label": ""}

    def _asked_of(self, node: Optional[Json]) -> List[str]:
        """The attributes without parameters of a node that a window shows."""
        return [] if node is None else self.plain_attributes(str(node["class"]))

    def _answer(self, node: Optional[Json], answer: Reply) -> Json:
        """The kind of an answer, its text as it is shown, and the node to which it leads, with what may be asked of that. `node` is that
        which was asked, where it is there."""
        if node is None:
            return {"kind": "gone", "value": "its node is gone", "link": None}
        if isinstance(answer, Value):
            value = answer.value
            if isinstance(value, Path):
                link = self._node(value)
                return {"kind": "node", "value": f"node {path_label(link)}", "link": link, "attributes": self._asked_of(link)}
            return {"kind": "value", "value": answer.text, "link": None}
        if isinstance(answer, Fault):
            return {"kind": "fault", "value": f"fault {answer.kind.value}", "link": self._node(answer.path), "in": answer.attribute}
        if isinstance(answer, Circular):
            return {"kind": "circular", "value": "circular", "link": self._node(answer.path), "in": answer.attribute}
        if isinstance(answer, RefusedReply) and answer.code is Code.MARK:
            return {"kind": "gone", "value": "a node among its arguments is gone", "link": None}
        return {"kind": "refused", "value": str(answer), "link": None}


def _ended(shown: Json, attribute: str) -> Json:
    """What is shown where a result is no node, so that nothing can be asked of it. A fault and a cycle tell that by themselves."""
    return {"value": f"{shown['value']}, so there is no {attribute}()"} if shown["kind"] == "value" else {}


def path_label(node: Optional[Json]) -> str:
    """A node in words. Its number is no part of it: it says which node it is, also when its path is another."""
    return "" if node is None else f"{node['class']} {node['label']}".strip() + f" #{node['id']}"
