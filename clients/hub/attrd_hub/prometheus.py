"""A hub's figures in the text format of Prometheus, as the textfile collector of node_exporter takes it."""
from __future__ import annotations

from typing import Dict, Iterator, List, NamedTuple, Tuple

from .status import BOUNDS, Figure


class _Metric(NamedTuple):
    """One figure: its key, the metric's name and type, what it says, and how many of the metric's unit one of the figure is."""

    key: str
    name: str
    type: str
    help: str
    factor: int = 1


_METRICS = (
    _Metric("version", "attrd_hub_tree_version", "gauge", "Version of the tree."),
    _Metric("clients", "attrd_hub_clients", "gauge", "Clients that are connected."),
    _Metric("came", "attrd_hub_connections_total", "counter", "Connections that came."),
    _Metric("let_go", "attrd_hub_connections_ended_total", "counter", "Connections that the hub turned away or ended."),
    _Metric("lines", "attrd_hub_lines_total", "counter", "Lines of clients."),
    _Metric("in_flight", "attrd_hub_lines_in_flight", "gauge", "Lines without a reply."),
    _Metric("edits", "attrd_hub_edits_total", "counter", "Edits that were accepted."),
    _Metric("unread", "attrd_hub_unread_bytes", "gauge", "Bytes of replies that clients haven't read."),
    _Metric("restarts", "attrd_hub_program_restarts_total", "counter", "Restarts of the program."),
    _Metric("seconds", "attrd_hub_uptime_seconds", "gauge", "Time since the start of the hub."),
    _Metric("journal_edits", "attrd_hub_journal_edits", "gauge", "Edits in the journal behind the last term."),
    _Metric("journal_bytes", "attrd_hub_journal_bytes", "gauge", "Bytes of the journal behind the last term."),
    _Metric("hub_memory", "attrd_hub_resident_memory_bytes", "gauge", "Memory of the hub.", 1_024),
    _Metric("program_memory", "attrd_hub_program_resident_memory_bytes", "gauge", "Memory of the program.", 1_024),
)
_ESCAPES = str.maketrans({"\\": "\\\\", '"': '\\"', "\n": "\\n"})


def _labels(**labels: object) -> str:
    return "{" + ",".join(f'{name}="{str(value).translate(_ESCAPES)}"' for name, value in labels.items()) + "}"


def _head(name: str, kind: str, text: str) -> List[str]:
    return [f"# HELP {name} {text}", f"# TYPE {name} {kind}"]


def up(socket: str, is_up: bool) -> str:
    """The metric that tells whether a hub answers at this socket, with its newline."""
    return "\n".join([*_head("attrd_hub_up", "gauge", "Whether the hub tells its figures."),
                      f"attrd_hub_up{_labels(socket=socket)} {int(is_up)}"]) + "\n"


def _waits(figures: Dict[str, Figure], socket: str) -> Iterator[str]:
    counts, seconds = figures.get("wait_counts"), figures.get("wait_seconds")
    if not isinstance(counts, list) or len(counts) != len(BOUNDS) + 1:
        return
    name, total = "attrd_hub_wait_seconds", 0
    yield from _head(name, "histogram", "How long lines wait for the program; about one in a millisecond is looked at.")
    for bound, count in zip([*map(str, BOUNDS), "+Inf"], counts):
        total += count
        yield f"{name}_bucket{_labels(socket=socket, le=bound)} {total}"
    yield f"{name}_sum{_labels(socket=socket)} {seconds}"
    yield f"{name}_count{_labels(socket=socket)} {total}"


def _refused(figures: Dict[str, Figure], socket: str) -> Iterator[str]:
    codes = figures.get("refused_codes")
    if not isinstance(codes, dict) or not codes:
        return
    name = "attrd_hub_refused_total"
    yield from _head(name, "counter", "Lines that were refused, by the code of the reply.")
    counted: List[Tuple[str, int]] = sorted(codes.items(), key=lambda it: int(it[0]))
    for code, count in counted:
        yield f"{name}{_labels(socket=socket, code=code)} {count}"


def as_prometheus(figures: Dict[str, Figure], socket: str) -> str:
    """The figures of the hub at this socket: for each metric what it says and its type, and then its values, one in a line. A figure
    that isn't known is left out."""
    lines = _head("attrd_hub_info", "gauge", "Versions of the hub and of its program.")
    versions = {name: figures.get(f"{name}_version") or "" for name in ("hub", "program")}
    lines.append(f"attrd_hub_info{_labels(socket=socket, **versions)} 1")
    for it in _METRICS:
        value = figures.get(it.key)
        if isinstance(value, (int, float)):
            lines += [*_head(it.name, it.type, it.help), f"{it.name}{_labels(socket=socket)} {value * it.factor}"]
    return up(socket, True) + "\n".join([*lines, *_refused(figures, socket), *_waits(figures, socket)]) + "\n"
