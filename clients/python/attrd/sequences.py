"""What two lists of nodes have in common, and which of the others go together."""
from __future__ import annotations

from bisect import bisect_left
from typing import Any, Callable, Dict, Hashable, List, Sequence, Tuple

from .terms import Node

Match = Tuple[int, int]

# So many elements are compared together, first many and then fewer: equal ones are mostly the same ones, which takes no time.
BLOCKS = (256, 16, 1)
MATCHES = 200_000
COMPARED = 1_024
LOOKED_DEEP = 3


def common_front(olds: Sequence[Any], news: Sequence[Any]) -> int:
    """How many elements at the front are equal, one by one."""
    at, end = 0, min(len(olds), len(news))
    for block in BLOCKS:
        while at + block <= end and olds[at:at + block] == news[at:at + block]:
            at += block
    return at


def common_end(olds: Sequence[Any], news: Sequence[Any], front: int) -> int:
    """How many elements at the end are equal, one by one, none of them within the front."""
    most, count = min(len(olds), len(news)) - front, 0
    for block in BLOCKS:
        while count + block <= most:
            old, new = len(olds) - count, len(news) - count
            if olds[old - block:old] != news[new - block:new]:
                break
            count += block
    return count


def longest_common(olds: Sequence[Hashable], news: Sequence[Hashable]) -> List[Match]:
    """The longest run of elements that both have in the same order, with gaps: pairs of indexes (Hunt and Szymanski).

    Where equal elements stand very often, only some of them are looked at, and the run may be shorter than the longest.
    """
    places: Dict[Hashable, List[int]] = {}
    for at, old in enumerate(olds):
        places.setdefault(old, []).append(at)
    found = sum(len(places.get(it, ())) for it in news)
    most = len(olds) if found <= MATCHES else max(1, MATCHES // max(1, len(news)))
    ends: List[int] = []
    runs: List[Any] = []
    for at, new in enumerate(news):
        for place in reversed(_near(places.get(new, []), at, most)):
            length = bisect_left(ends, place)
            run = (place, at, runs[length - 1] if length else None)
            if length == len(ends):
                ends.append(place)
                runs.append(run)
            elif place < ends[length]:
                ends[length], runs[length] = place, run
    matches, run = [], runs[-1] if runs else None
    while run is not None:
        matches.append((run[0], run[1]))
        run = run[2]
    matches.reverse()
    return matches


def _near(places: List[int], at: int, most: int) -> List[int]:
    """At most so many of the places, those around this one."""
    if len(places) <= most:
        return places
    begin = max(0, min(bisect_left(places, at) - most // 2, len(places) - most))
    return places[begin:begin + most]


def likeness(old: Node, new: Node, deep: int = LOOKED_DEEP) -> int:
    """How much two nodes have in common; 0 where their classes differ."""
    if old.name != new.name:
        return 0
    if old == new:
        return 1 + 2 * old.size
    score = 1
    for x, y in zip(old.cells, new.cells):
        if isinstance(x, Node) and isinstance(y, Node):
            score += likeness(x, y, deep - 1) if deep else int(x.name == y.name)
        elif isinstance(x, tuple) and isinstance(y, tuple):
            score += _common_size(x, y)
        elif x is not None and type(x) is type(y) and x == y:
            score += 2
    return score


def _common_size(olds: Tuple[Node, ...], news: Tuple[Node, ...]) -> int:
    if not olds or not news:
        return 0
    known = set(olds)
    return sum(2 * it.size for it in news if it in known)


def pair_up(olds: Sequence[Node], news: Sequence[Node]) -> List[Match]:
    """Which of these nodes go together, in the same order: those of one class that have most in common."""
    if not olds or not news:
        return []
    if len(olds) == len(news) == 1:
        return [(0, 0)] if olds[0].name == news[0].name else []
    if len(olds) * len(news) <= COMPARED:
        return _best(olds, news)
    return _by_keys(olds, news, [_key, lambda it: it.name])


def _key(node: Node) -> Hashable:
    """What a node is known by: its class and tokens; no other node is like one without a token."""
    tokens = tuple(it for it in node.cells if isinstance(it, (str, int)))
    return (node.name, tokens) if tokens else id(node)


def _by_keys(olds: Sequence[Node], news: Sequence[Node], keys: List[Callable[[Node], Hashable]]) -> List[Match]:
    matches: List[Match] = [(-1, -1), (len(olds), len(news))]
    for key in keys:
        found: List[Match] = []
        for (i, j), (k, m) in zip(matches, matches[1:]):
            inner = longest_common([key(it) for it in olds[i + 1:k]], [key(it) for it in news[j + 1:m]])
            found += [(i, j), *((i + 1 + a, j + 1 + b) for a, b in inner)]
        matches = [*found, matches[-1]]
    return matches[1:-1]


def _best(olds: Sequence[Node], news: Sequence[Node]) -> List[Match]:
    """The pairs in order with the greatest sum of likeness."""
    width = len(news) + 1
    best = [[0] * width for _ in range(len(olds) + 1)]
    like = [[likeness(old, new) for new in news] for old in olds]
    for i in range(len(olds) - 1, -1, -1):
        for j in range(len(news) - 1, -1, -1):
            paired = like[i][j] + best[i + 1][j + 1] if like[i][j] else 0
            best[i][j] = max(paired, best[i + 1][j], best[i][j + 1])
    i = j = 0
    matches: List[Match] = []
    while i < len(olds) and j < len(news):
        if like[i][j] and best[i][j] == like[i][j] + best[i + 1][j + 1]:
            matches.append((i, j))
            i, j = i + 1, j + 1
        elif best[i][j] == best[i + 1][j]:
            i += 1
        else:
            j += 1
    return matches
