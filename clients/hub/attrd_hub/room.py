"""How much room replies have: what is unread of them, how long the next ones may be, and who is let go of where there is no room."""
from __future__ import annotations

from typing import TYPE_CHECKING, Iterable, Optional

if TYPE_CHECKING:
    from .client import Client

# So many bytes all clients together may leave unread: beyond it one of those with most of them is let go of.
UNREAD_IN_ALL = 1 << 28
# From so many bytes on the whole tree is a long reply.
LONG_TREE = 1 << 16


class Room:
    """`unread` counts the bytes that clients have left unread, and `is_full` tells that these are too many; `tree_bytes` is how long a
    reply with the whole tree may be."""

    def __init__(self) -> None:
        self.unread = self.tree_bytes = 0
        self.has_long_tree = self.is_full = False

    def count(self, more: int) -> None:
        """So many bytes more are unread, or fewer where it is negative."""
        self.unread += more
        if self.unread > UNREAD_IN_ALL:
            self.is_full = True

    def expect(self, length: int) -> None:
        """The whole tree has so many bytes."""
        self.tree_bytes = length
        self.has_long_tree = length >= LONG_TREE

    def note(self, length: int) -> None:
        """There was a reply of so many bytes."""
        if length > self.tree_bytes:
            self.expect(length)

    def who_goes(self, clients: Iterable["Client"]) -> Optional["Client"]:
        """Who has to go, since there is no room: of those with most bytes, or half as many, the one that has read nothing for longest."""
        if self.unread <= UNREAD_IN_ALL:
            return None
        waiting = [it for it in clients if it.unread_bytes]
        most = max((it.unread_bytes for it in waiting), default=0)
        full = [it for it in waiting if 2 * it.unread_bytes >= most]
        return min(full, key=lambda it: it.drained) if full else None
