"""Connections over TCP that haven't sent their token: they have places of their own, for a short time."""
from __future__ import annotations

import time
from typing import TYPE_CHECKING, Dict, List, Optional

if TYPE_CHECKING:
    from .client import Client

# So many may be there at once, for so many seconds: behind that, and where one more comes, the oldest is ended.
PLACES, SECONDS = 16, 5.0


class Callers:
    """Those that are there, the oldest first."""

    def __init__(self) -> None:
        self._since: Dict["Client", float] = {}

    def add(self, client: "Client") -> Optional["Client"]:
        """One more; the one that has to go for it, where all places are taken."""
        self._since[client] = time.monotonic()
        return next(iter(self._since)) if len(self._since) > PLACES else None

    def remove(self, client: "Client") -> bool:
        """It has sent its token, or is gone. Whether it was there."""
        return self._since.pop(client, None) is not None

    def late(self, now: float, seconds: float = SECONDS) -> List["Client"]:
        """Those that are there for longer than that."""
        return [it for it, since in self._since.items() if now - since > min(seconds, SECONDS)]

    def all(self) -> List["Client"]:
        """All of them."""
        return list(self._since)
