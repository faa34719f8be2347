"""What was measured against what it may be. Each is noted in the history, where that is wanted (history.py)."""
from __future__ import annotations

from typing import List

import history


class Bounds:
    """The bounds of a run, and those that don't hold."""

    def __init__(self) -> None:
        self.broken: List[str] = []
        self.looked_at = 0

    def at_most(self, what: str, value: float, most: float) -> str:
        """The value with its bound, which is noted where it doesn't hold."""
        self.looked_at += 1
        history.note(what, value, most=most)
        if value > most:
            self.broken.append(f"{what}: {value:.2f}, at most {most:g}")
        return f"{value:.2f} (at most {most:g}{'' if value <= most else ': BROKEN'})"

    def at_least(self, what: str, value: float, least: float) -> str:
        """The same of what it has to be at least."""
        self.looked_at += 1
        history.note(what, value, least=least)
        if value < least:
            self.broken.append(f"{what}: {value:.1f}, at least {least:g}")
        return f"{value:.1f} (at least {least:g}{'' if value >= least else ': BROKEN'})"

    def told(self) -> str:
        """Whether all hold that were looked at, or which don't."""
        if self.broken:
            return "\n".join(["these bounds don't hold:", *(f"  {it}" for it in self.broken)])
        return "all bounds hold" if self.looked_at else "no bound was looked at"
