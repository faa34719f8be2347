"""Where a node is behind an edit."""
from __future__ import annotations

from typing import Optional

from .edits import Drop, Edit, Insert, Move, SetNode, behind
from .paths import Path, Step


def followed(path: Path, edit: Edit) -> Optional[Path]:
    """The path of a node behind an accepted edit; None where the edit took it away or put another one in its place."""
    if isinstance(edit, (SetNode, Drop)) and path.is_below(edit.path):
        return None
    if isinstance(edit, Drop):
        return behind(edit.path, path)
    if isinstance(edit, Insert):
        return _before(edit.path, edit.part, edit.index, path)
    if isinstance(edit, Move):
        target = behind(edit.path, edit.target)
        if path.is_below(edit.path):
            return Path(target.child(edit.part, edit.index).steps + path.steps[len(edit.path.steps):])
        return _before(target, edit.part, edit.index, behind(edit.path, path))
    return path


def _before(above: Path, part: str, index: int, path: Path) -> Path:
    """Where a node is when an element of this index has come into a list."""
    at = len(above.steps)
    if len(path.steps) <= at or not path.is_below(above):
        return path
    step = path.steps[at]
    if step.part != part or step.index is None or step.index < index:
        return path
    return Path(path.steps[:at] + (Step(part, step.index + 1),) + path.steps[at + 1:])
