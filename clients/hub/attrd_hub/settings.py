"""What a service is made from."""
from __future__ import annotations

from typing import NamedTuple, Optional, Sequence

from attrd.lexical import TREE_NODES


class Settings(NamedTuple):
    """The words of the command line. `state` is the journal's folder, where there is one; `half` a time in seconds; `nodes` how many nodes
    the tree may have; `logs_edits` says whether each edit has a line in the log."""

    program: str
    files: Sequence[str]
    options: Sequence[str]
    socket: str
    mode: int = 0o660
    group: Optional[str] = None
    port: Optional[int] = None
    token: Optional[bytes] = None
    state: Optional[str] = None
    sync: str = "each"
    clients: int = 1_000
    half: float = 30.0
    nodes: int = TREE_NODES
    logs_edits: bool = False
    read_only_socket: Optional[str] = None
    read_only_mode: int = 0o660
