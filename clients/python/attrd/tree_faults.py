"""What is wrong with a tree file, and where: the program tells the code alone."""
from __future__ import annotations

from typing import NamedTuple, Optional

from .errors import TermFault
from .file_faults import tree_file_fault
from .grammar import Grammar
from .lexical import TREE_NODES
from .terms import read_term


class TreeFault(NamedTuple):
    """Why a tree file is refused. `at` is the character with which it can't go on; None where the reason has a path of the tree."""

    reason: str
    at: Optional[int] = None


def fault_of_tree(data: bytes, grammar: Optional[Grammar] = None, nodes: int = TREE_NODES) -> Optional[TreeFault]:
    """The fault of a tree file with these bytes: of its text, or, where a grammar is given, also of its tree, which may have so many nodes.
    None where none is found."""
    found = tree_file_fault(data)
    if found is not None:
        return TreeFault(found.reason, found.at)
    if grammar is None:
        return None
    text = data.decode("utf-8")
    try:
        grammar.check(read_term(text[:-1] if text.endswith("\n") else text), nodes=nodes)
    except TermFault as fault:
        return TreeFault(f"at {fault.path}, {fault.reason}")
    return None
