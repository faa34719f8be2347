"""The fault of a tree file: the program tells its code, and what is wrong and where is found here."""
from __future__ import annotations

from typing import Optional

from ..errors import StartFault
from ..explaining import SENTENCES
from ..grammar import Grammar
from ..lexical import TREE_NODES
from ..server import Text, start
from ..tree_faults import fault_of_tree
from .finding import Finding
from .grammar_faults import WholeGrammar
from .refusal import written
from .specification import Source


def check_tree(grammar: Source, file: str, data: bytes, program: str = "attrd", nodes: Optional[int] = None,
               forms: str = "") -> Optional[Finding]:
    """The fault of a tree file of this name with these bytes, over a grammar, in which these forms are read, and with so many nodes where that
    is said; None where the program takes it. Where the grammar has faults, only the text of the tree is looked at. Raises AttrdError where
    the program can't be started."""
    whole = WholeGrammar(grammar.text, forms)
    if whole.faults or whole.grammar is None:
        found = fault_of_tree(data)
        return None if found is None else _finding(file, data, "F1", "syntax", found.reason, found.at)
    try:
        start(Text("grammar.ast", _of_terms(grammar, whole.grammar)), file, Text("none.jrag", ""), program=program, nodes=nodes).close()
        return None
    except StartFault as fault:
        if fault.code is None or fault.code not in SENTENCES or fault.file != file:
            raise
        found = fault_of_tree(data, whole.grammar, nodes or TREE_NODES)
        reason, at = ("", None) if found is None else found
        return _finding(file, data, fault.code, fault.name or "", reason, at)


def _of_terms(grammar: Source, read: Grammar) -> str:
    """The text of a grammar for trees alone: without components between slashes, of which terms have none, and which wait for constants."""
    fixed = {(it.name, part.name) for it in read for part in it.own if part.is_fixed}
    return written(read, fixed) if fixed else grammar.text


def _finding(file: str, data: bytes, code: str, name: str, reason: str, at: Optional[int]) -> Finding:
    sentence, hint = SENTENCES[code]
    message = f"{sentence[:-1]}: {reason}." if reason else sentence
    text, place = data.decode("utf-8", "replace"), at or 0
    line, begin = text.count("\n", 0, place) + 1, text.rfind("\n", 0, place) + 1
    return Finding(file, code, name, line, place - begin + 1, place, place + (0 if at is None else 1), message, hint)
