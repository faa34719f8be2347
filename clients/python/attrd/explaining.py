"""The first fault of a file in a sentence, with its line, a caret and a hint."""
from __future__ import annotations

import os
from dataclasses import dataclass
from typing import Dict, Optional, Sequence, Tuple, Union

from .errors import AttrdError, GrammarFault, StartFault
from .file_faults import in_words, unreadable
from .grammar import Grammar, read_file
from .lexical import TREE_NODES
from .tree_faults import fault_of_tree

# For each code of the server: what is wrong, and what helps.
SENTENCES: Dict[str, Tuple[str, str]] = {
    "G1": ("No grammar goes on with what stands here.",
           "A declaration is `Name : Super ::= components;`, and each ends with a semicolon; words such as `int` or `sum` are reserved."),
    "G2": ("A class of this name is declared already, or the name is kept for another thing.",
           "Give the class another name; ASTNode, List and Opt can't be declared."),
    "G3": ("This class names a superclass or a component whose class isn't declared.",
           "Declare that class, or correct its name; a token stands between < and >."),
    "G4": ("This class is above itself.", "Take one superclass out of the cycle."),
    "G5": ("Two components of this class have one name, or this name would make two accessors alike.",
           "Name the component, as in `Left:Expr`; inherited components count, and Child, Parent, NumChild can't be used."),
    "G6": ("A token has a kind that isn't one.", "A token's kind is String, int or boolean."),
    "G7": ("This form of JastAdd is left out here.",
           "Nonterminal attributes and other Java types can't be used: make it a child or a String. With `--forms jastadd` `/X/`, `/Name:X/` "
           "and the same with a star are read: constants of aspects fill them."),
    "G8": ("The grammar is over a limit.", "There may be 1,000 classes, 32 components in a class (inherited ones count), and 4,194,304 bytes."),
    "G9": ("The file declares no class.", "The first class that is declared is that of the root."),
    "J1": ("No aspect goes on with what stands here.",
           "A file is `aspect Name { .. }`, each declaration ends with a semicolon or with `}`, and reserved words are no names."),
    "J2": ("This attribute is declared already, or a name is bound twice.",
           "An attribute is declared once for a class and those below it: override it by `eq`. A fold's name must be a new one."),
    "J3": ("Nothing of this name is there.",
           "Correct the name; an accessor is asked of a node whose class has the component, and an index is for lists alone."),
    "J4": ("What stands here is of another kind than is wanted.",
           "Texts are compared by `equals`; `(C) e` casts a node; a text stands on the left of `+`; lists are used in folds alone."),
    "J5": ("A parameter or an argument doesn't fit.",
           "There are at most two parameters, of kind String or a class; a String argument is a token, a parameter or a text. With "
           "`--forms jastadd` there are four, also of kind int and boolean, and a String argument is any text."),
    "J6": ("There are two equations for one attribute of one class.", "Take one of them out."),
    "J7": ("A class that isn't abstract has this attribute and comes to no equation.",
           "Give an equation for each class, or one with the declaration for all of them."),
    "J8": ("Nodes with this inherited attribute can stand where no node above has an equation for it.",
           "Give an equation further up, as `eq Program.getBlock().name() = ..;`, or `getChild()` for all components."),
    "J9": ("This equation is for an attribute that isn't declared.",
           "Declare it by `syn` for the class or one above it, or by `inh` where the equation is for a component."),
    "J10": ("This form of JastAdd is left out here.",
            "There are `syn`, `inh` and `eq`, with `= E;` or `{ return E; }`; no statements, `nta`, `refine` or imports, and `circular` with "
            "`--forms circular` alone. With `--forms jastadd` imports, methods, constant nonterminal attributes, `if` and loops that look for "
            "an element are read."),
    "J11": ("The aspect is over a limit.",
            "Expressions nest at most 64 deep, 2,000 attributes may be declared, a text has at most 4,096 bytes, a file 4,194,304."),
    "J12": ("An attribute has the name of an accessor.", "Names such as getB, hasB, getNumB, equals and getChild are taken: use another one."),
    "F1": ("The file is no term.",
           "A tree is one term without blanks, as `Add(Num(1),Num(2))`, with `[..]` for lists and `-` for an empty optional, and at most one "
           "newline (LF) behind it."),
    "F6": ("The tree has a class that isn't declared, or is abstract.", "Correct the name, or declare the class in the grammar."),
    "F7": ("A node doesn't fit the grammar.", "A node has a cell for each component, inherited ones first."),
    "F12": ("The tree is over a limit.", "There may be 65,536 nodes, 4,096 bytes in a token's text, and 4,194,304 in the file; `--nodes` has more nodes, and 64 bytes for each."),
}


# What a J7 in a grammar says.
UNFILLED = ("No constant fills this component between slashes.",
            "Write one in an aspect, as `syn nta X C.getName() = new X();`, and of a list `syn nta List<X> C.getNameList() = new List<X>();`.")


@dataclass(frozen=True)
class Explanation:
    """A fault that is explained. `line` and `column` count from 1; `source` is the text of the line. Of a file that can't be read `code`
    is empty, and `name` is `read fault`."""

    file: str
    code: str
    name: str
    sentence: str
    hint: str
    line: Optional[int] = None
    column: Optional[int] = None
    source: str = ""

    def __str__(self) -> str:
        place = self.file if self.line is None else f"{self.file}:{self.line}:{self.column}"
        told = [f"{place}: {f'{self.code} {self.name}'.strip()}. {self.sentence}"]
        if self.line is not None and self.column is not None:
            shown, caret = _window(self.source, self.column)
            told += ["    " + shown, "    " + caret]
        return "\n".join([*told, f"hint: {self.hint}"])


WIDTH = 100
READ_FAULT = ": read fault"


def _window(source: str, column: int) -> Tuple[str, str]:
    """The part of a line around a column, and a caret below it."""
    begin = max(0, min(column - 1 - WIDTH // 2, len(source) - WIDTH))
    shown = source[begin:begin + WIDTH]
    before = shown[:column - 1 - begin]
    return shown.replace("\t", " ").replace("\r", " "), " " * len(before) + "^"


def explain(fault: Union[StartFault, GrammarFault], files: Sequence[Union[str, "os.PathLike[str]"]],
            nodes: int = TREE_NODES) -> Explanation:
    """The fault in words. `files` are those that the program was given: the grammar first, then the tree, then aspects; and `nodes` is
    how many nodes it takes.

    Of a tree, for which the server tells no place, the place is found here; of a file that it can't read, why, where it doesn't tell that
    itself. Raises AttrdError where the fault isn't one of a file.
    """
    names = [str(it) for it in files]
    unread = _unread(fault, names)
    if unread is not None:
        return unread
    file = names[0] if isinstance(fault, GrammarFault) and names else getattr(fault, "file", None)
    code: Optional[str] = getattr(fault, "code", None)
    if file is None or code is None or code not in SENTENCES:
        raise AttrdError(f"this is no fault of a file: {fault}")
    data = read_file(file)
    if code.startswith("F"):
        return _of_tree(fault, file, data, names[0] if names else None, nodes)
    text = data.decode("utf-8", "replace")
    sentence, hint = UNFILLED if code == "J7" and names[:1] == [file] else SENTENCES[code]
    line, column = fault.line or 1, fault.column or 1
    lines = text.split("\n")
    source = lines[line - 1] if line <= len(lines) else ""
    return Explanation(file, code, fault.name or "", sentence, hint, line, column, source)


def _unread(fault: Union[StartFault, GrammarFault], names: Sequence[str]) -> Optional[Explanation]:
    """Why the program can't read one of its files; None where that isn't the fault."""
    told = fault.message.splitlines() if isinstance(fault, StartFault) else []
    file = next((it for it in names if f"{it}{READ_FAULT}" in told), None)
    if file is None:
        return None
    behind = told[told.index(f"{file}{READ_FAULT}") + 1:]
    reason = in_words(behind[0]) if behind else unreadable(file) or "it can be read now"
    return Explanation(file, "", "read fault", f"{reason[0].upper()}{reason[1:]}.", "Name a file that this user may read.")


def _of_tree(fault: Union[StartFault, GrammarFault], file: str, data: bytes, grammar: Optional[str], nodes: int) -> Explanation:
    code, name = fault.code or "", fault.name or ""
    sentence, hint = SENTENCES[code]
    try:
        # the program took the grammar, so what stands between slashes in it was read
        found = fault_of_tree(data, None if grammar is None else Grammar.load(grammar, "jastadd"), nodes)
    except AttrdError:
        found = None
    if found is None:
        return Explanation(file, code, name, sentence, hint)
    told = f"{sentence[:-1]}: {found.reason}."
    if found.at is None:
        return Explanation(file, code, name, told, hint)
    text = data.decode("utf-8", "replace")
    line, begin = text.count("\n", 0, found.at) + 1, text.rfind("\n", 0, found.at) + 1
    return Explanation(file, code, name, told, hint, line, found.at - begin + 1, text[begin:].split("\n", 1)[0])
