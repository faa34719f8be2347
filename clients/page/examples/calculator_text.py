"""A parser for texts of the calculator sample, as the page of probes wants one (`--parser`).

    x = 1
    y
    print x + 2

A line is a declaration, with an expression or without one, or `print` and an expression; an expression is names and numbers with `+`.
"""
import re

import attrd

WORD = re.compile(r"\s*(?:(\w+)|(\S))")


def parse(text):
    """The tree of a text, and the places of its nodes: triples of a path, and the offsets of its first character and behind its last.

    Raises ValueError where the text is none.
    """
    places, statements, at = [("/", 0, len(text)), ("/Block", 0, len(text))], [], 0
    for line in text.splitlines(keepends=True):
        if line.strip():
            path = f"/Block/Stmt:{len(statements)}"
            places.append((path, at + len(line) - len(line.lstrip()), at + len(line.rstrip())))
            statements.append(statement(line, at, path, places))
        at += len(line)
    return attrd.Node("Program", attrd.Node("Block", statements)), places


def statement(line, at, path, places):
    """The node of a line that begins at an offset of the text."""
    words = [(it[1] or it[2], at + it.end() - len(it[1] or it[2])) for it in WORD.finditer(line.rstrip())]
    first = words[0][0]
    if first == "print":
        return attrd.Node("Print", expression(words[1:], f"{path}/Expr", places, line))
    if len(words) == 1:
        return attrd.Node("Decl", first, None)
    if words[1][0] != "=":
        raise ValueError(f"no `=` behind {first}")
    return attrd.Node("Decl", first, expression(words[2:], f"{path}/Init", places, line))


def expression(words, path, places, line):
    """The node of the words of an expression: sums lean to the left."""
    if len(words) % 2 == 0 or any(word != "+" for word, _ in words[1::2]):
        raise ValueError(f"no expression: {line.strip()}")
    (last, at), before = words[-1], words[:-2]
    places.append((path, words[0][1], at + len(last)))
    if before:
        left = expression(before, f"{path}/Left", places, line)
        return attrd.Node("Add", left, expression(words[-1:], f"{path}/Right", places, line))
    return attrd.Node("Num", int(last)) if last.isdigit() else attrd.Node("Use", last)
