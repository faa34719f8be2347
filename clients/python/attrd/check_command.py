"""`python -m attrd check [--index] [--tree FILE] GRAMMAR ASPECT..`: all faults of a grammar and its aspects in one go."""
from __future__ import annotations

import argparse
import sys
from typing import Dict, List

from .authoring import Source, check, check_tree, circles, searches
from .errors import AttrdError
from .grammar import read_file
from .programs import FORMS_HELP
from .versions import VERSION


def main(words: List[str]) -> int:
    """Tells all faults; the status: 0 where there is none, 1 where there are some, 3 where a file can't be read or the program can't be
    started."""
    given = _options(words)
    try:
        return _tell(given, _read([given.grammar, *given.aspects, *([given.tree] if given.tree is not None else [])]))
    except AttrdError as fault:
        print(fault, file=sys.stderr)
        return 3


def _options(words: List[str]) -> argparse.Namespace:
    reader = argparse.ArgumentParser(prog="python -m attrd check", description="Tells all faults of a grammar and its aspects, each with "
                                     "what is there instead, and the section of docs/FROM_JASTADD.md that says what to write. What only "
                                     "follows from another fault is left out.")
    reader.add_argument("grammar", metavar="GRAMMAR")
    reader.add_argument("aspects", metavar="ASPECT", nargs="*")
    reader.add_argument("--program", default="attrd", help="the program (attrd on the PATH, where none is given)")
    reader.add_argument("--forms", metavar="WORDS", default="", help=FORMS_HELP)
    reader.add_argument("--tree", metavar="FILE", help="a tree file, of which the fault is told, too")
    reader.add_argument("--index", action="store_true", help="tell of each exists and each first over a list, too, whether the program's "
                        "--index makes it a search for a name, and if not, why")
    reader.add_argument("--nodes", metavar="N", type=int, help="how many nodes the tree may have (65536, where none is given)")
    reader.add_argument("--version", action="version", version=f"python -m attrd check {VERSION}")
    return reader.parse_args(words)


def _tell(given: argparse.Namespace, files: Dict[str, bytes]) -> int:
    grammar, aspects = _source(given.grammar, files), [_source(it, files) for it in given.aspects]
    found, following = check(grammar, aspects, given.program, given.forms)
    told = list(found)
    if given.tree is not None:
        of_tree = check_tree(grammar, given.tree, files[given.tree], given.program, given.nodes, given.forms)
        told += [] if of_tree is None else [of_tree]
    for it in told:
        print(it)
    for note in circles(grammar, aspects, given.forms):
        print(note)
    for fold in searches(grammar, aspects, given.forms) if given.index else []:
        print(fold)
    left_out = f", and {following} left out that only follow{'s' if following == 1 else ''}" if following else ""
    print(f"{len(told)} fault{'' if len(told) == 1 else 's'}{left_out}")
    return 1 if told else 0


def _read(names: List[str]) -> Dict[str, bytes]:
    """The bytes of files. Raises AttrdError with all of them that can't be read, a line each: a directory, one that isn't there, and one
    that may not be read are told apart by the system's words."""
    files: Dict[str, bytes] = {}
    faults: List[str] = []
    for name in names:
        try:
            files[name] = read_file(name)
        except AttrdError as fault:
            faults.append(str(fault))
    if faults:
        raise AttrdError("\n".join(faults))
    return files


def _source(file: str, files: Dict[str, bytes]) -> Source:
    """A file with its text. Raises AttrdError where it isn't UTF-8."""
    try:
        return Source(file, files[file].decode("utf-8"))
    except UnicodeDecodeError as fault:
        raise AttrdError(f"{file}: it isn't UTF-8 at byte {fault.start}") from None
