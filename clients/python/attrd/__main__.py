"""`python -m attrd GRAMMAR TREE ASPECT..`: a prompt; `python -m attrd check GRAMMAR ASPECT..`: all faults at once."""
from __future__ import annotations

import argparse
import sys
from typing import List, Optional

from .errors import AttrdError, StartFault
from .lexical import TREE_NODES
from .programs import FORMS_HELP
from .versions import VERSION


def options(words: Optional[List[str]] = None) -> argparse.Namespace:
    """The words of the command line. Ends the process with status 2 where they are wrong."""
    reader = argparse.ArgumentParser(prog="python -m attrd", description="A prompt for attrd: lines as the manual has them, with "
                                     "history (arrow keys) and completion (tab) of commands, paths, parts and attributes. "
                                     "'check GRAMMAR ASPECT..' in the place of files tells all faults of these at once.")
    reader.add_argument("grammar", metavar="GRAMMAR")
    reader.add_argument("tree", metavar="TREE")
    reader.add_argument("aspects", metavar="ASPECT", nargs="+")
    reader.add_argument("--program", default="attrd", help="the program (attrd on the PATH, where none is given)")
    reader.add_argument("--faults", metavar="ATTRIBUTE", action="append", default=[],
                        help="an attribute that tells a fault of its node; then the command 'faults' finds all of them")
    reader.add_argument("--forms", metavar="WORDS", default="", help=FORMS_HELP)
    reader.add_argument("--version", action="version", version=f"python -m attrd {VERSION}")
    reader.add_argument("--nodes", metavar="N", type=int, help="how many nodes the tree may have (65536, where none is given)")
    return reader.parse_args(words)


def main(words: Optional[List[str]] = None) -> int:
    """Runs the prompt until its input ends; the status: 0, 1 where a file is refused, 3 where the server is lost."""
    words = sys.argv[1:] if words is None else words
    if words[:1] == ["check"]:
        from . import check_command  # needs nothing of the prompt

        return check_command.main(words[1:])
    return _prompt(options(words))


def _prompt(given: argparse.Namespace) -> int:
    from .prompt import Prompt  # loads nearly all of this package

    files = [given.grammar, given.tree, *given.aspects]
    try:
        with Prompt.start(given.grammar, given.tree, given.aspects, given.program, given.faults, given.nodes, given.forms) as prompt:
            return prompt.run()
    except StartFault as fault:
        from .explaining import explain

        try:
            print(explain(fault, files, given.nodes or TREE_NODES), file=sys.stderr)
        except AttrdError:
            print(fault, file=sys.stderr)
        return fault.status or 3
    except AttrdError as fault:
        print(fault, file=sys.stderr)
        return 3
    except KeyboardInterrupt:
        return 0


if __name__ == "__main__":
    sys.exit(main())
