"""The command line: `attrd-hub --socket PATH GRAMMAR TREE ASPECT..`, `attrd-hub --check ..`, and `attrd-hub --status PATH`."""
from __future__ import annotations

import argparse
import json
import math
import os
import re
import resource
import sys
import traceback
from contextlib import suppress
from typing import List, Optional

from attrd import KEPT, AttrdError, StartFault, forms_options, gathering_options, kept_for, known_options, lasting_options
from attrd.lexical import TREE_NODES
from attrd.programs import FORMS_HELP, KEPT_A_NODE
from attrd.versions import VERSION

from .checking import Check
from .journal import SYNCS, JournalFault, StateFault
from .language import words_of
from .program import Unfit
from .prometheus import as_prometheus, up
from .service import Service
from .settings import Settings
from .sockets import read_token
from .status import as_text, asked, status_path
from .telling import Level, log

# The statuses. Behind REFUSED, WORDS and UNFIT the unit starts nothing again: a new start would end in the same way.
REFUSED, WORDS, LOST, UNFIT = 1, 2, 3, 5
# The word in the place of a path with which the figures are told in its format.
PROMETHEUS = "prometheus"
# So many open files the hub has for itself, beside one for each client.
OWN_FILES = 64


def _mode(word: str) -> int:
    if not re.fullmatch("[0-7]{1,4}", word) or not 0 < int(word, 8) <= 0o777:
        raise argparse.ArgumentTypeError(f"{word!r} is no mode as 660")
    return int(word, 8)


def _path(word: str) -> str:
    # As by a variable of a shell that isn't set: to the system it is another place.
    if not word:
        raise argparse.ArgumentTypeError("the path is empty")
    return word


def _count(word: str) -> int:
    if not word.isdecimal() or int(word) < 1:
        raise argparse.ArgumentTypeError(f"{word!r} is no number from 1 on")
    return int(word)


def _port(word: str) -> int:
    if not word.isdecimal() or not 0 < int(word) < 1 << 16:
        raise argparse.ArgumentTypeError(f"{word!r} is no port from 1 to 65535")
    return int(word)


def _seconds(word: str) -> float:
    try:
        seconds = float(word)
    except ValueError:
        seconds = math.nan
    if not 0.0 < seconds < math.inf:
        raise argparse.ArgumentTypeError(f"{word!r} is no time above 0")
    return seconds


def options() -> argparse.ArgumentParser:
    """The words of the command line."""
    reader = argparse.ArgumentParser(prog="attrd-hub", description="Serves one attribute tree server to many clients at once, and keeps "
                                     "the edits that it has accepted.")
    reader.add_argument("files", metavar="FILE", nargs="*", help="the grammar, the tree, and one aspect or more")
    reader.add_argument("--socket", metavar="PATH", type=_path, help="where clients connect; the hub's figures are told at PATH.status")
    reader.add_argument("--mode", metavar="MODE", type=_mode, default=0o660, help="who may connect, as chmod spells it (660)")
    reader.add_argument("--group", metavar="NAME", help="the group of the socket (that of the process)")
    reader.add_argument("--read-only-socket", metavar="PATH", type=_path, help="where clients connect that may ask alone: neither edit nor mark")
    reader.add_argument("--read-only-mode", metavar="MODE", type=_mode, help="who may connect there (as --mode)")
    reader.add_argument("--tcp", metavar="PORT", type=_port, help="also serves this port of 127.0.0.1, to clients with the token")
    reader.add_argument("--token", metavar="FILE", help="the file with the token: the first line of each client of --tcp")
    reader.add_argument("--state", metavar="FOLDER", type=_path, help="where accepted edits are kept; without it they end with the program")
    reader.add_argument("--sync", choices=SYNCS, default="each",
                        help="when edits are made safe against a crash of the machine (%(default)s)")
    reader.add_argument("--clients", metavar="N", type=_count, default=1_000, help="how many clients at once (%(default)s)")
    reader.add_argument("--half", metavar="SECONDS", type=_seconds, default=30.0,
                        help="ends a client that is silent for so long in the middle of a line (%(default)s)")
    reader.add_argument("--program", default="attrd", help="the program (attrd on the PATH)")
    reader.add_argument("--forms", metavar="WORDS", default="", help=FORMS_HELP)
    reader.add_argument("--nodes", metavar="N", type=int, default=TREE_NODES, help="how many nodes the tree may have (%(default)s)")
    reader.add_argument("--keep", metavar="N", type=int,
                        help=f"how many values the program keeps at most ({KEPT}, and {KEPT_A_NODE} for each node that the tree may have)")
    reader.add_argument("--slice", metavar="N", type=int, default=1, help="turns of open questions behind each line (%(default)s)")
    _add_tellings(reader)
    return reader


def _add_tellings(reader: argparse.ArgumentParser) -> None:
    """The words by which something is told."""
    reader.add_argument("--log-edits", action="store_true", help="tells each accepted edit in the log, and who made it")
    reader.add_argument("--check", action="store_true", help="tells what a start with these words would find, serves nothing, and ends")
    reader.add_argument("--language", metavar="NAME", help="with --check: the files and words of the unit attrd-hub@NAME")
    reader.add_argument("--status", metavar="PATH", help="tells the figures of the hub that serves this socket, and ends; "
                        f"--status={PROMETHEUS} tells them for Prometheus, of the hub at --socket")
    reader.add_argument("--json", action="store_true", help="tells them as an object of JSON")
    reader.add_argument("--version", action="version", version=f"attrd-hub {VERSION}")


def _tell_status(given: argparse.Namespace) -> int:
    if given.status == PROMETHEUS:
        return _tell_prometheus(given.socket)
    figures = asked(given.status)
    print(json.dumps(figures, indent=2) if given.json else as_text(figures))
    return 0


def _tell_prometheus(socket: str) -> int:
    """Where no hub answers, one metric says so."""
    try:
        sys.stdout.write(as_prometheus(asked(socket), socket))
        return 0
    except AttrdError:
        sys.stdout.write(up(socket, False))
        raise


def _settings(given: argparse.Namespace) -> Settings:
    """Raises AttrdError."""
    known = known_options(given.program)
    kept = kept_for(given.nodes) if given.keep is None else given.keep
    words = [*lasting_options(known, kept), *gathering_options(known), *forms_options(given.forms)]
    if given.nodes != TREE_NODES:
        words += ["--nodes", str(given.nodes)]
    return Settings(given.program, given.files, [*words, "--slice", str(given.slice)], given.socket or "", given.mode, given.group,
                    given.tcp, read_token(given.token) if given.token else None, given.state, given.sync, given.clients, given.half,
                    given.nodes, given.log_edits, given.read_only_socket,
                    given.mode if given.read_only_mode is None else given.read_only_mode)


def _check(given: argparse.Namespace) -> int:
    """Tells what a start would find; the status is that of `Check`."""
    try:
        settings = _settings(given)
    except AttrdError as fault:
        print(f"fault: {fault}")
        return LOST
    return Check(settings, makes_folder=given.language is not None).run()


def _places(wanted: int) -> int:
    """How many clients have a place. The process is let have as many open files as it may: each client is one."""
    most = resource.getrlimit(resource.RLIMIT_NOFILE)[1]
    with suppress(OSError, ValueError):
        resource.setrlimit(resource.RLIMIT_NOFILE, (most, most))
    most = resource.getrlimit(resource.RLIMIT_NOFILE)[0]
    if most == resource.RLIM_INFINITY or wanted <= most - OWN_FILES:
        return wanted
    places = max(1, most - OWN_FILES)
    log(Level.WARNING, f"the system lets the hub open {most} files: it takes {places} clients at once, and not {wanted}")
    return places


def _explained(fault: StartFault, given: argparse.Namespace) -> str:
    from attrd import explain  # loads what reads grammars and trees

    try:
        return str(explain(fault, given.files, given.nodes))
    except AttrdError:
        return str(fault)


def _read(words: Optional[List[str]]) -> argparse.Namespace:
    """The words of the command line. Ends the process with status 2 where they are wrong."""
    reader = options()
    given = reader.parse_args(words)
    if given.language is not None and not given.check:
        reader.error("--language is given with --check")
    if given.language is not None:
        try:
            given = reader.parse_args(["--check", "--language", given.language, *words_of(given.language)])
        except AttrdError as fault:
            reader.error(str(fault))
    _look_at(given, reader)
    return given


def _look_at(given: argparse.Namespace, reader: argparse.ArgumentParser) -> None:
    """Looks at what goes with what. Ends the process with status 2 where that is wrong."""
    if given.status == PROMETHEUS and given.socket is None:
        reader.error(f"--status={PROMETHEUS} needs --socket")
    if given.status is None and ((given.socket is None and not given.check) or len(given.files) < 3):
        reader.error("--socket and three files or more are needed: GRAMMAR TREE ASPECT..")
    if (given.tcp is None) != (given.token is None):
        reader.error("--tcp and --token are given together")
    if given.read_only_mode is not None and given.read_only_socket is None:
        reader.error("--read-only-mode is given with --read-only-socket")
    if given.socket is not None and given.read_only_socket is not None:
        others = map(os.path.abspath, (given.socket, status_path(given.socket)))
        if os.path.abspath(given.read_only_socket) in others:
            reader.error("--read-only-socket is another path than --socket, and than that of its figures")


def main(words: Optional[List[str]] = None) -> int:
    """Serves, checks, or tells a status; the exit status: 0; 1 where a file is refused; 2 for the words; 5 where the journal doesn't fit
    the files or is damaged so that no start can go on from it; 3 for all else, which may be over at the next start; and 4 where a
    check finds that a start would leave edits out."""
    given = _read(words)
    try:
        if given.status is not None:
            return _tell_status(given)
        if given.check:
            return _check(given)
        settings = _settings(given)
        return Service(settings._replace(clients=_places(settings.clients))).run()
    except StartFault as fault:
        log(Level.ERROR, _explained(fault, given))
        return fault.status if fault.status and fault.status > 0 else LOST
    except Unfit as fault:
        log(Level.ERROR, f"{given.state}: {fault}")
        return UNFIT
    except StateFault as fault:
        log(Level.ERROR, f"{fault}. Nothing of it was changed")
        return UNFIT
    except JournalFault as fault:
        log(Level.ERROR, str(fault))
        return LOST
    except AttrdError as fault:
        print(fault, file=sys.stderr) if given.status else log(Level.ERROR, str(fault))
        return LOST
    except Exception:  # Whatever else it is: by Python's own status the unit wouldn't start it again.
        log(Level.ERROR, traceback.format_exc())
        return LOST
