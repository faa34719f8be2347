"""What is known of a program without a connection to it: its version, its options, and why it didn't start."""
from __future__ import annotations

import os
import re
import subprocess
from typing import FrozenSet, List, Optional, Union

from .errors import AttrdError, StartFault
from .lexical import MOST_NODES, TREE_NODES

# How many values a program that runs long keeps, by `--keep`: six for each node of the largest tree that it takes without `--nodes`.
KEPT, KEPT_A_NODE = 400_000, 6
HELP_SECONDS = 30.0
FORMS_HELP = "switches on features of JastAdd in aspects, with commas between them: `circular`, or `jastadd` for all that is read of "\
             "JastAdd's own language"
_VERSION = re.compile(r"attrd (\S+)\s*\Z")
_OPTION = re.compile(r"--[a-z]+(?:-[a-z]+)*")
# Programs of before 0.34 refuse one of these beside the other: the help of those up to 0.37 says where they don't, and that of later ones is another.
TOGETHER = "--cut-off --keep"
_TOGETHER = re.compile(r"^ *--cut-off .*(?:--keep|before each turn)", re.MULTILINE)
_REFUSED = re.compile(r"(?P<file>.*): (?P<code>[GJF][0-9]+) (?P<name>.*?)(?: at (?P<line>[0-9]+):(?P<column>[0-9]+))?\Z")


def path_of(file: Union[str, "os.PathLike[str]"]) -> str:
    """The path of a file. Raises AttrdError where it is none."""
    if isinstance(file, (str, os.PathLike)):
        return os.fspath(file)
    raise AttrdError(f"a file is a path or a Text, and not {type(file).__name__}")


def known_options(program: Union[str, "os.PathLike[str]"]) -> FrozenSet[str]:
    """The options that the program's `--help` names, as `--slice`; with them TOGETHER, where it takes these two together. Raises AttrdError
    where it can't be started."""
    told = _told(path_of(program), "--help")
    return frozenset([*_OPTION.findall(told), *([TOGETHER] if _TOGETHER.search(told) else [])])


def program_version(program: Union[str, "os.PathLike[str]"]) -> str:
    """The version that the program tells, as 0.46. Raises AttrdError where it can't be started or tells none."""
    name = path_of(program)
    found = _VERSION.match(_told(name, "--version"))
    if not found:
        raise AttrdError(f"{name}: it tells no version")
    return found[1]


def _told(program: str, word: str) -> str:
    try:
        told = subprocess.run([program, word], stdin=subprocess.DEVNULL, stdout=subprocess.PIPE, stderr=subprocess.STDOUT,
                              timeout=HELP_SECONDS, check=False)
    except (OSError, ValueError, UnicodeError, subprocess.TimeoutExpired) as fault:
        raise cannot_start(program, fault) from None
    return told.stdout.decode("utf-8", "replace")


def gathering_options(known: FrozenSet[str]) -> List[str]:
    """The option by which a program answers lines that arrived in one read by a single write, where it knows it."""
    return ["--gather"] if "--gather" in known else []


def nodes_of(known: FrozenSet[str]) -> int:
    """How many nodes a tree may have at most where the program knows these options: 65,536, or what can be asked for by `--nodes`."""
    return MOST_NODES if "--nodes" in known else TREE_NODES


def sizing_options(known: FrozenSet[str], nodes: int = MOST_NODES) -> List[str]:
    """The option by which the tree may have so many nodes, where the program knows it."""
    return ["--nodes", str(nodes)] if "--nodes" in known else []


def forms_options(forms: str) -> List[str]:
    """The option that switches on these features of JastAdd in aspects: words with commas between them, as `circular` or `jastadd`; none
    where there are none."""
    return ["--forms", forms] if forms else []


def kept_for(nodes: int) -> int:
    """How many values a program that runs long keeps, by `--keep`, of a tree of so many nodes."""
    return max(KEPT, KEPT_A_NODE * nodes)


def lasting_options(known: FrozenSet[str], values: int = KEPT) -> List[str]:
    """The options by which a program that runs long keeps at most about so many values, with those that an edit may have changed, and looks
    names up by key, where it knows them."""
    return [*(["--cut-off"] if TOGETHER in known else []), *(["--index"] if "--index" in known else []),
            *(["--keep", str(values)] if "--keep" in known else [])]


def cannot_start(program: str, fault: Exception) -> AttrdError:
    """That a program can't be started, for this reason. One without a folder is looked for on the PATH alone."""
    if isinstance(fault, FileNotFoundError) and os.sep not in program:
        return AttrdError(f"{program}: it can't be started: there is no such program on the PATH (a file here is ./{program})")
    return AttrdError(f"{program}: it can't be started: {getattr(fault, 'strerror', None) or fault}")


def start_fault(status: Optional[int], message: str) -> StartFault:
    """The fault that a program's standard error tells, with its parts where a file was refused."""
    for line in message.splitlines():
        found = _REFUSED.match(line)
        if found:
            place = [None if it is None else int(it) for it in (found["line"], found["column"])]
            return StartFault(status, message, found["file"], found["code"], found["name"], *place)
    return StartFault(status, message)
