"""The words with which the unit attrd-hub@NAME of the package starts the hub."""
from __future__ import annotations

import os
import re
from pathlib import Path
from typing import Dict, List

from attrd import AttrdError

# As the unit has them.
FOLDER, STATE, SOCKET, PROGRAM = "/etc/attrd/{}", "/var/lib/attrd-hub/{}", "/run/attrd-hub/{}/socket", "/usr/bin/attrd"
_LINE = re.compile(r"([A-Z]+)=(.*)")


def words_of(name: str) -> List[str]:
    """The words for the language of this name. Makes its folder the one of this process, since the unit does so, and its files are
    named from there. Raises AttrdError where it can't be read, or names no files."""
    folder = FOLDER.format(name)
    try:
        os.chdir(folder)
        text = Path("files").read_text("utf-8")
    except (OSError, ValueError) as fault:
        raise AttrdError(f"{folder}/files: {getattr(fault, 'strerror', None) or fault}") from None
    values: Dict[str, List[str]] = {}
    for line in text.splitlines():
        found = _LINE.fullmatch(line.strip())
        if found is not None:
            values[found[1]] = found[2].strip("\"'").split()
    if not values.get("FILES"):
        raise AttrdError(f"{folder}/files: it has no line FILES=GRAMMAR TREE ASPECT..")
    return ["--socket", SOCKET.format(name), "--state", STATE.format(name), "--program", PROGRAM,
            *values.get("OPTIONS", []), "--", *values["FILES"]]
