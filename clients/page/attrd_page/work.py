"""What an edit makes the server evaluate anew for the probes: counted on a copy, since the running server tells no count.

The copy is the program over the tree as it was before the edit. It is run twice: with the probes, and with the probes, the edit and
the probes once more. `--work` tells the values of lazy attributes that each run evaluated; what the second has more, the edit cost.
"""
from __future__ import annotations

import asyncio
import os
import re
import tempfile
from contextlib import suppress
from dataclasses import dataclass
from pathlib import Path as FilePath
from typing import List, Optional, Sequence, Set

SECONDS = 20.0
NODES = 2_000
_WORK = re.compile(rb"^work ([0-9]+)$", re.M)


@dataclass(frozen=True)
class Copy:
    """What was there before an edit: the tree's term, lines that mark and ask the probes' nodes, and the edit's command."""

    version: int
    term: str
    marks: Sequence[str]
    questions: Sequence[str]
    edit: str


Processes = Set[asyncio.subprocess.Process]


async def count(program: Sequence[str], grammar: str, aspects: Sequence[str], copy: Copy, running: Processes) -> Optional[int]:
    """How many values of lazy attributes were evaluated for the probes after the edit; None where the copy couldn't be run. `program` are the
    program and the options without which its files would be others.

    The process that runs it is among `running` meanwhile: where that is killed, there is no count. It isn't to be cancelled: a
    process that is cancelled while it is being created is waited for without end."""
    asked = [*copy.marks, *copy.questions]
    try:
        with tempfile.TemporaryDirectory(prefix="attrd-page-") as folder:
            tree = FilePath(folder) / "tree.txt"
            tree.write_text(copy.term, "utf-8")
            words = [*program, "--work", "--", grammar, str(tree), *aspects]
            before = await _work(words, asked, running)
            if before is None:
                return None
            after = await _work(words, [*asked, f"0 {copy.edit}", *copy.questions], running)
    except OSError:
        return None
    return None if after is None else after - before


async def _work(words: List[str], lines: Sequence[str], running: Processes) -> Optional[int]:
    """The work that a run tells; None where it tells none, or takes too long. Raises OSError where it can't be started."""
    process = await asyncio.create_subprocess_exec(
        *words, stdin=asyncio.subprocess.PIPE, stdout=asyncio.subprocess.DEVNULL, stderr=asyncio.subprocess.PIPE,
        start_new_session=True, env=os.environ)
    running.add(process)
    try:
        _, told = await asyncio.wait_for(process.communicate("".join(f"{it}\n" for it in lines).encode()), SECONDS)
    except asyncio.TimeoutError:
        with suppress(ProcessLookupError):
            process.kill()
        await process.wait()
        return None
    finally:
        running.discard(process)
    found = _WORK.search(told)
    return int(found[1]) if found else None
