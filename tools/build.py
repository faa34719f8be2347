"""Builds the proved program and leaves it as ./attrd, with its record (tools/proved.py) beside it.

    python3 -m tools.build

It tells each minute how far it is, and when each crate begins: which one of how many, and how many of its functions are proved.
A first build proves each crate from nothing, behind a pass over all sources that finds what needs no proof. What `rt` prints is
in .build.log. The status is 1 where a function isn't proved or the program can't be built.
"""
import os
import queue
import re
import subprocess
import sys
import threading
import time
from dataclasses import replace
from pathlib import Path
from typing import IO, List, Optional

from tools import proved, sources

NAME = "attrd"
LOG = sources.ROOT / ".build.log"
WORDS = ("rt", "run", "--", "data/sum.ast", "data/sum.txt", "data/sum.jrag")
INTERVAL = 60.0
CRATE = re.compile(r"rt: chose --jobs \d+ for (\w+)")
SO_FAR = re.compile(r"so far: ([\d,]+) of ([\d,]+) functions checked")
PROVED = re.compile(r"logic=proved\b.*\bfunctions=([\d,]+)")
HEAD = """attrd: proves what isn't proved yet, and builds ./attrd. A first build takes about an hour on two cores, and about
4 GB of disk; a later one takes up what is proved. What it prints is in .build.log."""


class Progress:
    """How far a build is, by what rt prints and by the files that a check leaves in crates/NAME/out."""

    def __init__(self) -> None:
        self.crates = sources.crates_below(NAME)
        self.began = time.time()
        self.crate: Optional[str] = None
        self.functions: Optional[int] = None
        self.checked = 0

    def hear(self, line: str) -> Optional[str]:
        """Takes a line that rt printed; what is told of it, if anything is."""
        begun, so_far, done = CRATE.match(line), SO_FAR.match(line), PROVED.search(line)
        if begun and begun[1] in self.crates:
            self.crate, self.functions, self.checked = begun[1], None, 0
            return self.state()
        if so_far:
            self.checked, self.functions = (int(it.replace(",", "")) for it in so_far.groups())
        if done and self.crate:
            return f"{self.crate} is proved: {done[1]} functions"
        return None

    def proved_anew(self) -> int:
        """How many functions of the crate have a file that a check leaves once they are shown to do what their contract says."""
        files = sources.ROOT.joinpath("crates", self.crate or "", "out/incremental").glob("*/*.Tie.oantt")
        return sum(it.stat().st_mtime >= self.began for it in files)

    def state(self) -> str:
        """What goes on now."""
        if self.crate is None:
            return f"before the first of {len(self.crates)} crates: reads all sources, in 3 to 5 minutes, for what is found with no proof"
        place = f"proves {self.crate}, crate {self.crates.index(self.crate) + 1} of {len(self.crates)}"
        done = max(self.checked, self.proved_anew())
        return f"{place}: {done} of {self.functions or 'its'} functions" if done or self.functions else place


def tell(progress: Progress, what: str) -> None:
    """Prints a line with the time that was taken so far."""
    minutes, seconds = divmod(int(time.time() - progress.began), 60)
    print(f"  {minutes:3}:{seconds:02}  {what}", file=sys.stderr, flush=True)


def pass_on(lines: IO[str], into: "queue.Queue[Optional[str]]") -> None:
    """Puts each line into the queue and the log, and None behind the last one."""
    with open(LOG, "w", encoding="utf-8") as log:
        for line in lines:
            print(line, end="", file=log, flush=True)
            into.put(line)
    into.put(None)


def watched(run: "subprocess.Popen[str]") -> int:
    """Tells how far the build is until it has ended; its status."""
    progress, lines = Progress(), queue.Queue[Optional[str]]()
    threading.Thread(target=pass_on, args=(run.stdout, lines), daemon=True).start()
    tell(progress, progress.state())
    due = time.monotonic() + INTERVAL
    while True:
        try:
            line = lines.get(timeout=max(0.0, due - time.monotonic()))
        except queue.Empty:
            tell(progress, progress.state())
            due += INTERVAL
            continue
        if line is None:
            return run.wait()
        told = progress.hear(line)
        if told:
            tell(progress, told)


def build() -> bool:
    """Proves and builds the program; whether that was done. What rt printed last is told where it wasn't."""
    folder = sources.ROOT / "crates" / NAME
    with open(folder / "stdin", "rb") as given:
        run = subprocess.Popen(WORDS, cwd=folder, stdin=given, stdout=subprocess.PIPE, stderr=subprocess.STDOUT,
                               text=True, errors="replace")
    with run:
        status = watched(run)
    if status:
        said: List[str] = LOG.read_text(encoding="utf-8").splitlines()
        print(*said[-20:], f"{NAME}: not built; {LOG.name} has all that was printed", sep="\n", file=sys.stderr)
    return status == 0


def put(content: bytes, target: Path, mode: int) -> None:
    """Writes a file whole: a program that runs can't be written, but another file can take its name."""
    new = target.with_name(f".{NAME}.{os.getpid()}")
    try:
        new.write_bytes(content)
        new.chmod(mode)
        new.replace(target)
    finally:
        new.unlink(missing_ok=True)


def main() -> int:
    print(HEAD, file=sys.stderr, flush=True)
    before = proved.as_it_stands(NAME)
    if not build():
        return 1
    made, program = sources.ROOT / "crates" / NAME / "out" / NAME, sources.ROOT / NAME
    record = replace(before, program=proved.digest(made))
    if proved.as_it_stands(NAME).sources != before.sources:
        print(f"{NAME}: the sources were changed meanwhile, so the record names none", file=sys.stderr)
        record = replace(record, tree="changed", sources="changed")
    put(made.read_bytes(), program, 0o755)
    put(record.text().encode(), proved.file_of(program), 0o644)
    print(f"{NAME}: built; ./{NAME} is proved, {record.told()}", file=sys.stderr)
    return 0


if __name__ == "__main__":
    try:
        sys.exit(main())
    except KeyboardInterrupt:
        sys.exit(f"{NAME}: stopped; what was proved is taken up by the next make build")
