#!/usr/bin/env python3
"""The gate's proofs: `rt ci`, and the wrong bodies that the prover has to refuse.

    tools/gate.py

Run it at the top of the repository. `rt ci` proves each crate from nothing, with its tests, builds each program by two
compilers and runs it, in a copy of the repository that has no edits, since it would check each crate that has some once more
from nothing. What an earlier run on the machine proved of the same files it takes up. The edits of a crate are tried as soon
as it is proved (`tools/refused.py`). The proved programs are left in crates/NAME/out. The last line tells what passed; status
1 where anything failed.
"""
import io
import os
import re
import resource
import shutil
import subprocess
import sys
import tempfile
import threading
from concurrent.futures import Future, ThreadPoolExecutor
from pathlib import Path
from typing import List, Tuple

sys.dont_write_bytecode = True
sys.path.insert(0, str(Path(__file__).resolve().parent.parent))
from tools import edits, refused  # noqa: E402

# The trial of a crate's edits, once it is begun.
Trial = Future[List[refused.Line]]


def copied(room: Path) -> None:
    """Copies what git tracks, or would, into the folder, but for the edits."""
    names = subprocess.run(["git", "ls-files", "-z", "--cached", "--others", "--exclude-standard"], capture_output=True, check=True)
    for name in filter(None, os.fsdecode(names.stdout).split("\0")):
        if Path(name).is_file() and not re.match(r"crates/\w+/must-fail/", name):
            (room / name).parent.mkdir(parents=True, exist_ok=True)
            shutil.copy2(name, room / name)


def tried_in(lanes: threading.Semaphore, proved: refused.Proved, crate: str) -> List[refused.Line]:
    """Tries a crate's edits once a lane is free, and prints what is told of them."""
    lines = list[refused.Line]()
    with lanes:
        for told in refused.tried_in_turn(proved, crate, edits.rounds_of(crate, edits.edits_of(crate))):
            print("\n".join(line for _, line in told), flush=True)
            lines += told
    return lines


def proved_in(room: Path, pool: ThreadPoolExecutor, lanes: threading.Semaphore) -> Tuple[int, List[Trial]]:
    """Runs `rt ci` in the folder and prints what it tells. Gives its status, and the trials of edits, begun as crates were proved."""
    proved, trials, begun = refused.Proved(room), list[Trial](), set[str]()

    def begin(crate: str) -> None:
        begun.add(crate)
        trials.append(pool.submit(tried_in, lanes, proved, crate))

    # one job for each check: several jobs of one check do a part of its work twice, and other crates can use the processor
    jobs = {"RT_JOBS": str(len(os.sched_getaffinity(0))), **os.environ}
    ran = subprocess.Popen(["rt", "ci"], cwd=room, env=jobs, text=True, errors="replace", stdout=subprocess.PIPE,
                           stderr=subprocess.STDOUT)
    assert ran.stdout
    for line in ran.stdout:
        print(line, end="", flush=True)
        told = re.match(r"rt: (\w+) (?:proved$|is kept: )", line)
        if told:
            begin(told[1])
    status = ran.wait()
    # should the kit tell of it in other words
    for crate in proved.uses if status == 0 else []:
        if crate not in begun:
            begin(crate)
    return status, trials


def main() -> int:
    assert isinstance(sys.stdout, io.TextIOWrapper)
    sys.stdout.reconfigure(line_buffering=True)
    wanted = sum(len(edits.edits_of(it.name)) for it in Path("crates").iterdir())
    # edits have half of the processors while rt ci goes on, and then all
    processors = len(os.sched_getaffinity(0))
    lanes = threading.Semaphore(max(1, processors // 2))
    with tempfile.TemporaryDirectory(prefix="attrd-gate-") as folder, ThreadPoolExecutor(processors) as pool:
        room = Path(folder)
        copied(room)
        status, trials = proved_in(room, pool, lanes)
        lanes.release(processors - processors // 2)
        lines = [it for trial in trials for it in trial.result()]
        for root in Path("crates").glob("*/src/main.rt"):
            made = Path("crates", root.parts[1], "out", root.parts[1])
            made.parent.mkdir(exist_ok=True)
            if (room / made).exists():
                shutil.copy2(room / made, made)
    spent = resource.getrusage(resource.RUSAGE_CHILDREN)
    well = sum(is_well for is_well, _ in lines)
    print(f"rt ci: {'passed' if status == 0 else 'FAILED'}; processor time: {(spent.ru_utime + spent.ru_stime) / 60:.0f} minutes")
    print(f"{well} passed, {wanted - well + (status != 0)} failed")
    return 0 if status == 0 and well == wanted else 1


if __name__ == "__main__":
    sys.exit(main())
