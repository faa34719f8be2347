#!/usr/bin/env python3
"""Lines over attrd-hub, with 1, 16 and 64 clients at once, and beside it over the program's own socket.

    python3 bench/hub.py [PROGRAM]

First each client sends a line, waits for its reply, and sends the next one. Then all clients send all their lines without waiting.
The clients are one process without asyncio, so that little of the time is theirs; what the hub's process takes for a line is told, too.
Then this hub goes by turns with that of version 0.37 over the same program, in one run, where the repository's history is there: by the
clock and by processor time, in many short rounds, with several starts of both. Rounds in which the machine's host had processors for
others are left out, and told. Where there are three processors this is done once more, with clients, hub and program on one each: where
the system puts them differs from round to round, and that by more than the hubs do. Last come edits, with each way of making them safe.
PROGRAM is ./attrd where none is given. It takes four minutes.

    python3 bench/hub.py --turns [PROGRAM]

has the two hubs alone go by turns.
"""
from __future__ import annotations

import io
import os
import select
import shutil
import socket
import statistics
import subprocess
import sys
import tarfile
import tempfile
import time
from contextlib import ExitStack, contextmanager
from pathlib import Path
from typing import Dict, Iterator, List, NamedTuple, Optional, Sequence, Tuple

from figures import ROOT, program_in, ratio, row, table

sys.path.insert(0, str(ROOT / "clients" / "hub" / "tests"))

CLIENTS = (1, 16, 64)
WAITING, PIPELINED, EDITS = 20_000, 400_000, 2_000
LINE = b"0 where u\n"
CHUNK = 1 << 16
# The commit of version 0.37, beside whose hub this one is measured, with so many starts of both. In each are so many rounds of round
# trips, and of lines without waiting, with so many lines of each hub: short ones, since what the machine does else comes and goes.
BEFORE = "f1843a60"
STARTS = 6
ROUNDS_WAITING, SHORT_WAITING = 150, 200
ROUNDS_PIPELINED, SHORT_PIPELINED = 25, 20_000


class Trips(NamedTuple):
    """Of round trips the median and the 99th percentile in microseconds, and how many there are a second; how many lines a second there
    are without waiting; and beside each of the two the microseconds of the server's process for a line."""
    median: float
    late: float
    each_second: float
    taken: float
    lines: float
    lines_taken: float


def connected(path: str) -> socket.socket:
    """A client that has marked a node."""
    stream = socket.socket(socket.AF_UNIX, socket.SOCK_STREAM)
    stream.connect(path)
    stream.sendall(b"0 mark u /Block\n")
    stream.recv(CHUNK)
    return stream


def watched(clients: Sequence[socket.socket]) -> Tuple[select.epoll, Dict[int, socket.socket]]:
    """What waits for the clients' replies, and the clients by their numbers."""
    waiting = select.epoll()
    for it in clients:
        waiting.register(it.fileno(), select.EPOLLIN)
    return waiting, {it.fileno(): it for it in clients}


def waited(clients: Sequence[socket.socket], lines: int) -> List[float]:
    """The seconds of each of so many round trips, of which each client has one under way."""
    waiting, by_number = watched(clients)
    began: Dict[int, float] = {}
    times: List[float] = []
    for number, it in by_number.items():
        began[number] = time.perf_counter()
        it.send(LINE)
    while len(times) < lines:
        for number, _ in waiting.poll():
            by_number[number].recv(CHUNK)
            now = time.perf_counter()
            times.append(now - began[number])
            if len(times) + len(clients) <= lines:
                began[number] = now
                by_number[number].send(LINE)
    return times


def pipelined(clients: Sequence[socket.socket], lines: int) -> None:
    """Sends so many lines of each client as fast as they are taken, and reads all replies."""
    waiting, by_number = watched(clients)
    unsent = {number: memoryview(LINE * lines) for number in by_number}
    missing = dict.fromkeys(by_number, lines)
    for number, it in by_number.items():
        it.setblocking(False)
        waiting.modify(number, select.EPOLLIN | select.EPOLLOUT)
    while missing:
        for number, events in waiting.poll():
            if events & select.EPOLLOUT:
                unsent[number] = unsent[number][by_number[number].send(unsent[number][:CHUNK]):]
                if not unsent[number]:
                    waiting.modify(number, select.EPOLLIN)
            if events & select.EPOLLIN:
                missing[number] -= by_number[number].recv(CHUNK).count(b"\n")
                if not missing[number]:
                    del missing[number]
                    waiting.unregister(number)


def processor_seconds(process: int) -> float:
    """How long a process has run so far."""
    return int(Path(f"/proc/{process}/schedstat").read_text().split()[0]) / 1e9


def measured(path: str, clients: int, process: int) -> Trips:
    """The figures of so many clients of this socket, which the process serves."""
    opened = [connected(path) for _ in range(clients)]
    before, start = processor_seconds(process), time.perf_counter()
    times = sorted(it * 1e6 for it in waited(opened, WAITING))
    seconds, taken = time.perf_counter() - start, processor_seconds(process) - before
    before, start = processor_seconds(process), time.perf_counter()
    pipelined(opened, PIPELINED // clients)
    piped, piped_taken = time.perf_counter() - start, processor_seconds(process) - before
    for it in opened:
        it.close()
    return Trips(statistics.median(times), times[len(times) * 99 // 100], WAITING / seconds, taken / WAITING * 1e6,
                 PIPELINED / piped, piped_taken / PIPELINED * 1e6)


def own_socket(program: str) -> Trips:
    """The figures of one client at the program's own socket."""
    from hub_support import calculator, until
    with tempfile.TemporaryDirectory(prefix="attrd-hub-") as folder:
        path = str(Path(folder) / "attrd.sock")
        process = subprocess.Popen([program, "--socket", path, *calculator(Path(folder))], stdin=subprocess.DEVNULL)
        try:
            until(lambda: os.path.exists(path), "the program's socket")
            return measured(path, 1, process.pid)
        finally:
            process.kill()
            process.wait()


def earlier(folder: Path) -> Optional[Path]:
    """The clients of version 0.37, put below the folder; None where the history isn't there."""
    made = subprocess.run(["git", "archive", BEFORE, "clients"], cwd=ROOT, capture_output=True, check=False)
    if made.returncode:
        return None
    with tarfile.open(fileobj=io.BytesIO(made.stdout)) as files:
        files.extractall(folder)
    return folder / "clients"


@contextmanager
def hub_of(clients: Path, program: str) -> Iterator[Tuple[str, int]]:
    """A hub of these clients over the calculator: its socket, and its process."""
    from hub_support import calculator, until
    folder = Path(tempfile.mkdtemp(prefix="attrd-hub-"))
    path = folder / "hub.sock"
    environment = {**os.environ, "PYTHONPATH": os.pathsep.join([str(clients / "python"), str(clients / "hub")])}
    process = subprocess.Popen([sys.executable, "-m", "attrd_hub", "--program", program, "--socket", str(path), "--state",
                                str(folder / "state"), *calculator(folder)], env=environment, stderr=subprocess.DEVNULL)
    try:
        until(path.exists, "the hub's socket")
        time.sleep(0.1)
        yield str(path), process.pid
    finally:
        process.kill()
        process.wait()
        shutil.rmtree(folder)


class Turn(NamedTuple):
    """Of a hub's lines in a round the microseconds for one, by the clock and of the hub's processor time; how many hundredths of a second
    the host had processors for others meanwhile; and how often the system put the hub aside for a line."""
    clock: float
    processor: float
    stolen: int
    put_aside: float


# A round: the turn of 0.37's hub, and that of this one.
Round = Tuple[Turn, Turn]


def stolen() -> int:
    """For how many hundredths of a second the machine's host had processors for others so far."""
    return int(Path("/proc/stat").read_text().split("\n", 1)[0].split()[8])


def put_aside(process: int) -> int:
    """How often the system had another process run in its place, though it could have gone on."""
    return int(Path(f"/proc/{process}/status").read_text().rpartition("nonvoluntary_ctxt_switches:")[2].split()[0])


def turn_of(clients: Sequence[socket.socket], process: int, is_waiting: bool) -> Turn:
    """What lines of these clients take, which the process serves."""
    lines = SHORT_WAITING if is_waiting else SHORT_PIPELINED
    before, others, switches, start = processor_seconds(process), stolen(), put_aside(process), time.perf_counter()
    if is_waiting:
        waited(clients, lines)
    else:
        pipelined(clients, lines // len(clients))
    seconds = time.perf_counter() - start
    return Turn(seconds / lines * 1e6, (processor_seconds(process) - before) / lines * 1e6, stolen() - others,
                (put_aside(process) - switches) / lines)


def rounds_of(hubs: Sequence[Tuple[str, int]], clients: int, is_waiting: bool) -> List[Round]:
    """Rounds of so many clients of each of the two hubs, in half of which the one is first. One that isn't told comes before these."""
    opened = [[connected(path) for _ in range(clients)] for path, _ in hubs]
    found: List[Round] = []
    for number in range((ROUNDS_WAITING if is_waiting else ROUNDS_PIPELINED) + 1):
        order = (0, 1) if number % 2 else (1, 0)
        turns = {it: turn_of(opened[it], hubs[it][1], is_waiting) for it in order}
        if number:
            found.append((turns[0], turns[1]))
    for it in [*opened[0], *opened[1]]:
        it.close()
    return found


def program_of(hub: int) -> int:
    """The process of the program that this hub has started."""
    return int(Path(f"/proc/{hub}/task/{hub}/children").read_text().split()[0])


@contextmanager
def placed(hubs: Sequence[Tuple[str, int]], is_apart: bool) -> Iterator[None]:
    """Clients, hubs and programs each on a processor of their own, where they are to be apart."""
    free = os.sched_getaffinity(0)
    if is_apart:
        own, of_hubs, of_programs, *_ = sorted(free)
        os.sched_setaffinity(0, {own})
        for _, process in hubs:
            os.sched_setaffinity(process, {of_hubs})
            os.sched_setaffinity(program_of(process), {of_programs})
    try:
        yield
    finally:
        os.sched_setaffinity(0, free)


def compared(clients: Sequence[Path], program: str, is_apart: bool) -> Dict[Tuple[int, bool], List[Round]]:
    """The rounds of hubs of these two folders, by how many clients they have, and whether these wait for each reply."""
    found: Dict[Tuple[int, bool], List[Round]] = {(it, is_waiting): [] for is_waiting in (True, False) for it in CLIENTS}
    for number in range(STARTS):
        with ExitStack() as stack:
            # Each is begun first as often as the other one.
            begun = {it: stack.enter_context(hub_of(clients[it], program)) for it in ((0, 1) if number % 2 else (1, 0))}
            hubs = [begun[0], begun[1]]
            stack.enter_context(placed(hubs, is_apart))
            for key, rounds in found.items():
                rounds += rounds_of(hubs, *key)
    return found


def told(rounds: Sequence[Round]) -> List[str]:
    """The cells of these rounds, without those in which the host had processors for others."""
    kept = [it for it in rounds if not it[0].stolen and not it[1].stolen]
    left_out = f"{len(rounds) - len(kept)} of {len(rounds)}"
    if len(kept) < 4:
        return ["", "", "", "", "", "", left_out]
    speeds = [old.clock / new.clock for old, new in kept]
    least, _, most = statistics.quantiles(speeds, n=4)
    return [f"{1e6 / statistics.median(old.clock for old, _ in kept):,.0f}", f"{1e6 / statistics.median(new.clock for _, new in kept):,.0f}",
            f"{statistics.median(speeds):.3f}", f"{least:.2f} to {most:.2f}",
            f"{statistics.median(new.processor / old.processor for old, new in kept):.3f}",
            " and ".join(f"{statistics.mean(it[at].put_aside for it in kept):.3f}" for at in (0, 1)), left_out]


def beside_earlier(program: str) -> None:
    """Prints what this hub does beside that of 0.37."""
    with tempfile.TemporaryDirectory() as folder:
        before = earlier(Path(folder))
        if before is None:
            print("\nThe history of the repository isn't there: the hub of 0.37 isn't measured.", flush=True)
            return
        for is_apart in (False, True) if len(os.sched_getaffinity(0)) >= 3 else (False,):
            found = compared([before, ROOT / "clients"], program, is_apart)
            table("Clients of the hub" + (", each process on a processor of its own" if is_apart else ""), "A second, the hub of 0.37",
                  "This hub", "Ratio", "In half of the rounds", "Processor time, ratio", "Put aside for a line, both", "Rounds left out")
            for (clients, is_waiting), rounds in found.items():
                row(f"{clients}, {'round trips' if is_waiting else 'without waiting'}", *told(rounds))


def edits(sync: str) -> List[float]:
    """The microseconds of an edit, with this way of making edits safe: one client that waits, and 64 at once."""
    from hub_support import Hub
    hub = Hub("--sync", sync)
    line = b"0 token /Block/Stmt:0 ID \"y\"\n"
    try:
        found = []
        for clients in (1, 64):
            opened = [connected(hub.socket) for _ in range(clients)]
            start = time.perf_counter()
            for _ in range(EDITS // clients):
                for it in opened:
                    it.send(line)
                for it in opened:
                    it.recv(CHUNK)
            found.append((time.perf_counter() - start) / (EDITS // clients * clients) * 1e6)
            for it in opened:
                it.close()
        return found
    finally:
        hub.close()


def main(words: Sequence[str]) -> None:
    if words[:1] == ["--turns"]:
        beside_earlier(program_in(words[1:], __doc__))
        return
    program = program_in(words, __doc__)
    os.environ["ATTRD"] = program
    from hub_support import Hub
    own = own_socket(program)
    found = {"1, at the program's own socket": own}
    hub = Hub()
    try:
        found.update({f"{it} over the hub": measured(hub.socket, it, hub.process.pid) for it in CLIENTS})
    finally:
        hub.close()
    table("Clients", "A round trip, median", "Against the own socket", "99 of 100", "Round trips a second", "The server's time for one",
          "Lines a second, without waiting", "The server's time for one")
    for what, it in found.items():
        row(what, f"{it.median:.0f} us", ratio(it.median, own.median), f"{it.late:.0f} us", f"{it.each_second:,.0f}", f"{it.taken:.1f} us",
            f"{it.lines:,.0f}", f"{it.lines_taken:.2f} us")
    beside_earlier(program)
    table("Edits are made safe", "An edit of one client that waits", "An edit of 64 clients")
    for sync in ("each", "second", "never"):
        one, many = edits(sync)
        row(sync, f"{one:,.0f} us", f"{many:,.0f} us")


if __name__ == "__main__":
    main(sys.argv[1:])
