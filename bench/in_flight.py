#!/usr/bin/env python3
"""What a line costs of many that are in flight: with `--gather` and without it, by a pipe and by a socket, as ratios of one run.

    python3 bench/in_flight.py [PROGRAM]

PROGRAM is ./attrd if none is given. A client sends so many lines with one write, and reads until each has its reply. Each time is
the least of some rounds, in which all ways take turns. The status is 1 where a ratio is above what is wanted.
"""
import socket
import subprocess
import sys
import tempfile
import time
from contextlib import ExitStack
from pathlib import Path
from typing import Callable, Dict, List, Sequence, Tuple

from history import note

FILES = {"sum.ast": "Sum ::= Left:Num Right:Num; Num ::= <Value:int>;\n", "sum.txt": "Sum(Num(3),Num(4))\n",
         "sum.jrag": "aspect S { syn lazy int Sum.total() = getLeft().getValue() + getRight().getValue() * 2; }\n"}
# How many rounds there are, and for how many lines a time is taken in each.
ROUNDS, LINES = 15, 20_000
MANY = 1_000
# How much of the time without the option a line may take with it: the kind of stream, and how many lines are in flight.
WANTED = {("pipe", 1): 1.05, ("pipe", MANY): 0.35, ("socket", 1): 1.05, ("socket", MANY): 0.25}
SENT = {"version": b"0 version\n", "a kept question": b"0 ask / total()\n"}
# Sends bytes, and receives some.
Ends = Tuple[Callable[[bytes], object], Callable[[], bytes]]


def piped(stack: ExitStack, program: str, folder: str, options: Sequence[str]) -> Ends:
    """A run of the program by pipes."""
    run = stack.enter_context(subprocess.Popen([program, *options, *FILES], cwd=folder, bufsize=0, stdin=subprocess.PIPE,
                                               stdout=subprocess.PIPE))
    assert run.stdin and run.stdout
    stack.callback(run.stdin.close)
    given, told = run.stdin, run.stdout
    return given.write, lambda: told.read(1 << 16)


def connected(stack: ExitStack, program: str, folder: str, options: Sequence[str]) -> Ends:
    """A run of the program that serves a socket, and a connection to that."""
    path = str(Path(folder, "-".join(["socket", *options])))
    stack.enter_context(subprocess.Popen([program, "--socket", path, *options, *FILES], cwd=folder))
    stream = stack.enter_context(socket.socket(socket.AF_UNIX))
    for _ in range(1_000):
        try:
            stream.connect(path)
            break
        except OSError:
            time.sleep(0.01)
    return stream.sendall, lambda: stream.recv(1 << 16)


def spent(ends: Ends, line: bytes, flight: int) -> float:
    """The seconds that a line takes where so many are in flight."""
    send, receive = ends
    rounds = LINES // max(flight, 10)
    began = time.perf_counter()
    for _ in range(rounds):
        send(line * flight)
        left = flight
        while left:
            told = receive()
            if not told:
                sys.exit("attrd ended")
            left -= told.count(b"\n")
    return (time.perf_counter() - began) / (rounds * flight)


def main() -> int:
    program = str(Path(sys.argv[1] if len(sys.argv) > 1 else Path(__file__).resolve().parent.parent / "attrd").resolve())
    status = 0
    with tempfile.TemporaryDirectory() as folder, ExitStack() as stack:
        for name, text in FILES.items():
            Path(folder, name).write_text(text)
        ways = {(kind, option): begin(stack, program, folder, [option] if option else [])
                for kind, begin in (("pipe", piped), ("socket", connected)) for option in ("", "--gather")}
        for what, line in SENT.items():
            times: Dict[Tuple[str, str, int], List[float]] = {}
            for _ in range(ROUNDS):
                for (kind, option), ends in ways.items():
                    for flight in 1, MANY:
                        times.setdefault((kind, option, flight), []).append(spent(ends, line, flight))
            for (kind, flight), wanted in WANTED.items():
                plain, gathered = (min(times[kind, option, flight]) for option in ("", "--gather"))
                is_held = what != "version" or gathered <= wanted * plain
                status = status if is_held else 1
                note(f"{what}, {flight:,} in flight by a {kind}, --gather against none", gathered / plain, most=wanted if what == "version" else None)
                print(f"{what}, {flight:,} in flight by a {kind}: {plain * 1e6:.2f} us, with --gather {gathered * 1e6:.2f}: "
                      f"ratio {gathered / plain:.2f}" + (f" (at most {wanted})" if what == "version" else "") + ("" if is_held else ", too much"))
    return status


if __name__ == "__main__":
    sys.exit(main())
