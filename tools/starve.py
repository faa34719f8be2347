#!/usr/bin/env python3
"""Refuses the first request for memory, then the second alone, and so on, until no run asks for that many.

    tools/starve.py [-k PART].. STARVE

In each session below, over the calculator, also with names looked up by key, or over rooms, with circular attributes or as for JastAdd,
with each keeper, by the program `starve`; with -k in those alone of whose names,
SESSION/KEEPER, it is a part. What each took is told. A round may end for want of memory before the session's first line, or have one
line or question answered `memory`, which the run reports. Its other lines are answered right, as a server tells that is given these
alone, and so is each question, as where it is asked at once. The requests in front of the first line are the same in each session over
the same files with a keeper and options, and are refused in the first of them."""
import argparse
import os
import re
import shutil
import subprocess
import sys
import tempfile
import time
from collections import Counter
from dataclasses import dataclass
from pathlib import Path
from typing import Dict, NamedTuple, Optional, Sequence, Tuple

CRATES = Path(__file__).resolve().parent.parent / "crates"
CALCULATOR = tuple(str(CRATES / "attrd/data" / it) for it in ("calc.ast", "tree.txt", "calc.jrag"))
ROOMS = tuple(str(CRATES / "starve/data" / it) for it in ("rooms.ast", "rooms.txt", "rooms.jrag"))
JAVA = (*ROOMS[:2], str(CRATES / "starve/data/java.jrag"))
# How values are kept, as `starve` names it: without a bound, few of them over an edit, and none.
KEEPERS = ("verified", "few-verified", "until-edit", "cut-off", "few-cut-off", "until-edit-cut-off")


class Session(NamedTuple):
    """Lines, the replies to them where no memory is refused, the files that they are over, and the options for these."""

    lines: str
    replies: str
    files: Tuple[str, ...] = CALCULATOR
    options: Tuple[str, ...] = ()


# A question, each edit but a move, and a mark, and the question again; and another one twice where it was asked last. At the end the
# tree is shown, and the mark goes.
EDITS = """0 ask /Block/Stmt:1/Expr value()
100 ask /Block/Stmt:1/Expr/Right value()
100 ask /Block/Stmt:1/Expr/Right value()
0 mark u /Block/Stmt:1/Expr/Left
0 insert /Block Stmt 0 Decl("y",-)
0 put /Block/Stmt:0 Init Num(6)
0 drop /Block/Stmt:0
0 set /Block/Stmt:0/Init Num(4)
0 token /Block/Stmt:1/Expr/Right Value 5
100 ask /Block/Stmt:1/Expr/Right value()
100 ask /Block/Stmt:1/Expr/Right value()
0 where u
0 ask /Block/Stmt:1/Expr value()
0 show /
0 unmark u
0 where u
""", """0 = 3
100 = 2
100 = 2
0 ok 0
0 ok 1
0 ok 2
0 ok 3
0 ok 4
0 ok 5
100 = 5
100 = 5
0 = /Block/Stmt:1/Expr/Left
0 = 9
0 = Program(Block([Decl("x",Num(4)),Print(Add(Use("x"),Num(5)))]))
0 ok 5
0 refused 3 mark
"""
# A marked statement is moved into another list, out of it, and within a list, with questions before and after it. At the end the
# tree is shown.
MOVES = """0 ask /Block/Stmt:1/Expr value()
0 mark u /Block/Stmt:1/Expr/Left
0 insert /Block Stmt 2 Block([])
0 move /Block/Stmt:1 to /Block/Stmt:2 Stmt 0
0 where u
0 ask /Block/Stmt:1/Stmt:0/Expr value()
0 move /Block/Stmt:1/Stmt:0 to /Block Stmt 0
0 move /Block/Stmt:0 to /Block Stmt 2
0 where u
0 ask /Block/Stmt:2/Expr value()
0 show /
""", """0 = 3
0 ok 0
0 ok 1
0 ok 2
0 = /Block/Stmt:1/Stmt:0/Expr/Left
0 = 3
0 ok 3
0 ok 4
0 = /Block/Stmt:2/Expr/Left
0 = 3
0 = Program(Block([Decl("x",Num(1)),Block([]),Print(Add(Use("x"),Num(2)))]))
"""
# Questions in turns, one turn behind each line: one that is waited for, one whose place is gone, one whose mark is gone, and one that
# is answered at the end. With each keeper they are answered by the same turns.
TURNS = """0 post /Block/Stmt:1/Expr value()
0 mark u /Block/Stmt:1/Expr/Left
0 post $u decl()
0 wait 2
0 insert /Block Stmt 0 Decl("y",-)
0 post $u decl()
0 drop /Block/Stmt:2
0 where u
0 post /Block/Stmt:1 value()
0 post /Block local("x")
0 wait 4
0 token /Block/Stmt:1/Init Value 5
""", """0 open 1
0 ok 0
0 open 2
0 done 2 0 = /Block/Stmt:0
0 ok 1
0 done 1 1 refused 4 path
0 open 3
0 ok 2
0 done 3 2 refused 3 mark
0 refused 3 mark
0 open 4
0 open 5
0 done 4 2 = 1
0 ok 3
0 done 5 3 = /Block/Stmt:1
"""
# Groups of circular attributes, one of which wants what the other one comes to: all in doubt, an edit of one of them, a longer group, and
# a question in turns.
GROUPS = """0 ask /Room:2 dark()
0 ask /Room:0 dark()
0 token /Room:3 On true
0 ask /Room:1 lit()
0 ask /Room:1 dark()
0 token /Room:3 On false
0 insert / Room 1 Room(false,"n")
0 post /Room:0 dark()
0 token /Room:1 Label "m"
0 wait 1
0 ask /Room:4 lit()
0 move /Room:4 to / Room 0
0 ask /Room:0 dark()
""", """0 = true
0 = true
0 ok 1
0 = true
0 = false
0 ok 2
0 ok 3
0 open 1
0 ok 4
0 done 1 4 = true
0 = false
0 ok 5
0 = true
"""
# Aspects as users of JastAdd write them, of which the reading is what matters here.
READ = """0 ask / weight()
0 token /Room:3 On true
0 ask / weight()
0 ask /Room:0 lit()
0 ask / named("d")
""", """0 = -1
0 ok 1
0 = 42
0 = false
0 = /Room:3
"""
SESSIONS = {"edits": Session(*EDITS), "moves": Session(*MOVES), "turns": Session(*TURNS), "groups": Session(*GROUPS, ROOMS, ("--forms", "circular")),
            "read": Session(*READ, JAVA, ("--forms", "jastadd")), "keys": Session(*EDITS, options=("--index",)),
            "moved keys": Session(*MOVES, options=("--index",))}
DONE = re.compile(r"(\d+) done (\d+) (\d+) (.*)")
# Whether a request was refused, and how many lines and questions were answered `memory`.
TOLD = re.compile(r"(refused\n)?memory (\d+)\nwork \d+\n")
BEFORE, ANSWERED, UNSEEN = "ended before the first line", "had a line answered `memory`", "made no difference"
MOST_ROUNDS = 100_000


def preloading(folder: str, name: str) -> Dict[str, str]:
    """The environment that loads the library of that name before the C library's own; it is built in the folder."""
    library = Path(folder) / f"{name}.so"
    compiler = os.environ.get("CC") or shutil.which("cc") or "clang"
    subprocess.run([compiler, "-O2", "-shared", "-fPIC", "-o", library, Path(__file__).with_name(f"{name}.c"), "-ldl"], check=True)
    return {"LD_PRELOAD": str(library)}


def refusing(folder: str) -> Dict[str, str]:
    """The environment with a library that refuses the request for memory whose number stands in REFUSE."""
    return preloading(folder, "refuse")


class Retold:
    """A session without want of memory: its other lines and the replies to them. Each question is asked where it was answered."""

    def __init__(self, lines: Sequence[str], replies: Sequence[str]) -> None:
        self.lines, self.replies, self.wanting = list[str](), list[str](), 0
        self.posted, left = dict[str, str](), list(replies)
        for line, following in zip(lines, [*lines[1:], ""]):
            self.take(line, left.pop(0) if left else "")
            while self.is_of_a_turn(left, following):
                self.answer(left.pop(0))
        # whether each line has its reply, and each question its answer
        self.is_whole = not left and not self.posted

    def is_of_a_turn(self, left: Sequence[str], following: str) -> bool:
        """Whether a turn's answer comes next. The following line that waits for it is told then that no question is open."""
        done = DONE.fullmatch(left[0]) if left else None
        if not done or done[2] not in self.posted:
            return False
        return following != f"{done[1]} wait {done[2]}" or left[1:2] == [f"{done[1]} refused 15 question"]

    def take(self, line: str, reply: str) -> None:
        """Retells a line with its reply; a question that is opened is only noted."""
        session, word, rest = line.split(" ", 2)
        if reply == f"{session} memory":
            self.wanting += 1
        elif reply.startswith(f"{session} open "):
            self.posted[reply.split()[2]] = f"{session} ask {rest}"
        elif DONE.fullmatch(reply):
            self.answer(reply)
        else:
            self.lines.append(f"{session} ask {rest}" if word == "post" else line)
            self.replies.append(reply)

    def answer(self, reply: str) -> None:
        """Retells the answer to a question: it is asked, and so is the version."""
        done = DONE.fullmatch(reply)
        assert done
        question = self.posted.pop(done[2], "")
        if done[4] == "memory":
            self.wanting += 1
        else:
            self.lines += [question, f"{done[1]} version"]
            self.replies += [f"{done[1]} {done[4]}", f"{done[1]} ok {done[3]}"]


@dataclass
class Server:
    """The program `starve`, with a keeper, for a session, and an environment in which a request for memory is refused."""

    program: str
    keeper: str
    session: Session
    environment: Dict[str, str]

    def run(self, lines: str, nth: int) -> "subprocess.CompletedProcess[str]":
        """A run over these lines with the nth request refused; with none where that is 0. One turn follows each line."""
        return subprocess.run([self.program, *self.session.options, self.keeper, "1", *self.session.files], env={**self.environment, "REFUSE": str(nth)}, input=lines,
                              capture_output=True, text=True, timeout=300)

    def tells(self, lines: Sequence[str], replies: Sequence[str]) -> bool:
        """Whether these are the replies to the lines where no request is refused."""
        run = self.run("".join(f"{it}\n" for it in lines), 0)
        told = TOLD.fullmatch(run.stderr)
        return (run.returncode, run.stdout.splitlines(), told and told.groups()) == (0, list(replies), (None, "0"))

    def outcome(self, name: str, nth: int) -> Optional[str]:
        """How the session went with the nth request refused; None where it makes fewer. Ends the process where it went wrong."""
        lines, replies = self.session.lines, self.session.replies
        run = self.run(lines, nth)
        if (run.returncode, run.stdout, run.stderr) == (4, "", "refused\nmemory\n"):
            return BEFORE
        told = TOLD.fullmatch(run.stderr) if run.returncode == 0 else None
        if told and run.stdout == replies and told[2] == "0":
            return UNSEEN if told[1] else None
        retold = Retold(lines.splitlines(), run.stdout.splitlines())
        is_one = retold.is_whole and retold.wanting == 1
        if told and told.groups() == ("refused\n", "1") and is_one and self.tells(retold.lines, retold.replies):
            return ANSWERED
        sys.exit(f"{name} {self.keeper}: with request {nth} refused, status {run.returncode}\n{run.stdout}{run.stderr}")


def starved(server: Server, name: str, first: int) -> int:
    """Runs the rounds of a session from that request on, until in one no request is refused: the last one that begins no session."""
    began, counts, last, word = time.perf_counter(), Counter[str](), first, server.keeper
    for nth in range(first, MOST_ROUNDS):
        outcome = server.outcome(name, nth)
        if outcome is None:
            break
        if outcome == BEFORE and counts[ANSWERED] > 0:
            sys.exit(f"{name} {word}: with request {nth} refused, the program ended in its session")
        counts[outcome] += 1
        last = nth if outcome == BEFORE else last
    else:
        sys.exit(f"{name} {word}: a request was refused in each of {MOST_ROUNDS} rounds")
    if not counts[BEFORE] or not counts[ANSWERED]:
        sys.exit(f"{name} {word}: in no round {BEFORE if counts[ANSWERED] else ANSWERED}")
    told = ", ".join(f"{counts[outcome]:,} {outcome}" for outcome in (BEFORE, UNSEEN, ANSWERED))
    seconds = time.perf_counter() - began
    print(f"{name}/{word}: {sum(counts.values()):,} rounds in {seconds:.0f} s, all right: {told}", flush=True)
    return last


def main() -> None:
    words = argparse.ArgumentParser(description="Refuses each request for memory in turn, in each session with each keeper.")
    words.add_argument("-k", metavar="PART", action="append", default=[], help="in those alone whose names, SESSION/KEEPER, have this part")
    words.add_argument("program", metavar="STARVE")
    given = words.parse_args()
    pairs = [(name, word) for word in KEEPERS for name in SESSIONS]
    chosen = [it for it in pairs if not given.k or any(part in "/".join(it) for part in given.k)]
    if not chosen:
        words.error(f"no session has such a name; there are {', '.join(map('/'.join, pairs))}")
    begun: Dict[Tuple[str, ...], int] = {}
    with tempfile.TemporaryDirectory() as folder:
        environment = refusing(folder)
        for name, word in chosen:
            server = Server(os.path.abspath(given.program), word, SESSIONS[name], environment)
            kind = (word, *server.session.options, *server.session.files)
            begun[kind] = starved(server, name, begun.get(kind, 1))


if __name__ == "__main__":
    main()
