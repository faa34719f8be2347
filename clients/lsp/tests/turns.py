#!/usr/bin/env python3
"""A program with questions in turns, for tests: `attrd` behind it answers all lines but `post` and `wait`.

    turns.py --slice N -- GRAMMAR TREE ASPECT..

ATTRD names the program behind it. A question of an attribute that is named in SLOW (`errors=1000`) takes so many turns, and each other
one a single turn; a turn takes TURN seconds. Behind each line so many turns are given as `--slice` says, to the open question
with the least number; an accepted edit has each open question begin anew. LINES is a file that notes each line. While there is a file
at the path HELD, no question in SLOW is answered."""
from __future__ import annotations

import os
import subprocess
import sys
import time
from typing import BinaryIO, Dict, List

EDITS = ("set", "put", "drop", "insert", "token", "move")


class Posted:
    """An open question: the session and number, the words behind `post`, and how many turns it had."""

    def __init__(self, session: str, number: int, words: str) -> None:
        self.session, self.number, self.words, self.turns = session, number, words, 0

    def needs(self, slow: Dict[str, int]) -> int:
        """How many turns it takes."""
        attribute = self.words.split(" ")[1].partition("(")[0]
        return slow.get(attribute, 1)


class Turns:
    """Lines in, replies out, and turns behind each line."""

    def __init__(self, behind: "subprocess.Popen[bytes]", slice_of: int, replies: BinaryIO) -> None:
        self.behind, self.slice, self.replies = behind, slice_of, replies
        self.slow = {name: int(count) for name, count in (it.split("=") for it in os.environ.get("SLOW", "").split())}
        self.turn = float(os.environ.get("TURN", "0"))
        self.held = os.environ.get("HELD", "")
        self.open: List[Posted] = []
        self.number = self.version = 0

    def ask(self, line: str) -> str:
        """The reply of the program behind."""
        assert self.behind.stdin is not None and self.behind.stdout is not None
        self.behind.stdin.write(line.encode() + b"\n")
        self.behind.stdin.flush()
        return self.behind.stdout.readline().decode().rstrip("\n")

    def tell(self, reply: str) -> None:
        """Writes a reply."""
        self.replies.write(reply.encode() + b"\n")
        self.replies.flush()

    def take(self, line: str) -> None:
        """Answers a line, and then gives the turns."""
        session, _, command = line.partition(" ")
        if command.startswith("post "):
            self.number += 1
            self.open.append(Posted(session, self.number, command[len("post ") :]))
            self.tell(f"{session} open {self.number}")
        else:
            self.edit(command, self.ask(line))
        self.give(self.slice)

    def edit(self, command: str, reply: str) -> None:
        """Writes the reply; behind an edit all open questions begin anew."""
        words = reply.split(" ")
        if words[1] == "ok":
            self.version = int(words[2])
            if command.split(" ")[0] in EDITS:
                for it in self.open:
                    it.turns = 0
        self.tell(reply)

    def is_held(self, posted: Posted) -> bool:
        """Whether the question isn't answered yet, however many turns it had."""
        return posted.needs(self.slow) > 1 and os.path.exists(self.held)

    def give(self, limit: int) -> None:
        """Gives so many turns."""
        for _ in range(limit):
            if not self.open:
                return
            first = self.open[0]
            first.turns += 1
            time.sleep(self.turn)
            if first.turns >= first.needs(self.slow) and not self.is_held(first):
                answer = self.ask(f"{first.session} ask {first.words}").partition(" ")[2]
                self.tell(f"{first.session} done {first.number} {self.version} {answer}")
                self.open.pop(0)


def main(words: List[str]) -> int:
    """Serves standard input; the exit status of the program behind."""
    if words[:1] != ["--slice"]:
        return subprocess.call([os.environ["ATTRD"], *words])
    behind = subprocess.Popen([os.environ["ATTRD"], *words[2:]], stdin=subprocess.PIPE, stdout=subprocess.PIPE)
    turns = Turns(behind, int(words[1]), sys.stdout.buffer)
    noted = open(os.environ["LINES"], "a") if "LINES" in os.environ else None
    try:
        for line in sys.stdin:
            if noted is not None:
                print(line.rstrip("\n"), file=noted, flush=True)
            turns.take(line.rstrip("\n"))
    except BrokenPipeError:
        pass
    assert behind.stdin is not None
    behind.stdin.close()
    return behind.wait()


if __name__ == "__main__":
    sys.exit(main(sys.argv[1:]))
