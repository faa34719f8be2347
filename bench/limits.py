#!/usr/bin/env python3
"""What ./attrd takes at its limits: the memory of a long session against that of a short one, and the time for files of
4 MiB that are one piece. It takes the program's path, and how many lines the long session has."""
import os
import subprocess
import sys
import tempfile
import threading
import time
from pathlib import Path
from typing import IO, Callable, Dict, Iterable, List, Sequence, Tuple, cast

from history import note

# The seconds, the peak in KiB and the replies by kind of a session.
Session = Tuple[float, int, Dict[bytes, int]]

ROOT = Path(__file__).resolve().parent.parent
LINE = 65_535
FILE = 4 << 20
CYCLE = 50
SLOW = 2.0


def cycle(k: int) -> str:
    """The lines of one cycle: a question with another text each time, as long as a line may be, and then marks and edits.
    Their number is CYCLE."""
    front, end = '0 ask /Block/Stmt:1/Expr/Left lookup("', '")'
    text = f"{k}_".ljust(LINE - len(front) - len(end), "x")
    others = ["0 mark u /Block/Stmt:1/Expr/Left", '0 insert /Block Stmt 0 Decl("y",Num(6))', "0 ask $u value()", "0 drop /Block/Stmt:0",
              "0 token /Block/Stmt:1/Expr/Right Value 5", "0 unmark u", "0 version"]
    return "\n".join([front + text + end, *others * (CYCLE // len(others))]) + "\n"


def peak(pid: int) -> int:
    """The most memory that the process has held so far, in KiB."""
    status = Path(f"/proc/{pid}/status").read_text()
    return next(int(line.split()[1]) for line in status.splitlines() if line.startswith("VmHWM:"))


def count_replies(stream: Iterable[bytes], wanted: int, told: Dict[bytes, int], done: threading.Event) -> None:
    """Counts the replies by their kind, up to that many."""
    for reply in stream:
        told[reply.split()[1]] = told.get(reply.split()[1], 0) + 1
        wanted -= 1
        if wanted == 0:
            break
    done.set()


def session(program: str, lines: int) -> Session:
    """The seconds, the peak in KiB and the replies by kind of a session of about so many lines on the calculator sample."""
    samples = ROOT / "samples" / "calculator"
    cycles = lines // CYCLE
    began = time.perf_counter()
    with subprocess.Popen([program, "calc.ast", "tree.txt", "calc.jrag"], cwd=samples, stdin=subprocess.PIPE, stdout=subprocess.PIPE) as run:
        told: Dict[bytes, int] = {}
        done, sent = threading.Event(), cast(IO[bytes], run.stdin)
        reader = threading.Thread(target=count_replies, args=(run.stdout, cycles * CYCLE, told, done))
        reader.start()
        for k in range(cycles):
            sent.write(cycle(k).encode())
        sent.flush()
        done.wait()
        most = peak(run.pid)
        sent.close()
        reader.join()
    if run.returncode != 0:
        sys.exit(f"attrd ended with status {run.returncode}")
    return time.perf_counter() - began, most, told


def sessions(program: str, lines: int) -> None:
    """Prints what a session of so many lines takes, and the memory of a tenth of it."""
    short, long = (session(program, count) for count in (lines // 10, lines))
    replies = ", ".join(f"{count:,} {kind.decode()}" for kind, count in sorted(long[2].items()))
    print(f"{lines:,} lines with texts that fill a line, marks and edits: {long[0]:.0f} s, peak {long[1]:,} KiB; of a tenth of them {short[1]:,} KiB: ratio {long[1] / short[1]:.3f} ({replies})")


def filled(front: str, piece: str, end: str) -> str:
    """The front, the piece as often as it fits, and the end: at most as much as a file may have."""
    return front + piece * ((FILE - len(front) - len(end)) // len(piece)) + end


def numbered(front: str, piece: Callable[[int], str], end: str) -> str:
    """The front, the pieces of 0, 1 and so on, as many as fit, and the end."""
    pieces: List[str] = []
    room, k = FILE - len(front) - len(end), 0
    while room >= len(piece(k)):
        pieces.append(piece(k))
        room -= len(pieces[-1])
        k += 1
    return front + "".join(pieces) + end


def part_of_chain(k: int) -> str:
    """A component, of a name of its own. Every 500th begins a class, which has all those before it above itself."""
    opening = f"; C{k // 500:x}:C{k // 500 - 1:x} ::=" if k > 0 and k % 500 == 0 else ""
    return f"{opening} N{k:x}:Num"


def below_a_chain(front: str, link: Callable[[int], str], classes: int) -> str:
    """So many classes, each with the next one above it, of which the first stands above those in front."""
    return front + "".join(link(k) for k in range(classes)) + f"C{classes:x};\n"


def folds(levels: int) -> str:
    """A disjunction of so many folds, as a power of two."""
    return "exists (s : getMoreList()) { true }" if levels == 0 else f"({folds(levels - 1)}) || ({folds(levels - 1)})"


def whole_files() -> List[Tuple[str, int, str]]:
    """Files that are one piece, by name, each with the place on the command line where it stands."""
    nested = FILE // 5
    return [
        ("a class of many components", 0, filled("Sum ::= Left:Num", " Left:Num", "; Num ::= <Value:int>;\n")),
        ("a class of many components, each of another name", 0, numbered("Sum ::=", lambda k: f" N{k:x}:Num", "; Num ::= <Value:int>;\n")),
        ("a chain of classes of many components each", 0, numbered("Num ::= <Value:int>; C0 ::=", part_of_chain, ";\n")),
        ("a chain of classes of one component each", 0, below_a_chain("Sum:C0 ::= Left:Num; Num ::= <Value:int>;\n", lambda k: f"C{k:x}:C{k + 1:x} ::= N{k:x}:Num;\n", 139_000)),
        ("a thousand classes below a chain", 0, below_a_chain("".join(f"S{k}:C0;\n" for k in range(1000)), lambda k: f"C{k:x}:C{k + 1:x};\n", 267_000)),
        ("a class with many below it", 0, numbered("Num ::= <Value:int>; C ::= Left:Num;\n", lambda k: f"C{k:x}:C ::= N:Num;\n", "")),
        ("a component with a long name", 0, filled("Sum ::= Left:Num <", "x", ":int>; Num ::= <Value:int>;\n")),
        ("a grammar of comments", 0, filled("", "/* ** */", "\n")),
        ("a grammar of quotes", 0, filled("", '"', "\n")),
        ("a term with many parts", 1, filled("Sum(Num(3)", ",Num(4)", ")\n")),
        ("a term nested deep", 1, "Sum(" * nested + ")" * nested + "\n"),
        ("a term with a long text", 1, filled('Sum("', "x", '")\n')),
        ("a term of quotes", 1, filled("", '"', "\n")),
        ("a declaration of many parameters", 2, filled("aspect S { syn int Sum.total(String a", ",String a", ") = 1; }\n")),
        ("a declaration with a long name", 2, filled("aspect S { syn int Sum.", "x", "() = 1; }\n")),
        ("an expression of many sums", 2, filled("aspect S { syn int Sum.total() = 1", " + 1", "; }\n")),
        ("an expression nested deep", 2, filled("aspect S { syn int Sum.total() = ", "(", "1; }\n")),
        ("a call of many arguments", 2, filled("aspect S { syn int Sum.total() = a(1", ",1", "); }\n")),
        ("folds within a long name", 2, filled("aspect S { syn boolean Sum.total(String ", "n", f") = {folds(14)}; }}\n")),
        ("an expression of one text", 2, filled('aspect S { syn String Sum.total() = "', "x", '"; }\n')),
        ("an aspect of comments", 2, filled("aspect S { ", "// **\n", "}\n")),
        ("an aspect of quotes", 2, filled("", '"', "\n")),
    ]


def processor_time(words: Sequence[str], folder: str) -> Tuple[int, float, str]:
    """The status of a run without lines, its seconds of processor time, and what it writes on standard error."""
    with subprocess.Popen(words, cwd=folder, stdin=subprocess.DEVNULL, stdout=subprocess.DEVNULL, stderr=subprocess.PIPE, text=True) as run:
        said = cast(IO[str], run.stderr).read()
        _, status, used = os.wait4(run.pid, 0)
        run.returncode = os.waitstatus_to_exitcode(status)
    return run.returncode, used.ru_utime + used.ru_stime, said


def file_times(program: str, folder: str) -> None:
    """The processor time until each of these files is accepted or refused."""
    names = ["sum.ast", "sum.txt", "sum.jrag"]
    plain = ["Sum ::= Left:Num Right:Num More:Num*; Num ::= <Value:int>;\n", "Sum(Num(3),Num(4),[])\n", "aspect S { }\n"]
    for what, place, text in whole_files():
        texts = [*plain[:place], text, *plain[place + 1:]]
        for name, content in zip(names, texts):
            (Path(folder) / name).write_text(content)
        status, seconds, said = processor_time([program, *names], folder)
        if status not in (0, 1):
            sys.exit(f"{what}: attrd ended with status {status}")
        said = said.strip() or "accepted"
        late = "" if seconds < SLOW else f", which is more than {SLOW:.0f} s"
        note(f"a file of 4 MiB, {what}, in ms", seconds * 1000)
        print(f"{len(text) / 2 ** 20:.1f} MiB, {what}: {seconds * 1000:.0f} ms{late}; {said[:80]}")


def main() -> None:
    program = os.path.abspath(sys.argv[1] if len(sys.argv) > 1 else str(ROOT / "attrd"))
    if not os.path.exists(program):
        sys.exit("make bench builds ./attrd first")
    with tempfile.TemporaryDirectory() as folder:
        file_times(program, folder)
    sessions(program, int(sys.argv[2]) if len(sys.argv) > 2 else 1_000_000)


if __name__ == "__main__":
    main()
