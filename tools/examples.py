#!/usr/bin/env python3
"""Runs the examples of pages and of sample folders, and compares what the programs write byte by byte.

    tools/examples.py [--program PROGRAM] [--tries PROGRAM] [-k PART].. [--slowest N] PAGE|FOLDER ..

The first PROGRAM runs as `attrd`, ./attrd where none is given; the second one as `tries`, crates/tries/out/tries where
none is given. A PAGE is a Markdown file. A FOLDER is a sample: its page is README.md, and its other files are there from
the start. Each page has a temporary folder of its own, in which its examples run. With -k those examples alone run of whose
names, `PAGE:LINE WORDS` of the command, PART is a part. With --slowest so many of the slowest examples are told. The last line
is 'N passed, M failed'; the status is 1 where one failed, or where a page has no example.

The examples of a page are its fenced blocks; the word behind the fence says what a block is.

    ```file NAME
    The block is the file NAME from here on.

    ```run
    $ attrd WORDS
    > a line that is sent
    its reply
    Each line that isn't empty has one reply; behind it may stand lines with the answers to questions in turns, 'S done ..'.
    Nothing may stand on standard error, and the status is 0.
    '$ attrd WORDS < LINES | diff - REPLIES' takes lines and replies from these files.

    ```fault
    $ attrd WORDS
    what stands on standard error
    $ echo $?
    the status
    Standard input is empty, and nothing may stand on standard output.

    ```refused FILE in WORDS
    a text of FILE, of no, one or more lines
    => CODE NAME at LINE:COLUMN
    Any number of these. 'attrd WORDS' must write 'FILE: ' and what stands behind the arrow on standard error, and end
    with status 1. '=> accepted' stands for nothing there, and for status 0.

In the blocks with `$ attrd` it may also be `$ tries`. Blocks of text, ebnf and sh, and blocks without a word, are no
examples. In the others a text X between the quotes in ‹X*N› is written N times, where # in X is the count from 1; and
‹\\xHH› is the byte of these two hexadecimal digits.
"""
import argparse
import difflib
import re
import subprocess
import sys
import tempfile
import time
from pathlib import Path
from typing import Dict, Iterable, List, Mapping, Optional, Sequence, Tuple

sys.dont_write_bytecode = True
sys.path.insert(0, str(Path(__file__).resolve().parent.parent))
from tools.unit import tell_slowest  # noqa: E402

FENCE = re.compile(r"^```(.*)$")
DONE = re.compile(r"\d+ done ")
TIMES = re.compile(r"‹([^‹›]*)\*(\d+)›")
BYTE = re.compile(r"‹\\x([0-9A-F]{2})›".encode())
PASSED_OVER = ("", "text", "ebnf", "sh")
SECONDS = 120
# The environment of runs: none.
NOTHING: Dict[str, str] = {}

# A fenced block: the line of its fence, its word, what stands behind the word, its lines.
Block = Tuple[int, str, str, List[str]]
# Standard output, standard error and the status.
End = Tuple[bytes, bytes, int]


class Malformed(Exception):
    """A block isn't written as the head of this script says."""


class Missing(Exception):
    """A program that an example runs isn't there."""


def written_out(text: str) -> str:
    """The text with each ‹X*N› written out."""
    return TIMES.sub(lambda it: "".join(it[1].replace("#", str(k)) for k in range(1, int(it[2]) + 1)), text)


def lines_text(lines: Iterable[str]) -> bytes:
    """The bytes of these lines, each ended by a newline."""
    written = "".join(written_out(it) + "\n" for it in lines).encode()
    return BYTE.sub(lambda it: bytes([int(it[1], 16)]), written)


def blocks_of(text: str) -> List[Block]:
    """The fenced blocks of a page. Raises Malformed where one has no end."""
    found: List[Block] = []
    inside: Optional[Block] = None
    for number, line in enumerate(text.splitlines(), 1):
        fence = FENCE.match(line)
        if inside is not None and line == "```":
            found.append(inside)
            inside = None
        elif inside is not None:
            inside[3].append(line)
        elif fence:
            word, _, rest = fence[1].partition(" ")
            inside = (number, word, rest.strip(), [])
    if inside is not None:
        raise Malformed(f"line {inside[0]}: the block has no end")
    return found


def words_of(line: str) -> List[str]:
    """The words of a command: the program's name is the first. Raises Malformed."""
    words = line.split()
    if words[:1] != ["$"] or words[1:2] not in (["attrd"], ["tries"]):
        raise Malformed("the block doesn't begin with '$ attrd' or '$ tries'")
    return words[1:]


def session_of(lines: Sequence[str]) -> Tuple[List[str], List[str]]:
    """The lines that are sent in a session and the replies, from the lines of its block. Raises Malformed."""
    sent: List[str] = []
    replies: List[str] = []
    is_open = False
    for line in lines:
        if line == ">" or line.startswith("> "):
            if is_open:
                raise Malformed(f"a line has no reply: {sent[-1]}")
            sent.append(line[2:])
            is_open = line != ">"
        elif is_open:
            replies.append(line)
            is_open = False
        elif replies and DONE.match(line):
            replies.append(line)
        else:
            raise Malformed(f"a reply stands behind no line: {line}")
    if is_open:
        raise Malformed(f"a line has no reply: {sent[-1]}")
    return sent, replies


def differences(wanted: End, got: End) -> List[str]:
    """What of an end isn't as it is wanted, in lines; empty where all is."""
    why: List[str] = []
    for what, old, new in ("standard output", wanted[0], got[0]), ("standard error", wanted[1], got[1]):
        if old != new:
            before, after = (it.decode(errors="backslashreplace").splitlines() for it in (old, new))
            shown = [*difflib.unified_diff(before, after, "wanted", "written", lineterm="", n=0)] or ["only the ends of lines differ"]
            why += [f"{what} differs", *(it if len(it) <= 200 else it[:200] + " .." for it in shown)]
    if wanted[2] != got[2]:
        why.append(f"the status is {got[2]}, and {wanted[2]} is wanted")
    return why


class Page:
    """A page, the folder in which its examples run, and how many passed. Those alone run whose names have one of the parts."""

    def __init__(self, programs: Mapping[str, str], name: Path, folder: str, parts: Sequence[str] = ()) -> None:
        self.programs, self.name, self.folder, self.parts = programs, name, Path(folder), parts
        self.passed = self.failed = self.left_out = 0
        self.seconds: List[Tuple[float, str]] = []

    def put(self, name: str, text: bytes) -> None:
        """Makes a file of the folder. Raises Malformed where that is no name of one."""
        if Path(name).name != name:
            raise Malformed(f"{name} is no name of a file")
        (self.folder / name).write_bytes(text)

    def get(self, name: str) -> bytes:
        """What a file of the folder holds. Raises Malformed where there is none."""
        try:
            return (self.folder / name).read_bytes()
        except OSError:
            raise Malformed(f"there is no file {name}") from None

    def check(self, at: int, words: List[str], given: bytes, wanted: End) -> None:
        """One example, at that line. Raises Missing where its program isn't there."""
        name = f"{self.name}:{at} {' '.join(words)}"
        if self.parts and not any(part in name for part in self.parts):
            self.left_out += 1
            return
        began = time.monotonic()
        try:
            ran = subprocess.run([self.programs[words[0]], *words[1:]], cwd=self.folder, input=given, capture_output=True,
                                 env=NOTHING, timeout=SECONDS)
            why = differences(wanted, (ran.stdout, ran.stderr, ran.returncode))
        except subprocess.TimeoutExpired:
            why = [f"{words[0]} had not ended after {SECONDS} seconds"]
        except OSError:
            raise Missing(f"{self.programs[words[0]]}: there is no such program: make build makes ./attrd, make tries the other") from None
        self.seconds.append((time.monotonic() - began, name))
        if why:
            self.fail(at, words, *why)
        else:
            self.passed += 1

    def fail(self, at: int, words: Optional[List[str]], *why: str) -> None:
        """Counts a failure, and tells why."""
        self.failed += 1
        print(f"{self.name}:{at}: {'not an example' if words is None else ' '.join(words)}")
        for it in why:
            print(f"    {it}")

    def run(self, at: int, lines: List[str]) -> None:
        """A session, in the block or in files. Raises Malformed."""
        found = re.fullmatch(r"(\$ .*?) < (\S+) \| diff - (\S+)", lines[0])
        if found:
            if len(lines) > 1:
                raise Malformed("replies stand in the block and in a file")
            self.check(at, words_of(found[1]), self.get(found[2]), (self.get(found[3]), b"", 0))
            return
        sent, replies = session_of(lines[1:])
        self.check(at, words_of(lines[0]), lines_text(sent), (lines_text(replies), b"", 0))

    def fault(self, at: int, lines: List[str]) -> None:
        """A fault of the start. Raises Malformed."""
        if len(lines) < 3 or lines[-2] != "$ echo $?" or not lines[-1].isdigit():
            raise Malformed("the block doesn't end with '$ echo $?' and a status")
        self.check(at, words_of(lines[0]), b"", (b"", lines_text(lines[1:-2]), int(lines[-1])))

    def refused(self, at: int, rest: str, lines: List[str]) -> None:
        """Texts of a file, each with what it is refused for. Raises Malformed."""
        file, found, words = rest.partition(" in ")
        if not found or file not in words.split():
            raise Malformed("behind the word stand 'FILE in WORDS', with FILE among the words")
        text: List[str] = []
        for number, line in enumerate(lines, at + 1):
            if not line.startswith("=> "):
                text.append(line)
                continue
            self.put(file, lines_text(text))
            is_well = line == "=> accepted"
            told = b"" if is_well else f"{file}: {line[3:]}\n".encode()
            self.check(number, ["attrd", *words.split()], b"", (b"", told, 0 if is_well else 1))
            text = []
        if text:
            raise Malformed("a text has no arrow behind it")

    def play(self, text: str) -> None:
        """Runs the examples of the page's text."""
        for at, word, rest, lines in blocks_of(text):
            try:
                if word == "file":
                    self.put(rest, lines_text(lines))
                elif word in ("run", "fault") and lines:
                    {"run": self.run, "fault": self.fault}[word](at, lines)
                elif word == "refused":
                    self.refused(at, rest, lines)
                elif word not in PASSED_OVER:
                    raise Malformed(f"no such block: {word}")
            except Malformed as why:
                self.fail(at, None, str(why))


def played(programs: Mapping[str, str], path: Path, parts: Sequence[str]) -> Page:
    """The page, or the sample folder, after its examples have run."""
    with tempfile.TemporaryDirectory(prefix="attrd-examples-") as folder:
        page = Page(programs, path / "README.md" if path.is_dir() else path, folder, parts)
        try:
            if path.is_dir():
                for it in sorted(path.iterdir()):
                    if it.is_file():
                        page.put(it.name, it.read_bytes())
            page.play(page.name.read_text(encoding="utf-8"))
        except (Malformed, OSError) as why:
            page.fail(0, None, str(why))
        if page.passed + page.failed + page.left_out == 0:
            page.fail(0, None, "there is no example")
    print(f"{path}: {page.passed} passed, {page.failed} failed")
    return page


def main() -> int:
    words = argparse.ArgumentParser(description="Runs the examples of pages and of sample folders.")
    words.add_argument("--program", default="./attrd", help="the program attrd (./attrd)")
    words.add_argument("--tries", metavar="PROGRAM", default="crates/tries/out/tries", help="the program tries (crates/tries/out/tries)")
    words.add_argument("-k", metavar="PART", action="append", default=[], help="those alone whose names, PAGE:LINE WORDS, have this part")
    words.add_argument("--slowest", metavar="N", type=int, default=0, help="tell so many of the slowest examples")
    words.add_argument("pages", nargs="+", metavar="PAGE|FOLDER", type=Path)
    given = words.parse_args()
    programs = {"attrd": str(Path(given.program).resolve()), "tries": str(Path(given.tries).resolve())}
    try:
        pages = [played(programs, it, given.k) for it in given.pages]
    except Missing as why:
        print(f"{why}\n0 passed, 1 failed")
        return 1
    tell_slowest([it for page in pages for it in page.seconds], given.slowest)
    passed, failed = sum(it.passed for it in pages), sum(it.failed for it in pages)
    print(f"{passed} passed, {failed} failed")
    return 0 if passed and not failed else 1


if __name__ == "__main__":
    sys.exit(main())
