"""Tells of a program whether it is known to be proved: by a record beside it, which make build leaves.

    python3 -m tools.proved tell PROGRAM
    python3 -m tools.proved require PROGRAM

The record of PROGRAM is the file PROGRAM.proved. It holds the SHA-256 of the program that was proved, the kit's identity, the
commit, whether the tree was clean, and a checksum over the sources. A program is known to be proved where its SHA-256 is the
one of its record: a program that was put there since isn't. `tell` prints in a line what is known of it; the status is 0 where
it is proved. `require` prints a line only where it isn't, or where it was made of other sources than stand here, or by another
kit; the status is 1 then. A record is no seal: it tells what was built here, to those who built it.
"""
import hashlib
import subprocess
import sys
from dataclasses import asdict, dataclass, fields
from pathlib import Path
from typing import Optional

from tools import sources


@dataclass(frozen=True)
class Record:
    """What a proved program was made of. `tree` is `clean` or `changed`, `commit` is `none` where there is no repository."""

    program: str
    kit: str
    commit: str
    tree: str
    sources: str

    def text(self) -> str:
        """The record as it is written: a line for each of its fields."""
        return "".join(f"{name} {value}\n" for name, value in asdict(self).items())

    def told(self) -> str:
        """The kit and the commit, in words."""
        changes = "" if self.tree == "clean" else ", with changes"
        return f"by {self.kit}, of commit {self.commit[:8]}{changes}"


class NotKnown(Exception):
    """Nothing tells that the program is proved; the text says why."""


def git(*words: str) -> Optional[str]:
    """What git prints in the repository; None where there is none."""
    try:
        ran = subprocess.run(["git", *words], cwd=sources.ROOT, capture_output=True, text=True)
    except FileNotFoundError:
        return None
    return ran.stdout.strip() if ran.returncode == 0 else None


def digest(program: Path) -> str:
    """The program's SHA-256, in hexadecimal."""
    return hashlib.sha256(program.read_bytes()).hexdigest()


def as_it_stands(name: str) -> Record:
    """The record of the program with this crate's name, made of what stands here; its own sum isn't known yet."""
    changes = git("status", "--porcelain")
    tree = "changed" if changes or changes is None else "clean"
    return Record("", sources.kit(), git("rev-parse", "HEAD") or "none", tree, sources.checksum(name, sources.ALL))


def file_of(program: Path) -> Path:
    """Where the program's record is."""
    return program.with_name(program.name + ".proved")


def recorded(program: Path) -> Record:
    """The record that fits the program. Raises NotKnown."""
    file = file_of(program)
    if not file.exists():
        raise NotKnown(f"there is no {file.name} beside it, as make build leaves it")
    rows = dict(line.split(" ", 1) for line in file.read_text(encoding="utf-8").splitlines() if " " in line)
    if set(rows) != {it.name for it in fields(Record)}:
        raise NotKnown(f"{file.name} isn't what make build writes")
    if rows["program"] != digest(program):
        raise NotKnown(f"{file.name} is that of another program")
    return Record(**rows)


def stands_here(program: Path) -> Record:
    """The record that fits the program, where it was made of what stands here by the kit that is here. Raises NotKnown."""
    record = recorded(program)
    if record.sources != sources.checksum("attrd", sources.ALL):
        raise NotKnown("it is proved, but was made of other sources than stand here")
    if record.kit != sources.kit():
        raise NotKnown(f"it is proved, but by another kit: {record.kit}")
    return record


def main() -> int:
    if len(sys.argv) != 3 or sys.argv[1] not in ("tell", "require"):
        sys.exit(__doc__)
    word, name = sys.argv[1:]
    program = Path(name)
    try:
        if word == "require":
            stands_here(program)
        else:
            print(f"{name} is proved, {recorded(program).told()}")
    except NotKnown as why:
        print(f"{name} isn't known to be proved: {why}" if word == "tell" else f"{name} isn't taken: {why}")
        return 1
    except FileNotFoundError as why:
        print(f"there is no {why.filename}")
        return 1
    return 0


if __name__ == "__main__":
    sys.exit(main())
