"""What a program is made of: the crates that it stands on, a checksum over their files, and the kit's identity."""
import hashlib
import subprocess
from pathlib import Path

ROOT = Path(__file__).resolve().parent.parent
# What of a crate goes into a program that is built with no proof, and what goes into its proof as well.
CODE = ("src", "specs")
ALL = ("src", "specs", "proofs")
# The files at the top that say which crates there are, and what they may do.
TOP = ("crates.txt", "HANDLES")


def uses(root: Path = ROOT) -> dict[str, list[str]]:
    """The libraries that each crate of the repository uses, as crates.txt has them; those of the kit are among them."""
    lines = (root / "crates.txt").read_text(encoding="utf-8").splitlines()
    named = [line.partition(":") for line in lines if line and not line.startswith("#")]
    return {name: rest.split() for name, _, rest in named}


def crates_below(crate: str, root: Path = ROOT) -> list[str]:
    """The repository's crates that the crate stands on, each behind those that it uses itself; the crate is the last one."""
    used, found = uses(root), list[str]()

    def add(name: str) -> None:
        for below in used[name]:
            if below in used and below not in found:
                add(below)
        found.append(name)

    add(crate)
    return found


def checksum(crate: str, parts: tuple[str, ...], more: tuple[str, ...] = (), root: Path = ROOT) -> str:
    """The SHA-256, in hexadecimal, over these parts of all crates that the crate stands on, the files at the top, and more files."""
    folders = [root / "crates" / name / part for name in crates_below(crate, root) for part in parts]
    files = [file for folder in folders for file in folder.rglob("*") if file.is_file()]
    total = hashlib.sha256()
    for file in sorted([*files, *(root / name for name in (*TOP, *more))]):
        total.update(f"{file.relative_to(root)}\0{hashlib.sha256(file.read_bytes()).hexdigest()}\n".encode())
    return total.hexdigest()


def kit() -> str:
    """The line by which the kit tells which one it is. FileNotFoundError where there is no kit on the PATH."""
    told = subprocess.run(["rt", "version"], capture_output=True, text=True, check=True)
    return told.stdout.strip()
