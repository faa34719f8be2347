"""The quick program: one that isn't proved, but answers the same, and is built in two minutes.

    python3 -m tools.quick_program

It is .quick/attrd. It is taken up while the sources that go into it, what builds it and the kit are what they were, and built
again by bench/unproved.py where one of them isn't. The status is 1 where the sources don't compile, and what is wrong is told.
"""
import subprocess
import sys
import tempfile
from pathlib import Path

from tools import sources

FOLDER = sources.ROOT / ".quick"
PROGRAM = FOLDER / "attrd"
KEY = FOLDER / "key"
BUILDER = "bench/unproved.py"
# What says how it is built.
BUILT_BY = (BUILDER, "bench/parts.py", "bench/stripped.py", "tools/quick_program.py", "tools/sources.py")


class NotBuilt(Exception):
    """The sources don't compile, or what builds them is missing; the text says why."""


def key() -> str:
    """What the quick program is made of, as one line: the checksum of its sources and of what builds it, and the kit."""
    return f"{sources.checksum('attrd', sources.CODE, BUILT_BY)} {sources.kit()}"


def is_current() -> bool:
    """Whether the quick program is there, and made of what stands here now."""
    return PROGRAM.exists() and KEY.exists() and KEY.read_text(encoding="utf-8") == key()


def build() -> None:
    """Builds the quick program anew, in a folder of its own, and puts it in the place of the old one. Raises NotBuilt."""
    made_of = key()
    FOLDER.mkdir(exist_ok=True)
    with tempfile.TemporaryDirectory(prefix="new-", dir=FOLDER) as room:
        ran = subprocess.run([sys.executable, BUILDER, "-O1", room], cwd=sources.ROOT, capture_output=True, text=True, errors="replace")
        if ran.returncode:
            raise NotBuilt(ran.stdout + ran.stderr)
        KEY.unlink(missing_ok=True)
        Path(room, "attrd").replace(PROGRAM)
        KEY.write_text(made_of, encoding="utf-8")


def quick_program() -> Path:
    """The quick program, built where that is needed. Raises NotBuilt."""
    if not is_current():
        build()
    return PROGRAM


def main() -> int:
    try:
        if not is_current():
            print("builds .quick/attrd with no proof, in two minutes", file=sys.stderr, flush=True)
        quick_program()
    except NotBuilt as why:
        print(why, file=sys.stderr)
        return 1
    return 0


if __name__ == "__main__":
    sys.exit(main())
