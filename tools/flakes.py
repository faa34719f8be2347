"""Runs pyflakes, and leaves out what it finds in lines that say `# noqa`.

    python3 -m tools.flakes PYFLAKES FILE|FOLDER ..

PYFLAKES is the program. What it finds is printed; the last line is 'N passed, M failed', counted in files; the status is 1 where
it finds something.
"""
import re
import subprocess
import sys
from pathlib import Path
from typing import Iterator, Sequence

PLACE = re.compile(r"(.+?):(\d+):")


def is_excused(finding: str) -> bool:
    """Whether the line in which this was found says that it is meant so."""
    place = PLACE.match(finding)
    return place is not None and "# noqa" in Path(place[1]).read_text(encoding="utf-8").splitlines()[int(place[2]) - 1]


def files_in(names: Sequence[str]) -> Iterator[Path]:
    """The files of Python that these names lead to."""
    for name in map(Path, names):
        yield from sorted(name.rglob("*.py")) if name.is_dir() else [name]


def main() -> int:
    if len(sys.argv) < 3:
        sys.exit(__doc__)
    files = list(files_in(sys.argv[2:]))
    told = subprocess.run([sys.argv[1], *files], capture_output=True, text=True)
    found = [it for it in (told.stdout + told.stderr).splitlines() if not is_excused(it)]
    print(*found, sep="\n")
    failed = len({it.partition(":")[0] for it in found})
    print(f"{len(files) - failed} passed, {failed} failed")
    return 1 if found else 0


if __name__ == "__main__":
    sys.exit(main())
