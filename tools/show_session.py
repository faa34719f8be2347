"""Answers the session of a sample folder by a program, and prints each line with its reply below it, as the pages do.

    python3 -m tools.show_session PROGRAM FOLDER

The folder has one grammar (.ast), the tree `tree.txt`, aspects (.jrag) and the lines to send, `session`. A line that is sent stands
behind '> '. The status is that of the program, or 1 where a line has no reply; what the program tells on standard error is passed on.
"""
import re
import subprocess
import sys
from pathlib import Path
from typing import Iterator, List, Sequence

# A line of its own that answers a question that was posted: it is the reply to no line.
DONE = re.compile(r"\d+ done ")


class NoReply(Exception):
    """The program has ended without a reply to a line; the text is that line."""


def answered(lines: Sequence[str], replies: Sequence[str]) -> Iterator[str]:
    """The session as it is shown: each line that was sent, and below it what was replied. Raises NoReply."""
    left = list(replies)
    for line in lines:
        yield f"> {line}"
        if not line:
            continue
        if not left:
            raise NoReply(line)
        yield left.pop(0)
        while left and DONE.match(left[0]):
            yield left.pop(0)


def files_of(folder: Path) -> List[str]:
    """The names of the sample's files, as the program takes them: the grammar, the tree, the aspects."""
    grammar, aspects = (sorted(it.name for it in folder.glob(f"*.{suffix}")) for suffix in ("ast", "jrag"))
    return [*grammar, "tree.txt", *aspects]


def shown(program: Path, folder: Path) -> int:
    """Prints the session; the status."""
    session, files = (folder / "session").read_text(encoding="utf-8"), files_of(folder)
    print("$ attrd", *files)
    ran = subprocess.run([str(program.resolve()), *files], cwd=folder, input=session, capture_output=True, text=True)
    try:
        for line in answered(session.splitlines(), ran.stdout.splitlines()):
            print(line)
    except NoReply:
        print("(no reply: the program has ended)")
        return ran.returncode or 1
    finally:
        sys.stdout.flush()
        sys.stderr.write(ran.stderr)
    return ran.returncode


def main() -> int:
    if len(sys.argv) != 3:
        sys.exit(__doc__)
    return shown(Path(sys.argv[1]), Path(sys.argv[2]))


if __name__ == "__main__":
    sys.exit(main())
