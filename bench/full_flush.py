"""The Java programs that flush everything at an edit, where there is a compiler for them."""
from __future__ import annotations

import shutil
import subprocess
import sys
from pathlib import Path
from typing import IO, List, Optional, Sequence, Tuple, cast

from trees import SumTree

SOURCES = Path(__file__).resolve().parent / "java"
JAVA = ("java", "-XX:+UseSerialGC")
# Units in a batch, and batches: the first ones are to have the code compiled.
BATCH, BATCHES, ASKED = 20, 400, 40
# The seconds of one measure while the program gets warm, how many there are at most, what is a gain, and how many without one end it.
WARMING, WARMINGS, GAIN, LEVEL = 0.5, 20, 0.97, 3


def compiled(folder: str, *names: str) -> bool:
    """Compiles these classes into the folder; False where there is no `javac`."""
    if shutil.which("javac") is None:
        return False
    subprocess.run(["javac", "-d", folder, *(str(SOURCES / f"{it}.java") for it in names)], check=True)
    return True


class FullFlush:
    """The program for trees of sums, compiled."""

    def __init__(self, folder: str) -> None:
        self.folder = folder

    @staticmethod
    def compiled(folder: str) -> Optional[FullFlush]:
        """The program, compiled into the folder; None where there is no `javac`."""
        return FullFlush(folder) if compiled(folder, "FullFlush") else None

    def spent(self, tree: SumTree, levels: int) -> float:
        """The least time of an edit and a question so many levels above the edited leaf, in seconds of the thread's processor time."""
        return self.told(tree, tree.leaves, levels, BATCH, BATCHES)

    def asked(self, tree: SumTree, paths: Sequence[str]) -> float:
        """The least time of a question, where both attributes are asked once at each path, in seconds of the thread's processor time."""
        return self.told(tree, paths, ASKED)

    def told(self, tree: SumTree, paths: Sequence[str], *numbers: int) -> float:
        """What the program prints for these paths and numbers, in seconds."""
        (Path(self.folder) / "paths").write_text("".join(f"{path}\n" for path in paths))
        words = [*JAVA, "-cp", self.folder, "FullFlush", f"{tree.name}.txt", "paths", *map(str, numbers)]
        run = subprocess.run(words, cwd=self.folder, check=True, capture_output=True, text=True)
        return float(run.stdout) / 1e9


class Keystrokes:
    """The program for the tutorial's language, over one tree in one warm process."""

    def __init__(self, folder: str, tree: str) -> None:
        words = [*JAVA, "-cp", folder, "Keystrokes", tree]
        self.run = subprocess.Popen(words, cwd=folder, stdin=subprocess.PIPE, stdout=subprocess.PIPE, text=True)
        self.commands, self.answers = cast(IO[str], self.run.stdin), cast(IO[str], self.run.stdout)

    @staticmethod
    def begun(folder: str, tree: str) -> Optional[Keystrokes]:
        """The program over the tree of a file, compiled into the folder; None where there is no `javac`."""
        return Keystrokes(folder, tree) if compiled(folder, "Small", "SmallReader", "Keystrokes") else None

    def cold(self, seconds: float) -> Tuple[float, int]:
        """The least time of a question behind a flush, in seconds, over about so many; and how many errors were answered."""
        nanoseconds, errors = self.told(f"cold {seconds}")
        return nanoseconds / 1e9, errors

    def warm(self) -> None:
        """Asks behind flushes until that gets no faster: what the compiler of the running program does takes seconds beside other work."""
        least, level = self.cold(WARMING)[0], 0
        for _ in range(WARMINGS):
            seconds, _ = self.cold(WARMING)
            level = 0 if seconds < GAIN * least else level + 1
            least = min(least, seconds)
            if level == LEVEL:
                break

    def row(self, file: str, seconds: float) -> Tuple[float, List[int]]:
        """The least time of an edit with its question, in seconds, over about so many; and what each question was answered."""
        nanoseconds, *errors = self.told(f"row {seconds} {file}")
        return nanoseconds / 1e9, errors

    def heap(self) -> int:
        """The bytes that are held where everything is cached."""
        return self.told("heap")[0]

    def told(self, command: str) -> List[int]:
        """The numbers that a command is answered. Ends the process where it is answered by nothing."""
        self.commands.write(f"{command}\n")
        self.commands.flush()
        answer = self.answers.readline()
        if not answer:
            sys.exit(f"the Java program ended within {command!r}")
        return [int(it) for it in answer.split()]

    def end(self) -> None:
        """Ends the process."""
        self.commands.close()
        self.run.wait()
