"""Runs with each way to keep values. The program has options for most; with the others `starve` answers, where the variable STARVE
names it."""
import os
import subprocess
from typing import Dict, List, Tuple

from tools.of_the_program.runs import NOTHING, SECONDS, ProgramTest
from tools.of_the_program.sessions import Sample

# What is kept until it is known that an edit changed it; of so few entries that an edit folds some; and both where turns keep again, too.
OPTIONS: Dict[str, List[str]] = {"verified": [], "few-verified": ["--keep", "4"], "cut-off": ["--cut-off"], "few-cut-off": ["--cut-off", "--keep", "4"]}
# The same with nothing that is kept over an edit.
OTHERS = ("until-edit", "until-edit-cut-off")


class KeepingTest(ProgramTest):
    """A test with each way to keep values."""

    def setUp(self) -> None:
        super().setUp()
        self.starve = os.environ.get("STARVE", "")
        self.keepers = [*OPTIONS, *(OTHERS if self.starve else ())]

    def write(self, sample: Sample) -> List[str]:
        """Writes the sample's files: their names."""
        files = {"it.ast": sample.grammar, "it.txt": sample.tree, **{f"{i}.jrag": text for i, text in enumerate(sample.aspects)}}
        for name, text in files.items():
            (self.folder / name).write_text(text, encoding="utf-8")
        return list(files)

    def played(self, keeper: str, turns: int, files: List[str], lines: str) -> Tuple[str, str]:
        """The replies to the lines, each of which so many turns follow, and what is told of the work. No memory was wanting."""
        if keeper in OTHERS:
            return self.told([self.starve, keeper, str(turns), *files], "memory 0\n", lines)
        return self.played_with(OPTIONS[keeper], turns, files, lines)

    def played_with(self, options: List[str], turns: int, files: List[str], lines: str) -> Tuple[str, str]:
        """The same by the program with these options."""
        return self.told([str(self.program), "--work", "--slice", str(turns), *options, *files], "", lines)

    def told(self, words: List[str], front: str, lines: str) -> Tuple[str, str]:
        """What a run with these words writes for the lines, and tells on standard error behind that front."""
        run = subprocess.run(words, cwd=self.folder, env=NOTHING, input=lines, capture_output=True, encoding="utf-8", timeout=SECONDS)
        self.assertEqual((run.returncode, run.stderr[:len(front)]), (0, front))
        return run.stdout, run.stderr[len(front):]
