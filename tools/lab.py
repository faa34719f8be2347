#!/usr/bin/env python3
"""Proves functions of a crate before the crates below it are proved.

    tools/lab.py [--whole] [--test] [--built FOLDER] CRATE [FUNCTION...]

The folder that it runs in is a repository; its files are read as they stand. FUNCTION is a path as the prover has it, such as
`table::Table::enter`. The libraries below are given as source, in copies in which each function is left open: what is proved rests
on their contracts. So does it on those of the crate's other functions, which are left open, too, unless --whole is given. With
--test functions under `#[cfg(test)]` are there. Without a FUNCTION the front end's errors are told alone. What was checked is kept below /tmp/attrd-lab for the next run.

With `--built FOLDER` crates below whose files are those of the repository in FOLDER are taken as they were built there, by a check or
by `rt ci` (its copy, below /tmp/rt-copy-*): most of a run's time is the reading of crates.

A line `fn F: no holes`, or one that names the holes of callees alone, tells that F is proved. One that says that F calls what isn't
proved doesn't: then the goals of F weren't tried. For work only: the gate trusts nothing of it.
"""
import argparse
import hashlib
import shutil
import subprocess
import sys
from pathlib import Path
from typing import Dict, List, Optional, Sequence, Tuple

sys.dont_write_bytecode = True
sys.path.insert(0, str(Path(__file__).resolve().parent.parent))
from tools.refused import PARTS, Proved  # noqa: E402

ROOM = Path("/tmp/attrd-lab")


def contents(folder: Path) -> Dict[Path, bytes]:
    """The files of a crate's parts, by their paths, and what they hold."""
    found = [it for part in PARTS for it in (folder / part).rglob("*") if it.is_file()]
    return {it.relative_to(folder): it.read_bytes() for it in found}


def copied(source: Path, folder: Path) -> None:
    """Puts a crate's files into the folder, where they aren't there yet; others go. Those that stay keep their times."""
    wanted, there = contents(source), contents(folder)
    for path in there.keys() - wanted.keys():
        (folder / path).unlink()
    for path, held in wanted.items():
        if there.get(path) != held:
            (folder / path).parent.mkdir(parents=True, exist_ok=True)
            (folder / path).write_bytes(held)


class Lab:
    """A folder of its own for each repository, with copies of its crates. Some of those below are taken from where they were built."""

    def __init__(self, root: str, built: Optional[Path] = None) -> None:
        self.proved = Proved(root)
        self.room = ROOM / hashlib.sha256(str(self.proved.root).encode()).hexdigest()[:12]
        self.built, self.found = built, dict[str, Optional[Path]]()

    def library(self, crate: str) -> Optional[Path]:
        """Where the crate was built, if its files and those of all below it are the same there; each crate is looked at once."""
        if crate not in self.found:
            self.found[crate] = self.same_library(crate)
        return self.found[crate]

    def same_library(self, crate: str) -> Optional[Path]:
        """The same, looked at now."""
        if self.built is None:
            return None
        folder, below = self.built / "crates" / crate, [it for it in self.proved.uses[crate] if it in self.proved.uses]
        is_same = contents(folder) == contents(self.proved.root / "crates" / crate) and all(map(self.library, below))
        return folder / "out/rlib" if is_same and (folder / f"out/rlib/{crate}.rlib/interface").exists() else None

    def opened(self, crate: str, functions: Optional[Sequence[str]]) -> Path:
        """A copy of the crate in which all but these functions is left open."""
        stage, folder = self.room / "stage", self.room / crate
        shutil.rmtree(stage, ignore_errors=True)
        copied(self.proved.root / "crates" / crate, stage)
        if functions is not None:
            self.proved.leave_others_open(stage, crate, functions)
        copied(stage, folder)
        return folder

    def below(self, crate: str) -> Tuple[List[str], List[str]]:
        """The crates below, those first on which others stand, and the libraries of the kit that they all use."""
        order, kit = list[str](), {"std"}

        def add(name: str) -> None:
            for used in self.proved.uses[name]:
                if used not in self.proved.uses:
                    kit.add(used)
                elif used not in order:
                    add(used)
                    order.append(used)

        add(crate)
        return order, sorted(kit)

    def words(self, crate: str, functions: Sequence[str], tests: bool = False) -> List[str]:
        """The words of the check."""
        order, kit = self.below(crate)
        rlibs, logic = self.proved.kit / "rlibs", self.proved.kit / "rattle/logic/antt-project.json"
        root = "main" if (self.proved.root / "crates" / crate / "src/main.rt").exists() else "lib"
        words = [str(self.proved.kit / "bin/rattle"), "check", "--crate-name", crate, f"src/{root}.rt", "--jobs", "1", "--allow-holes"]
        for name in order:
            uses, library = ",".join(["std", *self.proved.uses[name]]), self.library(name)
            if library:
                words += ["--extern", f"{name}={library}/{name}.rlib", "-L", f"dependency={library}"]
            else:
                words += ["--lib", f"{name}:{uses}={self.opened(name, [])}/src/lib.rt"]
        for name in kit:
            words += ["--extern", f"{name}={rlibs}/{name}.rlib"]
        kept = self.room / f"checked-{crate}"
        kept.mkdir(parents=True, exist_ok=True)
        words += ["-L", f"dependency={rlibs}", "--antt-project", str(logic), "--logic-built", f"{self.proved.kit}/logic_built"]
        words += ["--links", f"{crate}=", "--incremental", str(kept), *(["--test"] if tests else [])]
        return [*words, *(word for it in functions or [""] for word in ("--only", it))]


def main() -> int:
    words = argparse.ArgumentParser(description="Proves functions of a crate before the crates below it are proved.")
    words.add_argument("--whole", action="store_true", help="leave nothing open in the crate itself")
    words.add_argument("--test", action="store_true", help="the crate's tests, too")
    words.add_argument("--built", type=Path, metavar="FOLDER", help="a repository whose built crates are taken where they are the same")
    words.add_argument("crate")
    words.add_argument("functions", metavar="FUNCTION", nargs="*")
    given = words.parse_args()
    lab = Lab(".", given.built and given.built.resolve())
    check = lab.words(given.crate, given.functions, given.test)
    folder = lab.opened(given.crate, given.functions if given.functions and not given.whole else None)
    return subprocess.run(check, cwd=folder, check=False).returncode


if __name__ == "__main__":
    sys.exit(main())
