#!/usr/bin/env python3
"""Tries wrong bodies, the edits crates/NAME/must-fail/*.edit, on the prover, which has to refuse each.

    tools/refused.py [--control] [--lanes N] [-k PART].. [--list] [--slowest N] [NAME...]

The folder that it runs in is a repository whose libraries `rt ci` has proved and left in crates/NAME/out/rlib. The edits of
all crates are tried, or of those named.

An edit's line `refused:` names the function that has to be refused. All edits of a crate are made in one copy of it, but those
with a line `alone:`, whose functions call what others turn, in one of their own; and the prover checks the functions that they
turn, over the contracts of what these call. Those were proved by `rt ci` a moment ago, or, of the same files, by an earlier run
on this machine; so in the copy their bodies and proofs are left out, and what the prover says of each turned function is of its
own goals alone. An edit is refused where one of these can't be proved; that it calls what isn't proved doesn't count, and
neither does a name that a proof file misses.

With --control no edit is made, and none of the functions may be refused. `rt must-fail NAME` tries the same edits one by one,
each over a whole check of the crate, which takes several times as long.

With -k those edits alone are tried of whose names, NAME/EDIT, PART is a part; with --list their names are told, and none is tried.
With --slowest so many of the checks are told that took longest.
"""
import argparse
import re
import shutil
import subprocess
import sys
import tempfile
import time
from concurrent.futures import ThreadPoolExecutor
from pathlib import Path
from typing import Collection, Dict, Iterator, List, Mapping, Optional, Sequence, Set, Tuple, Union

sys.dont_write_bytecode = True
sys.path.insert(0, str(Path(__file__).resolve().parent.parent))
from tools.edits import Edit, Round, Texts, edits_of, rounds_of  # noqa: E402
from tools.sources import uses  # noqa: E402
from tools.unit import tell_slowest  # noqa: E402

PARTS = ("src", "specs", "proofs")
# What a proof file says where the edit took a name away, which tells nothing of the contract.
NAME_MISSED = re.compile(r"has no field|is not in scope|has no `|is no name|operand is missing|was not admitted")
FUNCTION = re.compile(r"( *)(?:pub(?:\(\w+\))? )?fn (\w+)")
IMPLEMENTED = re.compile(r"impl(?:<.*?>)? (?:(.+) for )?(\w+)")
DECLARED = re.compile(r"(?:pub(?:\(\w+\))? )?(?:struct|enum) (\w+)")
CYCLE = r"#\[cycle\((?:{})\)\](?=((?:\s*(?:#\[|//)[^\n]*)*\s*(?:pub(?:\(\w+\))? )?fn (\w+)))"
# A module's path, or a function's below it.
Names = Tuple[str, ...]
# Whether all is well with an edit, and what is told of it.
Line = Tuple[bool, str]
HOLE = "use {module}.Statement.{{statement}}\n\npub {name}_spec : {{M : Type 1}} → statement M\n{name}_spec = ?\n"


def leave_open(folder: Path, module: str, name: str) -> None:
    """Puts a hole in place of the function's proof in the folder."""
    for file in ("Answers.antt", "Invariants.antt"):
        (folder / file).unlink(missing_ok=True)
    folder.mkdir(parents=True, exist_ok=True)
    (folder / "Proof.antt").write_text(HOLE.format(module=module, name=name), encoding="utf-8")


def ends_header(line: str, begun: "re.Match[str]") -> bool:
    """Whether the header of the function that began so ends with the line: the body opens there, or is empty, or there is none."""
    opens = line.startswith((begun[0], begun[1] + ")")) and line.endswith(" {")
    return opens or line == begun[1] + "{" or line.endswith(("{}", ";"))


def without_bodies(code: str, names: Collection[str]) -> str:
    """A file's code, laid out by `rt fmt`, with an endless loop for the body of each function with one of these names."""
    kept: List[str] = []
    lines = iter(code.split("\n"))
    for line in lines:
        kept.append(line)
        begun = FUNCTION.match(line)
        if not begun or begun[2] not in names:
            continue
        while not ends_header(line, begun):
            line = next(lines)
            kept.append(line)
        if line.endswith("{"):
            while line != begun[1] + "}":
                line = next(lines)
            kept += [begun[1] + "    loop {}", line]
    return "\n".join(kept)


def cycles_of(folder: Path) -> Dict[Path, Set[str]]:
    """The folders of proofs of cycles of calls, each with the names of its functions; a function that calls itself alone has no mark."""
    code = "".join(it.read_text(encoding="utf-8") for it in (folder / "src").rglob("*.rt"))
    found = [it for it in (folder / "proofs").rglob("+*") if it.is_dir()]
    return {it: {name for _, name in re.findall(CYCLE.format(it.name[1:]), code)} or {it.name[1:]} for it in found}


def files_of(folder: Path) -> List[Tuple[Names, List[str]]]:
    """The files of a crate's code, each with its module's path and its lines."""
    src, found = folder / "src", list[Tuple[Names, List[str]]]()
    for file in src.rglob("*.rt"):
        path = tuple(it for it in file.relative_to(src).with_suffix("").parts if it not in ("lib", "main"))
        found.append((path, file.read_text(encoding="utf-8").splitlines()))
    return found


def shared(one: Names, other: Names) -> int:
    """How many names two paths begin with that are the same."""
    return next((count for count, (it, that) in enumerate(zip(one, other)) if it != that), min(len(one), len(other)))


def owner_of(header: str, path: Names, homes: Mapping[str, Sequence[Names]]) -> Names:
    """The path that the prover has for the functions of an `impl` in this module: by its type's name in its type's module, or where
    it is of a trait, by both names where it stands, that of any type by `Any`; what lets a value go is the type's own."""
    implemented = IMPLEMENTED.match(header)
    assert implemented
    trait, kind = implemented.groups()
    # a word of one letter is a parameter of the `impl`
    words = [it for it in re.findall(r"\w+", re.sub(r"\w+::", "", trait or "")) if len(it) > 1 and it != "Drop"]
    home = path if words else max(homes.get(kind, [path]), key=lambda it: shared(it, path))
    owner = "Any" if len(kind) == 1 else kind
    return *home, owner + "".join(words)


def functions_of(folder: Path) -> List[Names]:
    """The functions that a crate's author wrote, laid out by `rt fmt`, by the paths that the prover has for them."""
    files, homes, found = files_of(folder), dict[str, List[Names]](), list[Names]()
    for path, lines in files:
        for kind in filter(None, map(DECLARED.match, lines)):
            homes.setdefault(kind[1], []).append(path)
    for path, lines in files:
        owner, margin = path, 0
        for line in lines:
            if line.startswith("impl"):
                owner, margin = owner_of(line, path, homes), 4
            elif line == "}":
                owner, margin = path, 0
            function = FUNCTION.match(line)
            if function and len(function[1]) == margin:
                found.append((*owner, function[2]))
    return found


class Proved:
    """A repository whose libraries are proved, and what its crates use."""

    def __init__(self, root: Union[str, Path]) -> None:
        doc = subprocess.run(["rt", "doc"], capture_output=True, text=True, check=True)
        self.root, self.kit = Path(root).absolute(), Path(doc.stdout.strip()).parent
        self.uses = uses(self.root)

    def below(self, crate: str) -> Set[str]:
        """The repository's libraries below the crate."""
        own = [it for it in self.uses[crate] if it in self.uses]
        return {*own, *(below for it in own for below in self.below(it))}

    def folder_of(self, library: str) -> Path:
        """Where the library lies."""
        return self.root / "crates" / library / "out/rlib" if library in self.uses else self.kit / "rlibs"

    def words(self, crate: str) -> List[str]:
        """The words of a check of the crate over the libraries below it."""
        main = Path("crates", crate, "src/main.rt").exists()
        words = [str(self.kit / "bin/rattle"), "check", "--crate-name", crate, f"src/{'main' if main else 'lib'}.rt", "--jobs", "1"]
        for name in ["std", *self.uses[crate]]:
            words += ["--extern", f"{name}={self.folder_of(name)}/{name}.rlib"]
        for name in sorted(self.below(crate)):
            words += ["-L", f"dependency={self.folder_of(name)}"]
        words += ["-L", f"dependency={self.kit}/rlibs", "--antt-project", f"{self.kit}/rattle/logic/antt-project.json"]
        return [*words, "--logic-built", f"{self.kit}/logic_built", "--links", f"{crate}="]

    def leave_others_open(self, room: Path, crate: str, tried: Sequence[str]) -> None:
        """Leaves open what was proved, but for the functions tried, with the cycles of calls that they are in, and what its
        author didn't write. The body of a function goes, too, unless one of its name is tried: then no cycle is left but those."""
        names, in_cycles, gone = {it.split("::")[-1] for it in tried}, set[str](), list[str]()
        for folder, members in cycles_of(room).items():
            if names & members:
                in_cycles |= members
            else:
                gone.append(folder.name[1:])
                shutil.rmtree(folder)
        opened = set[str]()
        for path in functions_of(room):
            name = path[-1]
            if "::".join(path) not in tried and name not in in_cycles:
                leave_open(room.joinpath("proofs", *path), ".".join(["Rattle", crate, "proofs", *path]), name)
                opened.add(name)
        for file in (room / "src").rglob("*.rt"):
            code = re.sub(CYCLE.format("|".join(gone)), "", file.read_text(encoding="utf-8"))
            file.write_text(without_bodies(code, opened - names), encoding="utf-8")

    def told(self, crate: str, edits: Sequence[Edit], texts: Mapping[str, str], flags: Sequence[str] = ()) -> str:
        """What the prover says of the edits' functions in a copy of the crate with these texts, run with these flags, too."""
        functions = [it.refused for it in edits]
        with tempfile.TemporaryDirectory(prefix="attrd-refused-") as folder:
            room = Path(folder)
            for part in PARTS:
                if Path("crates", crate, part).is_dir():
                    shutil.copytree(Path("crates", crate, part), room / part)
            for path, text in texts.items():
                (room / path).write_text(text, encoding="utf-8")
            if all(it.turns_code() for it in edits):
                self.leave_others_open(room, crate, functions)
            words = [*self.words(crate), *flags, "--allow-holes", *(word for it in functions for word in ("--only", it))]
            # what rt ci proves meanwhile comes first
            ran = subprocess.run(["nice", *words], cwd=room, stdin=subprocess.DEVNULL, stdout=subprocess.PIPE,
                                 stderr=subprocess.STDOUT, text=True, errors="replace")
        return ran.stdout


def verdict(crate: str, edit: Edit, said: str) -> Line:
    """Whether the function is refused for a goal of its own, and what was said of it."""
    # what goes on in the next line is set in there: a name that is missed may stand in the second one
    said = re.sub(r"\n  +(?=\S)", " ", said)
    found = re.search(rf"^fn {crate}::{re.escape(edit.refused)}: (.*)$", said, re.M)
    if not found:
        errors = re.findall(r"^.*\berror\b.*$", said, re.M)
        return False, f"nothing is said of {edit.refused}: {' | '.join(errors[:3])[:400]}"
    goals = re.findall(r"`search` did not prove (`[^`]*`)", found[1])
    if goals:
        return True, f"{goals[0]} isn't proved"
    # the answers of the function, or of the cycle of calls that it is in; where a definition is turned, whatever stands on it
    path = re.escape(edit.refused.replace("::", "."))
    own = re.findall(rf"`Rattle\.{crate}\.proofs\.((?:{path}|[^`]*\+\w+)\.\w+)\.[^`.]*`", found[1])
    places = [re.escape(f"proofs/{it.replace('.', '/')}.antt") for it in own] if edit.turns_code() else [r"proofs/\S+"]
    errors = [it for place in places for it in re.findall(rf"^(?:\./)?{place}:\S+: error: (.*)$", said, re.M)]
    errors = [it for it in errors if not NAME_MISSED.search(it)]
    if errors and found[1].startswith("not proved"):
        return True, errors[0][:160]
    return False, found[1][:400]


def tried(proved: Proved, crate: str, edits: Sequence[Edit], texts: Optional[Texts], flags: Sequence[str] = (),
          control: bool = False) -> List[Line]:
    """Of each edit of a round whether all is well with it, and a line."""
    if texts is None:
        return [(False, f"must-fail {crate}/{it.name}: BAD EDIT: an old text doesn't stand just once in its file") for it in edits]
    said = proved.told(crate, edits, {} if control else texts, flags)
    lines: List[Line] = []
    for it in edits:
        refused, why = verdict(crate, it, said)
        lines.append((refused != control, f"must-fail {crate}/{it.name}: {'refused' if refused else 'NOT REFUSED'}: {why}"))
    return lines


def tried_in_turn(proved: Proved, crate: str, rounds: Sequence[Round], control: bool = False) -> Iterator[List[Line]]:
    """The same of each round of a crate's edits. Where definitions are turned, what the prover has checked for another such round is
    taken up."""
    with tempfile.TemporaryDirectory(prefix="attrd-kept-") as kept:
        for edits, texts in rounds:
            flags = [] if all(it.turns_code() for it in edits) else ["--incremental", kept]
            yield tried(proved, crate, edits, texts, flags, control)


def given_words() -> argparse.Namespace:
    """The words of the command line."""
    words = argparse.ArgumentParser(description="Tries wrong bodies on the prover, which has to refuse each.")
    words.add_argument("--control", action="store_true", help="make no edit: none of the functions may be refused")
    words.add_argument("--lanes", type=int, default=1, help="how many checks run side by side (1)")
    words.add_argument("-k", metavar="PART", action="append", default=[], help="those edits alone whose names, NAME/EDIT, have this part")
    words.add_argument("--list", action="store_true", help="tell the edits' names, and try none")
    words.add_argument("--slowest", metavar="N", type=int, default=0, help="tell so many of the checks that took longest")
    words.add_argument("crates", metavar="NAME", nargs="*")
    return words.parse_args()


def chosen_edits(crate: str, parts: Sequence[str]) -> List[Edit]:
    """The crate's edits whose names have one of these parts; all where there is none."""
    return [it for it in edits_of(crate) if not parts or any(part in f"{crate}/{it.name}" for part in parts)]


def main() -> int:
    given = given_words()
    chosen = {crate: chosen_edits(crate, given.k) for crate in given.crates or uses(Path("."))}
    if given.k and not any(chosen.values()):
        sys.exit("no edit has such a name")
    if given.list:
        print("\n".join(f"{crate}/{it.name}: {it.refused}" for crate, edits in chosen.items() for it in edits))
        return 0
    proved, well, seconds = Proved("."), list[bool](), list[Tuple[float, str]]()

    def timed(crate: str) -> List[Line]:
        rounds, lines, began = rounds_of(crate, chosen[crate]), list[Line](), time.monotonic()
        for (edits, _), told in zip(rounds, tried_in_turn(proved, crate, rounds, given.control)):
            seconds.append((time.monotonic() - began, f"{crate}: {', '.join(it.name for it in edits)}"))
            lines, began = [*lines, *told], time.monotonic()
        return lines

    with ThreadPoolExecutor(given.lanes) as pool:
        for lines in pool.map(timed, chosen):
            for is_well, line in lines:
                print(line, flush=True)
                well.append(is_well)
    tell_slowest(seconds, given.slowest)
    print(f"{sum(well)} passed, {len(well) - sum(well)} failed")
    return 0 if all(well) else 1


if __name__ == "__main__":
    sys.exit(main())
