#!/usr/bin/env python3
"""The language server in Neovim: from a change of the text to the diagnostics, what else an editor asks, and how long an edit waits
beside a question of a second. Keys are typed without an editor, too: then the clock tells of the server and the program behind it alone.

    python3 bench/editor.py [PROGRAM] [NODES ..]

Each time is the median of some runs, by the clock. PROGRAM is ./attrd and NODES are 1,000, 5,000 and 50,000 where none is given. It
takes two minutes."""
import os
import shutil
import statistics
import sys
import tempfile
import time
from pathlib import Path
from typing import TYPE_CHECKING, Dict, List, Optional, Sequence, Tuple

from figures import ROOT, ms, numbers_in, program_in, ratio, row, table

sys.path.insert(0, str(ROOT / "clients" / "lsp" / "tests"))
if TYPE_CHECKING:
    from neovim import Neovim
    from test_lsp_neovim import Folder

RUNS = 15
SIZES = (1_000, 5_000, 50_000)
# How many errors stand in the file where keys are measured beside some.
STANDING = 36
# How often an edit is measured beside the first check of a file, and how much processor time that has taken by then, in seconds.
BESIDE, AFTER = 5, 0.2
# A program whose help names no option for turns: so the language server asks, and posts nothing.
ASKING = """#!/bin/sh
case "$1" in --help) "$ATTRD_ASKED" --help 2>&1 | grep -v -e --slice; exit ;; esac
exec "$ATTRD_ASKED" "$@"
"""
# Changes the text and waits for the diagnostics that come of it; the time from one to the other.
CHANGE = """
local line, from, to, text = ...
seen = 0
local began = vim.loop.hrtime()
vim.api.nvim_buf_set_text(0, line, from, line, to, { text })
if not vim.wait(60000, function() return seen > 0 end, 1) then error('no diagnostics came') end
return { (vim.loop.hrtime() - began) / 1e6, #vim.diagnostic.get(0) }
"""
# Sends a request and waits for its answer.
REQUEST = """
local method, line, character, more = ...
local params = { textDocument = vim.lsp.util.make_text_document_params(), position = { line = line, character = character } }
local began = vim.loop.hrtime()
local answers = vim.lsp.buf_request_sync(0, method, vim.tbl_extend('force', params, more), 60000)
for _, it in pairs(answers or {}) do
  if it.result ~= nil then return (vim.loop.hrtime() - began) / 1e6 end
end
error(method .. ' has no answer')
"""


# Changes the text beside what is under way, and asks about it; the times to the answers of the server and of the program behind it,
# and whether the check is still under way then.
BESIDE_CHECK = """
local line, from, to, text, uses = ...
local place = { textDocument = vim.lsp.util.make_text_document_params(), position = { line = line, character = uses } }
local began = vim.loop.hrtime()
vim.api.nvim_buf_set_text(0, line, from, line, to, { text })
vim.lsp.buf_request_sync(0, 'textDocument/prepareRename', place, 60000)
local taken = vim.loop.hrtime() - began
vim.lsp.buf_request_sync(0, 'textDocument/hover', place, 60000)
return { taken / 1e6, (vim.loop.hrtime() - began) / 1e6, seen == 0 }
"""


def opened(nodes: int, program: Optional[str] = None) -> "Tuple[Folder, Neovim]":
    """A file of so many nodes in Neovim, and the folder that it stands in."""
    from lsp_support import large_program
    from test_lsp_neovim import Folder

    folder = Folder(large_program(nodes))
    if program is not None:
        link = folder.folder / "clone" / "attrd"
        link.unlink()
        link.symlink_to(program)
    return folder, folder.open()


def in_neovim(nodes: int) -> Dict[str, float]:
    """The times of one file in Neovim, in milliseconds, by what was measured."""
    began = time.monotonic()
    folder, editor = opened(nodes)
    try:
        editor.until("return seen > 0", seconds=300)
        first = (time.monotonic() - began) * 1000
        alone = {"the file is opened, to its first diagnostics": first, **changes(editor, 0), **requests(editor)}
        return {**alone, **changes(editor, errors_in(editor))}
    finally:
        editor.close()
        folder.temporary.cleanup()


def place_in(lines: Sequence[str]) -> Tuple[int, int]:
    """The line and column in the middle of a file at which a use begins."""
    line = len(lines) // 2
    while "t4 = " not in lines[line]:
        line += 1
    return line, lines[line].index("t4 = ") + len("t4 = ")


def lines_to_err(lines: Sequence[str]) -> List[int]:
    """Lines in which a use is made an error, STANDING of them all over a file; the one in its middle stays."""
    place, _ = place_in(lines)
    numbers = [it for it, line in enumerate(lines) if " = t" in line and it != place]
    return numbers[:: len(numbers) // STANDING][:STANDING]


def errors_in(editor: "Neovim") -> int:
    """Puts errors into the file, and waits until they are told; their number."""
    lines = editor.lines()
    chosen = lines_to_err(lines)
    for it in chosen:
        lines[it] = lines[it].replace(" = t", " = q", 1)
    editor.lua("vim.api.nvim_buf_set_lines(0, 0, -1, true, ...)", lines)
    editor.until(f"return #vim.diagnostic.get(0) == {len(chosen)}", seconds=300)
    return len(chosen)


class Alone:
    """A file in a language server of its own, without an editor."""

    def __init__(self, nodes: int) -> None:
        from lsp_support import Client, large_program

        text = large_program(nodes)
        self.client, self.lines, self.version = Client().__enter__(), text.split("\n"), 0
        self.uri = "file:///large.small"
        document = {"uri": self.uri, "languageId": "small", "version": 0, "text": text}
        self.client.notify("textDocument/didOpen", {"textDocument": document})
        self.told()

    def told(self) -> int:
        """How many diagnostics are told of the text as it is; they are waited for."""
        while True:
            told = self.client.note("textDocument/publishDiagnostics")
            if told.get("version") == self.version:
                return len(told["diagnostics"])

    def change(self, *changes: Tuple[int, int, int, str]) -> int:
        """Puts texts in the place of columns of lines; how many diagnostics are told then."""
        self.version += 1
        places = [({"line": line, "character": start}, {"line": line, "character": end}, text) for line, start, end, text in changes]
        told = [{"range": {"start": start, "end": end}, "text": text} for start, end, text in places]
        document = {"uri": self.uri, "version": self.version}
        self.client.notify("textDocument/didChange", {"textDocument": document, "contentChanges": told})
        return self.told()

    def spent(self) -> float:
        """The processor time of the server and the program behind it, in milliseconds."""
        from lsp_support import children

        server = self.client.process.pid
        return sum(processor_time(it) for it in (server, *children(server))) / 1e6


def without_editor(nodes: int) -> Dict[str, float]:
    """The times of keys beside errors without an editor, in milliseconds: by the clock and of the processor, the median and the least."""
    alone = Alone(nodes)
    try:
        chosen = lines_to_err(alone.lines)
        columns = [alone.lines[it].index(" = t") + len(" = ") for it in chosen]
        standing = alone.change(*((line, column, column + 1, "q") for line, column in zip(chosen, columns)))
        assert standing == len(chosen), standing
        line, column = place_in(alone.lines)
        keys = {"a key that brings an error": (column, "q", 1), "a key that takes it away": (column + 1, "", 0)}
        times: Dict[str, List[Tuple[float, float]]] = {it: [] for it in keys}
        for _ in range(2 * RUNS):
            for key, (end, text, more) in keys.items():
                before, began = alone.spent(), time.perf_counter()
                told = alone.change((line, column, end, text))
                clock = (time.perf_counter() - began) * 1000
                assert told == standing + more, told
                time.sleep(0.002)
                times[key].append((clock, alone.spent() - before))
    finally:
        alone.client.close()
    found: Dict[str, float] = {}
    for key, measured in times.items():
        for what, spent in zip(("by the clock", "processor time"), zip(*measured)):
            found[f"{key}, {what}, median"], found[f"{key}, {what}, least"] = statistics.median(spent), min(spent)
    return found


def changes(editor: "Neovim", standing: int) -> Dict[str, float]:
    """From a change to its diagnostics, beside so many errors: an error that comes, and one that goes.

    By the clock the median is told, of the processor time of the server and the program behind it the least."""
    line, column = place_in(editor.lines())
    keys = {"a key that brings an error": (column, "q", standing + 1)}
    keys["a key that takes it away"] = (column + 1, "", standing)
    clock: Dict[str, List[float]] = {it: [] for it in keys}
    processor: Dict[str, List[float]] = {it: [] for it in keys}
    for _ in range(RUNS):
        for key, (end, text, wanted) in keys.items():
            before = spent_by_both(editor)
            spent, count = editor.lua(CHANGE, line, column, end, text)
            assert count == wanted, count
            clock[key].append(spent)
            processor[key].append(spent_by_both(editor) - before)
    beside_errors = f", beside {standing} errors" if standing else ""
    found = {f"{key}{beside_errors}": statistics.median(clock[key]) for key in keys}
    return {**found, **{f"{key}{beside_errors}, processor time": min(processor[key]) for key in keys}}


def requests(editor: "Neovim") -> Dict[str, float]:
    """What an editor asks of a name in the middle of the file."""
    lines = editor.lines()
    line = next(it for it in range(len(lines) // 2, len(lines)) if "me" in lines[it] and " a" in lines[it])
    place = (line, lines[line].index("me"))
    kinds = {
        "hover": ("textDocument/hover", {"context": {}}),
        "definition": ("textDocument/definition", {"context": {}}),
        "references": ("textDocument/references", {"context": {"includeDeclaration": True}}),
        "rename": ("textDocument/rename", {"newName": "another"}),
    }
    return {it: statistics.median([editor.lua(REQUEST, method, *place, more) for _ in range(RUNS)]) for it, (method, more) in kinds.items()}


def processor_time(process: int) -> int:
    """The processor time of a process, in nanoseconds; 0 where it isn't known."""
    try:
        return int(Path(f"/proc/{process}/schedstat").read_text().split()[0])
    except (OSError, ValueError):
        return 0


def spent_by_program(editor: "Neovim") -> float:
    """The processor time of the program behind the language server of an editor, in seconds; 0 before it has begun."""
    from lsp_support import children

    return max([0, *(processor_time(it) for server in children(editor.process.pid) for it in children(server))]) / 1e9


def spent_by_both(editor: "Neovim") -> float:
    """The processor time of the language server of an editor and of the program behind it, in milliseconds."""
    from lsp_support import children

    servers = children(editor.process.pid)
    return sum(processor_time(it) for server in servers for it in (server, *children(server))) / 1e6


def beside_a_check(nodes: int, program: str) -> Tuple[Sequence[float], Sequence[float], int]:
    """An edit in the middle of the first check of a file: until it is taken, and until a question about it is answered, in milliseconds;
    and how often the check was under way still."""
    found = []
    for _ in range(BESIDE):
        folder, editor = opened(nodes, program)
        try:
            line, column = place_in(editor.lines())
            while spent_by_program(editor) < AFTER and not editor.lua("return seen > 0"):
                time.sleep(0.005)
            found.append(editor.lua(BESIDE_CHECK, line, column, column + 1, "b", column))
        finally:
            editor.close()
            folder.temporary.cleanup()
    taken, answered, is_alive = zip(*found)
    return taken, answered, sum(is_alive)


def length_of_check(nodes: int) -> float:
    """The processor time that the first check of a file takes the program, in milliseconds."""
    folder, editor = opened(nodes)
    try:
        editor.until("return seen > 0", seconds=300)
        return spent_by_program(editor) * 1000
    finally:
        editor.close()
        folder.temporary.cleanup()


def beside(nodes: int, program: str) -> None:
    """An edit beside the first check of a file, whose questions are posted, and beside one whose questions are asked."""
    table(f"An edit beside the first check of {nodes:,} nodes ({ms(length_of_check(nodes))} of processor time)", "It is taken after",
          "At most", "A question about it is answered after", "At most", "The check was under way still")
    with tempfile.TemporaryDirectory(prefix="attrd-editor-") as folder:
        asking = Path(folder) / "attrd"
        asking.write_text(ASKING)
        asking.chmod(0o755)
        for what, it in (("its questions are posted", program), ("they are asked, without turns", str(asking))):
            taken, answered, alive = beside_a_check(nodes, it)
            told = [ms(it) for times in (taken, answered) for it in (statistics.median(times), max(times))]
            row(what, *told, f"{alive} of {BESIDE} times")


def main(words: Sequence[str]) -> None:
    program = program_in(words, __doc__)
    os.environ["ATTRD"] = os.environ["ATTRD_ASKED"] = program
    sizes = numbers_in(words[1:], SIZES, __doc__)
    if shutil.which("nvim") is None:
        sys.exit("there is no nvim: the package neovim is missing (tools/editors.sh installs it)")
    told_by_sizes("In Neovim, by the clock where nothing else is said", {nodes: in_neovim(nodes) for nodes in sizes})
    told_by_sizes(f"Without an editor, beside {STANDING} errors", {nodes: without_editor(nodes) for nodes in sizes})
    beside(max(sizes), program)


def told_by_sizes(title: str, found: Dict[int, Dict[str, float]]) -> None:
    """A table of the times of files, by their sizes."""
    sizes = list(found)
    table(title, *(f"{it:,} nodes" for it in sizes), "The largest against the smallest")
    for what in found[sizes[0]]:
        times = [found[it][what] for it in sizes]
        row(what, *map(ms, times), ratio(times[-1], times[0]))


if __name__ == "__main__":
    main(sys.argv[1:])
