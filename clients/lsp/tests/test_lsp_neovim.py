"""Neovim, with its own client and the lines of the page, over the language server and the program."""
from __future__ import annotations

import os
import re
import shutil
import signal
import tempfile
import unittest
from pathlib import Path
from typing import List

from at_length import at_length
from attrd_lsp.small.language import DATA
from lsp_support import CLASS_NODES, CLONE, LSP, SMALL, children, large_program, program
from neovim import EditorFault, Neovim

DIAGNOSTICS = "return vim.tbl_map(function(it) return (it.lnum + 1) .. ':' .. (it.col + 1) .. ' ' .. it.message end, vim.diagnostic.get(0))"
READY = "local it = vim.lsp.buf_get_clients(0)[1] return it ~= nil and it.initialized == true"
# Begins to note how often diagnostics came.
WATCH = "seen = 0 vim.api.nvim_create_autocmd('DiagnosticChanged', { callback = function() seen = seen + 1 end })"

# How long a large file may take on a machine that is busy, in seconds.
PATIENCE = 300.0
# How many nodes the large file has.
LARGE = int(os.environ.get("ATTRD_TEST_NODES", "50000"))


def page_lines() -> str:
    """The lines for Neovim, as the page shows them."""
    page = (LSP / "README.md").read_text("utf-8")
    return re.findall(r"^```lua\n(.*?)^```$", page, re.M | re.S)[0]


class Folder:
    """A home with the lines of the page, a clone whose program is the one under test, and a file."""

    def __init__(self, text: str) -> None:
        self.temporary = tempfile.TemporaryDirectory(prefix="attrd-lsp-")
        self.folder = Path(self.temporary.name)
        clone = self.folder / "clone"
        clone.mkdir()
        (clone / "attrd").symlink_to(Path(program()).resolve())
        (clone / "clients").symlink_to(CLONE / "clients")
        self.init, self.file = self.folder / "init.lua", self.folder / "circle.small"
        self.init.write_text(page_lines(), "utf-8")
        self.file.write_text(text, "utf-8")
        self.environment = {"ATTRD_CLONE": str(clone), "HOME": str(self.folder), "XDG_STATE_HOME": str(self.folder)}

    def open(self) -> Neovim:
        """The file in an editor, whose client has begun."""
        editor = Neovim(self.init, self.file, self.environment)
        try:
            editor.lua(WATCH)
            editor.until(READY, seconds=PATIENCE)
        except EditorFault:
            editor.close()
            raise
        return editor


class OnSmallFile(unittest.TestCase):
    """The tutorial's program in one editor, as it was before each test."""

    @classmethod
    def setUpClass(cls) -> None:
        folder = Folder(SMALL)
        cls.addClassCleanup(folder.temporary.cleanup)
        cls.editor = folder.open()
        cls.addClassCleanup(cls.editor.close)
        cls.editor.until("return seen > 0")

    def setUp(self) -> None:
        self.editor.lua("vim.cmd('cclose | lclose | only') vim.fn.setqflist({}) vim.cmd('messages clear')")
        self.editor.lua("vim.api.nvim_buf_set_lines(0, 0, -1, true, ...)", SMALL.splitlines())
        self.diagnostics([])

    def diagnostics(self, wanted: List[str]) -> None:
        """Waits for exactly these diagnostics."""
        self.editor.until(f"{DIAGNOSTICS.replace('return', 'local told =', 1)} return vim.deep_equal(told, ...)", wanted)

    def test_a_character_that_is_typed_brings_a_diagnostic_and_its_loss_takes_it(self) -> None:
        self.assertEqual(self.editor.lua(DIAGNOSTICS), [])
        self.editor.keys("7G0fxaq<Esc>")
        self.diagnostics(["7:11 no declaration of xq"])
        self.editor.keys("x")
        self.diagnostics([])
        self.assertEqual("\n".join(self.editor.lines()) + "\n", SMALL)

    def test_a_text_that_is_no_program_keeps_the_tree_and_says_so(self) -> None:
        self.editor.keys("7G0fxx")
        held = "5:7 Circle has a syntax error: other messages are from its last version that parsed"
        self.diagnostics(["7:12 expected an expression, found '+'", held])
        self.editor.keys("fr")
        self.editor.keys("gd")
        self.editor.until("return vim.api.nvim_win_get_cursor(0)[1] == 6")
        self.editor.keys("u")
        self.diagnostics([])

    def test_words_and_numbers_are_coloured(self) -> None:
        """In the line `{ near = x < 10; show near; }`: nothing at a name, a number, a word; and the word of the first line."""
        name = "local line, column = ... return vim.fn.synIDattr(vim.fn.synID(line, column, 1), 'name')"
        line = SMALL.splitlines()[2]
        found = [self.editor.lua(name, 3, line.index(it) + 1) for it in ("near", "10", "show")] + [self.editor.lua(name, 1, 1)]
        self.assertEqual(found, ["", "Number", "Keyword", "Keyword"])

    def test_a_completion_shows_its_list_and_no_second_window(self) -> None:
        self.addCleanup(self.editor.keys, "<Esc>")
        self.editor.keys("3G$ishow ne<C-x><C-o>")
        self.editor.until("return vim.fn.pumvisible() == 1")
        self.editor.keys("<C-y>")
        self.editor.until("return vim.api.nvim_buf_get_lines(0, 2, 3, true)[1]:match('show near; show near}') ~= nil")
        self.assertEqual(len(self.editor.lua("return vim.api.nvim_list_wins()")), 1)

    def test_the_cursor_goes_to_a_definition(self) -> None:
        self.editor.keys("7G0fx")
        self.editor.keys("gd")
        self.editor.until("return vim.api.nvim_win_get_cursor(0)[1] == 2")
        self.assertEqual(self.editor.cursor(), (2, 6))

    def test_a_field_is_renamed_where_it_is_declared_and_used(self) -> None:
        self.editor.keys("2G0fx")
        self.editor.lua("vim.lsp.buf.rename('across')")
        self.editor.until("return vim.api.nvim_buf_get_lines(0, 6, 7, true)[1] == '  { end = across + r; show end; }'")
        renamed = SMALL.replace("int x", "int across").replace("x < 10", "across < 10").replace("x + r", "across + r")
        self.assertEqual("\n".join(self.editor.lines()) + "\n", renamed)
        self.diagnostics([])

    def test_a_name_that_would_change_a_meaning_is_refused(self) -> None:
        self.editor.keys("2G0fx")
        self.editor.lua("vim.lsp.buf.rename('r')")
        self.editor.until("return vim.fn.execute('messages'):find(\"'x' in line 7 would mean something else\", 1, true) ~= nil")
        self.assertEqual("\n".join(self.editor.lines()) + "\n", SMALL)

    def test_the_kind_of_a_name_is_shown_and_why(self) -> None:
        self.editor.keys("3G0fn")
        self.editor.keys("K")
        shown = "for _, it in ipairs(vim.api.nvim_list_wins()) do if vim.api.nvim_win_get_config(it).relative ~= '' then"
        lines = f"{shown} return vim.api.nvim_buf_get_lines(vim.api.nvim_win_get_buf(it), 0, -1, true) end end"
        told = [it.strip() for it in self.editor.until(lines)]
        wanted = ["3:5 near: there is no Declared", "3:5 near: Init is there", "3:12 x < 10: kind() = boolean"]
        self.assertEqual((told[0], told[2:5]), ("near: boolean", wanted))
        self.assertTrue(told[1].startswith("types.jrag:4: Decl.kind() = hasDeclared() ? "), told)

    def test_the_uses_of_a_name_are_listed(self) -> None:
        self.editor.keys("2G0fx")
        self.editor.keys("gr")
        listed = self.editor.until("local found = vim.fn.getqflist() return #found == 3 and found")
        self.assertEqual([(it["lnum"], it["col"]) for it in listed], [(2, 7), (3, 12), (7, 11)])

    def test_the_symbols_are_listed(self) -> None:
        self.editor.keys("gO")
        first = "local here, all = vim.fn.getloclist(0), vim.fn.getqflist() return #here > 0 and here or #all > 0 and all"
        listed = self.editor.until(first)
        wanted = ["[Class] Point", "[Field] x", "[Field] y", "[Variable] near", "[Class] Circle", "[Field] r", "[Variable] end"]
        self.assertEqual([it["text"] for it in listed], wanted)


class OnFaults(unittest.TestCase):
    """A language that is refused, and a program that ends."""

    @at_length
    def test_a_refused_file_shows_its_fault_at_its_place_until_it_is_corrected(self) -> None:
        folder = Folder(SMALL)
        self.addCleanup(folder.temporary.cleanup)
        types = self.wrong_types(folder)
        editor = folder.open()
        self.addCleanup(editor.close)
        told = f"local at = vim.fn.bufnr('{types}') {DIAGNOSTICS.replace('get(0)', 'get(at)')}"
        editor.until(f"return vim.fn.bufnr('{types}') > 0 and #vim.diagnostic.get(0) > 0")
        line = types.read_text("utf-8")[: types.read_text("utf-8").index('lookupKind("int", 1)')].count("\n") + 1
        self.assertEqual([it[: len(f"{line}:19 J5 argument")] for it in editor.lua(told)], [f"{line}:19 J5 argument"])
        self.assertIn("types.jrag: J5 argument", editor.lua(DIAGNOSTICS)[0])
        editor.call("nvim_command", f"split {types}")
        editor.lua("vim.cmd(\"%s/, 1)/)/\")")
        editor.until("return #vim.diagnostic.get() == 0")

    def wrong_types(self, folder: Folder) -> Path:
        """A language of its own for the folder's editor, one file of which is refused."""
        shutil.copytree(DATA, folder.folder / "language")
        option = f"clone .. '/attrd', '--language', '{folder.folder / 'language'}'"
        folder.init.write_text(page_lines().replace("clone .. '/attrd'", option), "utf-8")
        types = folder.folder / "language" / "types.jrag"
        text = types.read_text("utf-8")
        types.write_text(text.replace('eq Num.kind() = lookupKind("int");', 'eq Num.kind() = lookupKind("int", 1);'), "utf-8")
        return types

    @at_length
    def test_a_program_that_ends_is_told_and_started_anew(self) -> None:
        folder = Folder(SMALL)
        self.addCleanup(folder.temporary.cleanup)
        editor = folder.open()
        self.addCleanup(editor.close)
        editor.until("return seen > 0")
        for server in children(editor.process.pid):
            for behind in children(server):
                os.kill(behind, signal.SIGKILL)
        editor.keys("7G0fx")
        editor.keys("gd")
        editor.until("return vim.api.nvim_win_get_cursor(0)[1] == 2")
        editor.until("return vim.fn.execute('messages'):find('it is started anew', 1, true) ~= nil")


class OnLargeFile(unittest.TestCase):
    """A program of many nodes in the editor."""

    @at_length
    def test_typing_and_jumping(self) -> None:
        folder = Folder(large_program(LARGE))
        self.addCleanup(folder.temporary.cleanup)
        editor = folder.open()
        self.addCleanup(editor.close)
        editor.until("return seen > 0", seconds=PATIENCE)
        self.assertEqual(editor.lua(DIAGNOSTICS), [])
        last = len(editor.lines())
        editor.keys("Gkkk0f+i+ q ")
        editor.until("return #vim.diagnostic.get(0) == 1", seconds=PATIENCE)
        self.assertIn("no declaration of q", editor.lua(DIAGNOSTICS)[0])
        editor.keys("<Esc>u")
        editor.until("return #vim.diagnostic.get(0) == 0", seconds=PATIENCE)
        editor.keys("0fm")
        editor.keys("gd")
        editor.until(f"return vim.api.nvim_win_get_cursor(0)[1] < {last - 8}", seconds=PATIENCE)
        self.assertIn(f" me{LARGE // CLASS_NODES - 1};", editor.lines()[editor.cursor()[0] - 1])


if __name__ == "__main__":
    unittest.main()
