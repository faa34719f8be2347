"""Neovim with the lines of the page for grammars and aspects, over the server and the program."""
from __future__ import annotations

import re
import tempfile
import unittest
from pathlib import Path

from at_length import at_length
from aspects_support import write_small
from lsp_support import CLONE, LSP, program
from neovim import Neovim

READY = "local it = vim.lsp.buf_get_clients(0)[1] return it ~= nil and it.initialized == true"
DIAGNOSTICS = "return vim.tbl_map(function(it) return (it.lnum + 1) .. ' ' .. it.code end, vim.diagnostic.get(0))"
FLOATING = ("for _, it in ipairs(vim.api.nvim_list_wins()) do if vim.api.nvim_win_get_config(it).relative ~= '' then"
            " return vim.api.nvim_buf_get_lines(vim.api.nvim_win_get_buf(it), 0, -1, true) end end")


class Aspects(unittest.TestCase):
    """The tutorial's aspects in an editor."""

    def setUp(self) -> None:
        temporary = tempfile.TemporaryDirectory(prefix="attrd-aspects-")
        self.addCleanup(temporary.cleanup)
        folder = Path(temporary.name)
        (folder / "small").mkdir()
        write_small(folder / "small")
        (folder / "clone").mkdir()
        (folder / "clone" / "attrd").symlink_to(Path(program()).resolve())
        (folder / "clone" / "clients").symlink_to(CLONE / "clients")
        page = (LSP / "attrd_aspects" / "README.md").read_text("utf-8")
        (folder / "init.lua").write_text(re.findall(r"^```lua\n(.*?)^```$", page, re.M | re.S)[0], "utf-8")
        environment = {"ATTRD_CLONE": str(folder / "clone"), "HOME": str(folder), "XDG_STATE_HOME": str(folder)}
        self.editor = Neovim(folder / "init.lua", folder / "small" / "types.jrag", environment)
        self.addCleanup(self.editor.close)
        self.editor.until(READY)

    def test_faults_of_all_lines_while_one_types(self) -> None:
        self.editor.lua("vim.cmd('%s/lookupKind(\"/lookKind(\"/')")
        self.editor.until("return #vim.diagnostic.get(0) == 4")
        self.assertEqual(self.editor.lua(DIAGNOSTICS), [f"{it} J3" for it in (7, 8, 9, 10)])
        told = self.editor.lua("return vim.diagnostic.get(0)[1].message")
        self.assertIn("Num has no attribute or accessor lookKind. There is lookupKind", told)
        self.editor.keys("u")
        self.editor.until("return #vim.diagnostic.get(0) == 0")

    @at_length
    def test_the_meaning_of_a_name(self) -> None:
        self.editor.keys("4G0fgK")
        shown = self.editor.until(FLOATING)
        self.assertEqual(shown, ["Decl ::= [Declared:KindUse]", "KindUse getDeclared()", "boolean hasDeclared()"])

    @at_length
    def test_going_to_the_grammar(self) -> None:
        self.editor.keys("4G0fg")
        self.editor.keys("gd")
        self.editor.until("return vim.endswith(vim.api.nvim_buf_get_name(0), 'small.ast')")
        self.assertEqual(self.editor.until("local it = vim.api.nvim_win_get_cursor(0) return it[1] == 10 and it"), [10, 22])

    @at_length
    def test_equations_and_uses_are_listed(self) -> None:
        self.editor.keys("6G0fk")
        self.editor.keys("gi")
        listed = self.editor.until("local found = vim.fn.getqflist() return #found == 6 and found")
        self.assertEqual([it["lnum"] for it in listed], [7, 8, 9, 10, 11, 12])

    @at_length
    def test_names_are_completed(self) -> None:
        self.editor.keys("4G$F;i")
        self.editor.keys(" == this.getI<C-x><C-o>")
        words = self.editor.until("local it = vim.fn.complete_info({ 'items' }).items return #it > 0 and it")
        self.assertEqual([it["word"] for it in words], ["getID", "getInit"])
        self.assertEqual(len(self.editor.lua("return vim.api.nvim_list_wins()")), 1)
        self.editor.keys("<C-e><Esc>u")

    def test_words_and_comments_are_coloured(self) -> None:
        name = "local line, column = ... return vim.fn.synIDattr(vim.fn.synID(line, column, 1), 'name')"
        line = self.editor.lines()[1]
        found = [self.editor.lua(name, 1, 1)] + [self.editor.lua(name, 2, line.index(it) + 1) for it in ("inh", "Kind", "String")]
        self.assertEqual(found, ["Keyword", "Keyword", "", "Type"])
        self.editor.keys("ggO// syn<Esc>")
        self.assertEqual(self.editor.lua(name, 1, 4), "Comment")
        self.editor.keys("u")


if __name__ == "__main__":
    unittest.main()
