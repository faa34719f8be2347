"""docs/LANGUAGE.md, followed: its files, its command, and its lines for Neovim and Emacs; and the sample in Neovim by the same lines."""
import os
import re
import shutil
import subprocess
import tempfile
import unittest
from pathlib import Path

from at_length import at_length
from lsp_support import CLONE, SAMPLE, SECONDS, Client, Editing, program
from neovim import Neovim
from test_lsp_neovim import DIAGNOSTICS, READY, WATCH

PAGE = (CLONE / "docs" / "LANGUAGE.md").read_text("utf-8")
FLOATING = (
    "for _, it in ipairs(vim.api.nvim_list_wins()) do if vim.api.nvim_win_get_config(it).relative ~= '' then "
    "return vim.api.nvim_buf_get_lines(vim.api.nvim_win_get_buf(it), 0, -1, true) end end"
)
TOLD = f"{DIAGNOSTICS.replace('return', 'local told =', 1)} return vim.deep_equal(told, ...)"
# What Emacs does: it waits for the error, corrects it, asks what a value is and why, goes to a declaration and changes its
# name; each step writes what came of it.
IN_EMACS = """
(defun wait-for (what test)
  (let ((end (+ (float-time) 120)))
    (while (not (funcall test))
      (when (> (float-time) end) (error "this doesn't come about: %s" what))
      (accept-process-output nil 0.02))))
(defun told ()
  (mapcar (lambda (it) (format "%d %s" (line-number-at-pos (flymake-diagnostic-beg it)) (flymake-diagnostic-text it)))
          (flymake-diagnostics)))
(setq eglot-sync-connect 120)
(find-file (car command-line-args-left))
(font-lock-mode 1)
(font-lock-ensure)
(princ (format "%s %s\\n" (get-text-property 1 'face) (get-text-property 5 'face)))
(with-temp-buffer
  (insert "show a; // let\\n")
  (sums-mode)
  (font-lock-mode 1)
  (font-lock-ensure)
  (princ (format "%s %s\\n" (get-text-property 1 'face) (get-text-property 13 'face))))
(run-hooks 'post-command-hook)
(wait-for "a server" (lambda () (eglot-current-server)))
(flymake-start)
(wait-for "an error" (lambda () (told)))
(princ (format "%s\\n" (car (told))))
(goto-char (point-min))
(search-forward "(widht")
(delete-char -2)
(insert "th")
(eglot--signal-textDocument/didChange)
(wait-for "no error" (lambda () (null (told))))
(goto-char (point-min))
(search-forward "are")
(let ((shown nil))
  (eglot-hover-eldoc-function (lambda (text &rest _) (setq shown text)))
  (wait-for "hover" (lambda () shown))
  (princ (format "%s\\n" shown)))
(goto-char (point-min))
(search-forward "= wid")
(call-interactively 'xref-find-definitions)
(princ (format "%d %d\\n" (line-number-at-pos) (current-column)))
(eglot-rename "wide")
(princ (buffer-string))
"""


def has_eglot():
    """Whether there is an Emacs with eglot."""
    if shutil.which("emacs") is None:
        return False
    return subprocess.run(["emacs", "-q", "--batch", "--eval", "(require 'eglot)"], capture_output=True).returncode == 0


class Home:
    """A home in which the page was followed."""

    def __init__(self, case):
        temporary = tempfile.TemporaryDirectory(prefix="attrd-lsp-")
        case.addCleanup(temporary.cleanup)
        self.folder = Path(temporary.name).resolve()
        clone, self.sums = self.folder / "attrd", self.folder / "sums"
        clone.mkdir()
        self.sums.mkdir()
        (clone / "attrd").symlink_to(Path(program()).resolve())
        (clone / "clients").symlink_to(CLONE / "clients")
        for name, text in re.findall(r"^```file (\S+)\n(.*?)^```$", PAGE, re.M | re.S):
            (self.sums / name).write_text(text, "utf-8")
        path = block("sh", 0).partition("=")[2].strip().replace("$HOME", str(self.folder))
        self.environment = {**os.environ, "HOME": str(self.folder), "XDG_STATE_HOME": str(self.folder), "PYTHONPATH": path}

    def neovim(self, case, lines, file):
        """The file in Neovim with these lines, whose client has begun."""
        init = self.folder / "init.lua"
        init.write_text(lines, "utf-8")
        editor = Neovim(init, file, self.environment)
        case.addCleanup(editor.close)
        editor.lua(WATCH)
        editor.until(READY)
        return editor


def block(kind, number):
    """The text of a block of the page."""
    return re.findall(rf"^```{kind}\n(.*?)^```$", PAGE, re.M | re.S)[number]


class Followed(unittest.TestCase):
    """The page as it stands."""

    def setUp(self):
        self.home = Home(self)

    def test_its_command_tells_the_error(self):
        command = block("sh", 1).strip()
        told = subprocess.run(["sh", "-c", command], env=self.home.environment, capture_output=True, text=True, timeout=SECONDS)
        self.assertEqual((told.returncode, told.stdout, told.stderr), (1, block("text", 0), ""))
        (self.home.sums / "one.sums").write_text("let a = 1;\nshow a;\n", "utf-8")
        told = subprocess.run(["sh", "-c", command], env=self.home.environment, capture_output=True, text=True, timeout=SECONDS)
        self.assertEqual((told.returncode, told.stdout, told.stderr), (0, "", ""))

    def test_a_fault_of_an_aspect_is_told_by_the_command(self):
        (self.home.sums / "sums.jrag").write_text("aspect A { syn int Expr.value( }\n", "utf-8")
        command = block("sh", 1).strip()
        told = subprocess.run(["sh", "-c", command], env=self.home.environment, capture_output=True, text=True, timeout=SECONDS)
        self.assertEqual((told.returncode, told.stderr), (1, ""))
        self.assertRegex(told.stdout, r"sums.jrag:1:[0-9]+: error: J")

    def test_in_neovim(self):
        editor = self.home.neovim(self, block("lua", 0), self.home.sums / "one.sums")
        editor.until(TOLD, ["2:21 nothing is named widht"])
        editor.keys("2G0f(llllxpb")
        editor.until("return #vim.diagnostic.get(0) == 0")
        editor.keys("2G0fa")
        editor.keys("K")
        shown = [it.strip() for it in editor.until(FLOATING)]
        self.assertEqual(shown, [it.strip() for it in block("text", 1).splitlines()])
        editor.keys("<Esc>2G0f=w")
        editor.keys("gd")
        editor.until("return vim.api.nvim_win_get_cursor(0)[1] == 1")
        editor.lua("vim.lsp.buf.rename('wide')")
        wanted = ["let wide = 3;", "let area = wide + (wide + 1);", "show area;"]
        editor.until("return vim.deep_equal(vim.api.nvim_buf_get_lines(0, 0, -1, true), ...)", wanted)
        editor.keys("3GA<CR>show wi<C-x><C-o>")
        editor.until("return vim.fn.pumvisible() == 1")
        self.assertEqual(editor.lua("return vim.api.nvim_buf_get_lines(0, 3, 4, true)[1]"), "show wi")
        editor.keys("<C-y>")
        editor.until("return vim.api.nvim_buf_get_lines(0, 3, 4, true)[1] == 'show wide'")
        self.assertEqual(len(editor.lua("return vim.api.nvim_list_wins()")), 1)

    @at_length
    def test_words_numbers_and_comments_are_coloured_in_neovim(self):
        (self.home.sums / "one.sums").write_text("let a = 10; // let 1\nshow letter;\n", "utf-8")
        editor = self.home.neovim(self, block("lua", 0), self.home.sums / "one.sums")
        at = {"let": (1, 1), "a": (1, 5), "10": (1, 9), "//": (1, 13), "let in a comment": (1, 16), "show": (2, 1), "letter": (2, 6)}
        name = "local line, column = ... return vim.fn.synIDattr(vim.fn.synID(line, column, 1), 'name')"
        found = {word: editor.lua(name, *place) for word, place in at.items()}
        wanted = {"let": "Keyword", "a": "", "10": "Number", "//": "Comment", "let in a comment": "Comment", "show": "Keyword",
                  "letter": ""}
        self.assertEqual(found, wanted)

    def test_the_whole_file_is_no_fold_of_its_server(self):
        with Client(script=self.home.sums / "sums_server.py") as client:
            document = Editing(client, "let a =\n  1;\nshow a;\n", (self.home.sums / "two.sums").as_uri())
            document.settled()
            folds = client.ask("textDocument/foldingRange", {"textDocument": {"uri": document.uri}})
        self.assertEqual([(it["startLine"], it["endLine"]) for it in folds], [(0, 1)])

    def test_its_example_of_a_dot_is_that_of_the_tutorials_language(self):
        shown = re.search(r"^   ```text\n(   aspect Members.*?)^   ```$", PAGE, re.M | re.S)[1]
        aspect = "\n".join(it[3:] for it in shown.splitlines())
        self.assertIn(aspect, (CLONE / "clients/lsp/attrd_lsp/small/checks.jrag").read_text("utf-8"))

    @unittest.skipUnless(has_eglot(), "there is no Emacs with eglot (tools/editors.sh emacs installs them)")
    def test_in_emacs(self):
        folder = self.home.folder / ".emacs.d"
        folder.mkdir()
        (folder / "init.el").write_text(block("elisp", 0), "utf-8")
        (folder / "steps.el").write_text(IN_EMACS, "utf-8")
        words = ["emacs", "-q", "--batch", "-l", str(folder / "init.el"), "-l", str(folder / "steps.el"), str(self.home.sums / "one.sums")]
        told = subprocess.run(words, env=self.home.environment, capture_output=True, text=True, timeout=3 * SECONDS)
        lines = [it for it in told.stdout.splitlines() if it]
        self.assertEqual(told.returncode, 0, told.stderr)
        self.assertEqual(lines[:2], ["font-lock-keyword-face nil", "font-lock-keyword-face font-lock-comment-face"])
        lines = lines[2:]
        self.assertIn("2 ", lines[0])
        self.assertIn("nothing is named widht", lines[0])
        hover = block("text", 1).splitlines()
        changed = ["let wide = 3;", "let area = wide + (wide + 1);", "show area;"]
        self.assertEqual(lines[1:], [*hover, "1 4", *changed])


class Sample(unittest.TestCase):
    """The sample's language in Neovim, with the page's lines."""

    @at_length
    def test_two_files_in_neovim(self):
        home = Home(self)
        (home.folder / "tokens.rules").write_text('token NUMBER;\ntoken PLUS "+";\n', "utf-8")
        (home.folder / "sums.rules").write_text('sum = NUMBER { "+" NUMBRE };\n', "utf-8")
        lines = block("lua", 0).replace("vim.env.HOME .. '/sums/sums_server.py'", f"'{SAMPLE / 'rules_server.py'}'")
        lines = lines.replace("*.sums", "*.rules")
        editor = home.neovim(self, lines, home.folder / "sums.rules")
        editor.until(TOLD, ["1:16 this is the token PLUS", "1:20 no rule or token is named NUMBRE"])
        elsewhere = "for _, it in ipairs(vim.diagnostic.get()) do if it.message == 'PLUS is never used' then return true end end"
        editor.until(elsewhere)
        editor.keys("1G$F}bcwNUMBER<Esc>")
        editor.until(TOLD, ["1:16 this is the token PLUS"])
        editor.lua("vim.ui.select = function(items, _, choose) choose(items[1]) end")
        editor.keys("0f+<F4>")
        editor.until("return vim.deep_equal(vim.api.nvim_buf_get_lines(0, 0, -1, true), ...)", ["sum = NUMBER { PLUS NUMBER };"])
        editor.until(TOLD, [])
        editor.lua("vim.cmd('write')")
        editor.keys("0fN")
        editor.keys("gd")
        editor.until("return vim.fn.expand('%:t') == 'tokens.rules'")
        self.assertEqual(editor.cursor(), (1, 6))


if __name__ == "__main__":
    unittest.main()
