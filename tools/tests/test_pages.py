"""The pages: that their links lead somewhere, and that those with a fixed form keep it."""
import re
import subprocess
import unittest
from pathlib import Path
from typing import List, Set

ROOT = Path(__file__).resolve().parents[2]
LINK = re.compile(r"\]\(([^)\s]+)\)")
FENCED = re.compile(r"^```.*?^```$", re.M | re.S)
# An entry of DECISIONS: what it is about, and its three parts.
DECISION = re.compile(r"^- \*\*.+?\*\*.* \*Chosen:\* .+ \*Instead of:\* .+ \*Because:\* .+\.$")
# How many lines a page has at most that is read from its first line to its last.
LENGTHS = {"README.md": 130, "docs/PERFORMANCE.md": 170, "docs/DECISIONS.md": 160, "docs/PROVED.md": 120, "docs/PROOFS.md": 250}

# What PROVED names that stands in no crate.
NOT_OF_CRATES = {"core", "tools", "program", "py", "clap", "strsim", "unicode_ident", "thiserror", "itoa", "memchr", "slab", "smallvec",
                 "indexmap", "arrayvec"}


def pages() -> List[Path]:
    """All pages that git knows, or would."""
    command = ["git", "ls-files", "--cached", "--others", "--exclude-standard", "*.md"]
    told = subprocess.run(command, cwd=ROOT, capture_output=True, text=True, check=True)
    return [ROOT / it for it in told.stdout.splitlines() if (ROOT / it).exists()]


def anchor(heading: str) -> str:
    """The name by which a link finds a heading."""
    plain = re.sub(r"\[([^\]]*)\]\([^)]*\)", r"\1", heading)
    return re.sub(r"[^\w\- ]", "", plain.lower()).replace(" ", "-")


def anchors(page: Path) -> Set[str]:
    """The names of all headings of a page; of two with one name the second has a number behind it."""
    found: Set[str] = set()
    for heading in re.findall(r"^#+ (.*)$", FENCED.sub("", page.read_text(encoding="utf-8")), re.M):
        name = anchor(heading)
        found.add(next(it for it in (name, *(f"{name}-{k}" for k in range(1, 100))) if it not in found))
    return found


class Links(unittest.TestCase):
    """What pages link to."""

    def test_each_link_leads_to_a_file_and_to_a_heading_in_it(self) -> None:
        for page in pages():
            for link in LINK.findall(FENCED.sub("", page.read_text(encoding="utf-8"))):
                if re.match(r"[a-z]+:", link):
                    continue
                path, _, heading = link.partition("#")
                target = page.parent / path if path else page
                with self.subTest(page=str(page.relative_to(ROOT)), link=link):
                    self.assertTrue(target.exists(), "there is no such file")
                    if heading:
                        self.assertIn(heading, anchors(target))

    def test_headings_are_found_by_what_stands_in_them(self) -> None:
        self.assertEqual(anchor("8. What is kept, and when it is forgotten"), "8-what-is-kept-and-when-it-is-forgotten")
        self.assertEqual(anchor("`at_model`: the definitions"), "at_model-the-definitions")


class Forms(unittest.TestCase):
    """Pages with a fixed form."""

    def test_each_decision_says_what_was_chosen_instead_of_what_and_why(self) -> None:
        entries = [it for it in (ROOT / "docs/DECISIONS.md").read_text(encoding="utf-8").splitlines() if it.startswith("-")]
        self.assertGreater(len(entries), 100)
        for entry in entries:
            with self.subTest(entry[:60]):
                self.assertRegex(entry, DECISION)

    def test_pages_that_are_read_whole_stay_short(self) -> None:
        """So many lines at most; what a page grows by goes out of it elsewhere, or to the page where it is looked up."""
        for page, most in LENGTHS.items():
            with self.subTest(page):
                self.assertLessEqual(len((ROOT / page).read_text(encoding="utf-8").splitlines()), most)

    def test_each_change_is_a_line(self) -> None:
        lines = (ROOT / "CHANGELOG.md").read_text(encoding="utf-8").splitlines()[3:]
        self.assertEqual([it for it in lines if it and not it.startswith(("- ", "## "))], [])
        self.assertEqual([it for it in lines if len(it) > 350], [])

    def test_each_promise_names_its_contract(self) -> None:
        lines = (ROOT / "docs/PROVED.md").read_text(encoding="utf-8").splitlines()
        rows = [it for it in lines if it.startswith("| ") and not it.startswith("| Promise")]
        self.assertGreater(len(rows), 50)
        for row in rows:
            with self.subTest(row[:60]):
                self.assertRegex(row, r"^\| .+ \| .*`.+`.* \|$")

    def test_names_of_contracts_are_there(self) -> None:
        page = FENCED.sub("", (ROOT / "docs/PROVED.md").read_text(encoding="utf-8"))
        named = {word for it in re.findall(r"`([\w:.*/]+)`", page) for word in re.split(r"\W+", re.sub(r"\.(?:rt|antt)$", "", it)) if word}
        files = [it for kind in ("src", "specs", "proofs") for it in ROOT.glob(f"crates/*/{kind}/**/*") if it.suffix in (".rt", ".antt")]
        there = {it for file in files for text in (file.read_text(encoding="utf-8"), str(file.relative_to(ROOT))) for it in re.findall(r"\w+", text)}
        self.assertEqual(sorted(named - there - NOT_OF_CRATES), [])


class Words(unittest.TestCase):
    """The field's words and those of the code: GLOSSARY has both, and CONTRIBUTING tells which of the code's aren't renamed."""

    def setUp(self) -> None:
        page = (ROOT / "docs/CONTRIBUTING.md").read_text(encoding="utf-8")
        self.listed = page[page.index("## What isn't renamed"):]

    def test_each_word_of_the_code_that_is_not_the_fields_is_listed(self) -> None:
        lines = (ROOT / "docs/GLOSSARY.md").read_text(encoding="utf-8").splitlines()
        rows = [re.split(r"(?<!\\)\|", it)[1:3] for it in lines if it.startswith("| **")]
        self.assertGreater(len(rows), 60)
        differing = [word.strip() for field, code in rows for word in code.split(";") if word.strip() not in field]
        self.assertEqual([it for it in differing if not re.search(rf"\b{it}\b", self.listed, re.I)], [])

    def test_each_name_that_is_listed_is_there(self) -> None:
        named = set(re.findall(r"`([^`]+)`", self.listed))
        files = {it for it in named if re.search(r"\.(rt|antt|py)$", it)}
        words = {word for it in named - files for word in re.findall(r"\w+", it)}
        folders = ["crates", "clients", "bench", "tools"]
        command = ["git", "grep", "-hIowE", "|".join(sorted(words)), "--", *folders]
        there = set(subprocess.run(command, cwd=ROOT, capture_output=True, text=True, check=True).stdout.split())
        self.assertEqual(sorted(words - there), [])
        self.assertEqual([it for it in sorted(files) if not any(next((ROOT / folder).rglob(Path(it).name), None) for folder in folders)], [])


if __name__ == "__main__":
    unittest.main()
