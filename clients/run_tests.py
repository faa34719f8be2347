#!/usr/bin/env python3
"""Runs the tests of the clients against a program.

    python3 clients/run_tests.py [--skip-missing] [--but MODULE].. PROGRAM [CLIENT | MODULE ..]

CLIENT is a folder of this one, such as lsp, and stands for all its tests; MODULE is a module of one of the folders
clients/*/tests, such as test_update, or a test in it. Without one all of them run, but those that --but names. The last
line is 'N passed, M failed'; the status is 1 where a test fails. Where the environment has ATTRD_SHORT the tests that take long are
left out (at_length.py), and how many these were is told. Tests that need Neovim or Chromium fail where these are
missing; with --skip-missing they are left out, and a line names the package.
"""
import argparse
import os
import re
import shutil
import sys
import unittest
from pathlib import Path
from typing import Iterator, List, Optional, Sequence, Union

from at_length import REASON

FOLDERS = sorted(Path(__file__).resolve().parent.glob("*/tests"))
# What a test imports that needs another program: the names that this may have, the first one being that of Debian's package.
NEEDED = {"neovim": ("neovim", "nvim"), "browser": ("chromium", "chromium-browser", "google-chrome")}
IMPORT = re.compile(r"^(?:from|import) (neovim|browser)\b", re.M)


def missing_for(module: Path) -> Optional[str]:
    """The package that the module of tests needs and that isn't there; None where it needs none."""
    for found in IMPORT.finditer(module.read_text(encoding="utf-8")):
        names = NEEDED[found[1]]
        if not any(map(shutil.which, names)):
            return names[0]
    return None


def modules_in(folder: Path, skip_missing: bool) -> Iterator[str]:
    """The names of the folder's modules of tests; those that can't run are left out and told, where that is wanted."""
    for module in sorted(folder.glob("test_*.py")):
        package = missing_for(module) if skip_missing else None
        if package:
            print(f"skipped: {folder.parent.name}/{module.stem}: the package {package} is missing (tools/editors.sh installs it)")
        else:
            yield module.stem


def tests_of(words: Sequence[str], skip_missing: bool) -> unittest.TestSuite:
    """The tests that these words name, all where there is none."""
    names: List[str] = []
    for word in words or [it.parent.name for it in FOLDERS]:
        folder = FOLDERS[0].parent.parent / word / "tests"
        names += modules_in(folder, skip_missing) if folder in FOLDERS else [word]
    return unittest.TestLoader().loadTestsFromNames(names)


def each(tests: Union[unittest.TestSuite, unittest.TestCase]) -> Iterator[unittest.TestCase]:
    """The tests of a suite, one by one, in their order."""
    if isinstance(tests, unittest.TestCase):
        yield tests
    else:
        for it in tests:
            yield from each(it)


def without(tests: unittest.TestSuite, left_out: Sequence[str]) -> unittest.TestSuite:
    """The tests but those of these modules, or with these names."""
    return unittest.TestSuite(it for it in each(tests) if not f"{it.id()}.".startswith(tuple(f"{name}." for name in left_out)))


def main() -> int:
    words = argparse.ArgumentParser(description="Runs the tests of the clients against a program.")
    words.add_argument("--skip-missing", action="store_true", help="leave out what needs Neovim or Chromium where these are missing")
    words.add_argument("--but", metavar="MODULE", action="append", default=[], help="leave this module out, or this test in it")
    words.add_argument("program", metavar="PROGRAM")
    words.add_argument("names", metavar="CLIENT | MODULE", nargs="*")
    given = words.parse_args()
    if not os.access(given.program, os.X_OK):
        words.error(f"{given.program} is no program")
    os.environ["ATTRD"] = str(Path(given.program).resolve())
    sys.path[:0] = [str(it) for tests in FOLDERS for it in (tests.parent, tests)]
    result = unittest.TextTestRunner(verbosity=1).run(without(tests_of(given.names, given.skip_missing), given.but))
    for test, reason in result.skipped:
        if reason != REASON:
            print(f"skipped: {test.id()}: {reason}")
    print(f"left out: {sum(reason == REASON for _, reason in result.skipped)}")
    failed = len(result.failures) + len(result.errors) + len(result.unexpectedSuccesses)
    print(f"{max(0, result.testsRun - failed - len(result.skipped))} passed, {failed} failed")
    return 0 if result.wasSuccessful() else 1


if __name__ == "__main__":
    sys.exit(main())
