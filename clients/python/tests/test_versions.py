"""The library's version, that of a program, and the wheel that has it."""
import sys
import tempfile
import unittest
import warnings
import zipfile
from pathlib import Path as FilePath

import attrd
from support import CALCULATOR, PROGRAM, ROOT

sys.path.append(str(ROOT / "clients/packaging"))
import backend  # noqa: E402

FILES = [CALCULATOR / it for it in ("calc.ast", "tree.txt", "calc.jrag")]


def warned_of(program):
    """What is warned of when the program is started twice."""
    with warnings.catch_warnings(record=True) as caught:
        warnings.simplefilter("always")
        for _ in range(2):
            attrd.start(*FILES, program=program).close()
    return [str(it.message) for it in caught if it.category is attrd.VersionWarning]


class Versions(unittest.TestCase):
    def test_the_version_is_that_of_its_file(self):
        self.assertEqual(f"{attrd.VERSION}\n", (ROOT / "VERSION").read_text())

    def test_a_program_tells_its_version(self):
        self.assertEqual(attrd.program_version(PROGRAM), attrd.VERSION)
        for program in ("/nosuch/attrd", "/bin/true"):
            self.assertRaises(attrd.AttrdError, attrd.program_version, program)

    def test_a_program_that_fits_is_started_in_silence(self):
        self.assertEqual(warned_of(PROGRAM), [])

    def test_a_program_of_another_version_is_told_once(self):
        with tempfile.TemporaryDirectory() as folder:
            old = FilePath(folder, "attrd")
            old.write_text(f'#!/bin/sh\nif [ "$1" = --version ]; then echo attrd 0.1 >&2; exit 2; fi\nexec "{FilePath(PROGRAM).resolve()}" "$@"\n')
            old.chmod(0o755)
            told, = warned_of(old)
        self.assertIn(f"the program has version 0.1, and this library {attrd.VERSION}", told)


class Wheel(unittest.TestCase):
    def setUp(self):
        folder = tempfile.TemporaryDirectory()
        self.addCleanup(folder.cleanup)
        name = backend.build_wheel(folder.name)
        self.assertEqual(name, f"attrd-{attrd.VERSION}-py3-none-any.whl")
        with zipfile.ZipFile(FilePath(folder.name, name)) as wheel:
            self.files = {it: wheel.read(it) for it in wheel.namelist()}
        self.info = f"attrd-{attrd.VERSION}.dist-info/"

    def test_all_packages_are_in_it_with_their_data(self):
        there = {it.name for it in ROOT.glob("clients/*/attrd*") if (it / "__init__.py").exists()}
        self.assertEqual({it.split("/")[0] for it in self.files} - {self.info.rstrip("/")}, there)
        for name in ("attrd/py.typed", "attrd_lsp/data/small.ast", "attrd_page/__init__.py"):
            self.assertIn(name, self.files)
        self.assertFalse([it for it in self.files if it.endswith(".pyc") or "/tests/" in it])

    def test_each_package_that_runs_has_a_command(self):
        lines = self.files[f"{self.info}entry_points.txt"].decode().splitlines()[1:]
        mains = {it: text.decode() for it, text in self.files.items() if it.endswith("/__main__.py")}
        runs = [it.partition("/")[0] for it, text in mains.items() if "\ndef run(" in text]
        self.assertEqual(sorted(lines), [f"{it.replace('_', '-')} = {it}.__main__:run" for it in sorted(runs)])

    def test_each_file_is_recorded(self):
        recorded = self.files[f"{self.info}RECORD"].decode().splitlines()
        self.assertEqual([it.split(",")[0] for it in recorded], list(self.files))
        self.assertTrue(all(backend.row(name, self.files[name]).strip() in recorded for name in self.files if not name.endswith("RECORD")))

    def test_it_tells_the_version(self):
        self.assertIn(f"\nName: attrd\nVersion: {attrd.VERSION}\n", self.files[f"{self.info}METADATA"].decode())


if __name__ == "__main__":
    unittest.main()
