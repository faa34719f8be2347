"""The reasons of the system that the program tells: each has the text that the system has for its number."""
import os
import re
import unittest
from pathlib import Path

SPECS = Path(__file__).resolve().parents[2] / "crates/attrd/specs/Reasons.antt"
NUMBER = re.compile(r"\((\d+), (\w+)\)")
TEXT = re.compile(r'^reason_text (\w+) = codes "([^"]*)"$', re.M)


class Reasons(unittest.TestCase):
    def test_the_texts_are_the_system_s(self) -> None:
        specs = SPECS.read_text(encoding="utf-8")
        numbers, texts = {name: int(number) for number, name in NUMBER.findall(specs)}, dict(TEXT.findall(specs))
        self.assertEqual(len(numbers), 16)
        self.assertEqual({name: os.strerror(number) for name, number in numbers.items()}, texts)


if __name__ == "__main__":
    unittest.main()
