"""Grammars are refused with the code and the place that the manual and its page of refusals give."""
import unittest

import attrd
from attrd.grammar_reader import read_grammar_bytes
from support import refused_rows


class Refusals(unittest.TestCase):
    def test_codes_and_places(self):
        rows = [row for page in ("MANUAL.md", "REFUSALS.md", "EDGES.md", "FROM_JASTADD.md") for row in refused_rows(page, "x.ast")]
        rows = [(words, text, wanted) for words, text, wanted in rows if not wanted.startswith("J")]
        self.assertGreater(len(rows), 50)
        for words, text, wanted in rows:
            try:
                read_grammar_bytes(text.encode("utf-8", "surrogateescape"), "jastadd" if "jastadd" in words else "")
                told = "accepted"
            except attrd.GrammarFault as fault:
                told = str(fault)
            self.assertEqual(told, wanted, text[:200])
