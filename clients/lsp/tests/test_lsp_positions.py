"""Texts, their lines, and columns in UTF-16."""
import random
import unittest

import lsp_support  # noqa: F401 (puts the package on the path)
from attrd_lsp.positions import Change, Position, Span, Text, carried, line_starts


class Columns(unittest.TestCase):
    """Lines and columns of the editor against offsets."""

    def test_a_character_beyond_the_first_65536_counts_two(self):
        text = Text.of("a\U0001f600é b\nc")
        self.assertEqual([text.position(it) for it in range(len(text.text) + 1)][:6], [Position(0, it) for it in (0, 1, 3, 4, 5, 6)])
        self.assertEqual(text.position(6), Position(1, 0))
        self.assertEqual(text.offset(Position(0, 3)), 2)
        self.assertEqual(text.offset(Position(0, 2)), 1)

    def test_behind_a_line_is_its_end_and_behind_the_text_its_end(self):
        text = Text.of("ab\ncd")
        self.assertEqual(text.offset(Position(0, 99)), 2)
        self.assertEqual(text.offset(Position(1, 99)), 5)
        self.assertEqual(text.offset(Position(7, 0)), 5)
        self.assertEqual(Text.of("").offset(Position(0, 4)), 0)

    def test_lines_end_in_three_ways(self):
        self.assertEqual(line_starts("a\nb\r\nc\rd"), [0, 2, 5, 7])
        self.assertEqual(Text.of("a\r\nb").line(0), "a")
        self.assertEqual(Text.of("a\r\nb").offset(Position(0, 9)), 1)

    def test_every_offset_comes_back(self):
        text = Text.of("x\u00e9\U0001f600\r\n\n\U0001f600\U0001f600 y\rz\n")
        for offset in range(len(text.text) + 1):
            if text.text[offset - 1 : offset + 1] != "\r\n":
                self.assertEqual(text.offset(text.position(offset)), offset)


class Changes(unittest.TestCase):
    """A text that is changed has the lines of the new text."""

    def test_lines_after_changes_by_chance(self):
        chance = random.Random(1)
        text = Text.of("one\ntwo\nthree\n")
        for _ in range(3000):
            start = chance.randint(0, len(text.text))
            span = Span(start, chance.randint(start, min(len(text.text), start + 5)))
            text = text.changed(span, "".join(chance.choice("ab\n\n\r\U0001f600") for _ in range(chance.randint(0, 4))))
            self.assertEqual(list(text.starts), line_starts(text.text))

    def test_a_change_as_the_editor_tells_it(self):
        text = Text.of("\U0001f600b\ncd")
        self.assertEqual(text.changed_span(Change(Position(0, 2), Position(1, 1), "")), Span(1, 4))
        self.assertEqual(text.changed_span(Change(None, None, "")), Span(0, 5))
        self.assertEqual(text.changed_span(Change(Position(1, 1), Position(0, 0), "")), Span(4, 4))

    def test_what_stands_behind_a_change_moves_with_the_text(self):
        self.assertEqual(Span(5, 8).behind(Span(1, 3), 5), Span(8, 11))
        self.assertEqual(Span(5, 8).behind(Span(9, 12), 0), Span(5, 8))
        self.assertEqual(Span(5, 8).behind(Span(4, 9), 0), Span(4, 4))

    def test_an_offset_of_an_old_text_is_found_in_the_new_one(self):
        old, new = "one two three", "one twenty three"
        self.assertEqual([carried(old.index(it), old, new) for it in ("one", "two", "three")], [0, 4, 11])
        self.assertEqual(carried(len(old), old, new), len(new))
        self.assertEqual(carried(6, old, new), 6)


if __name__ == "__main__":
    unittest.main()
