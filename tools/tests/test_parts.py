"""How a module's text is divided in two: each function of the repository in one part, those of libraries where they are needed."""
import re
import sys
import unittest
from pathlib import Path
from typing import List, Set

ROOT = Path(__file__).resolve().parents[2]
sys.path.insert(0, str(ROOT / "bench"))
import parts  # noqa: E402

MODULE = """source_filename = "rattle"
@text = private unnamed_addr constant [1 x i8] c"x", align 1
@table = private constant [2 x ptr] [ptr @"std::kept", ptr @"at_text::word"]

define i32 @main() #0 {
  call void @"attrd::main"()
}

define internal void @"attrd::main"() #0 {
  call void @"at_engine::line"(ptr @text)
  call void @"clap::words"()
  call void @"std::both<at_jrag::Word>"()
}

define internal void @"clap::words"() #0 {
  call void @"std::of_words"()
  call void @"std::both<at_jrag::Word>"()
}

define internal void @"std::of_words"() #0 {
  call void @open(ptr @text)
}

define internal void @"at_engine::line"(ptr %0) #0 {
  call void @"std::only"()
  call void @"std::both<at_jrag::Word>"()
}

define internal void @"std::only"() #0 {
  call void @"at_text::word"()
}

define internal void @"std::both<at_jrag::Word>"() #0 {
  call void @open(ptr null)
}

define internal void @"at_text::word"() #0 {
}

define internal void @"std::kept"() #0 {
  ret void
}

define internal void @"<&at_store::Node as core::eq>::eq"() #0 {
}

declare void @open(ptr)
attributes #0 = { nounwind }"""
# Functions that do the same: of a library, and of each of two crates; @kept is named outside of functions.
SAME = """@table = private constant [1 x ptr] [ptr @"std::kept"]

define internal void @main() #0 {
  call void @"at_text::both"()
  call void @"at_jrag::both"()
}

define internal void @"at_text::both"() #0 {
  call void @"std::outer<1>"()
  call void @"std::outer<2>"()
}

define internal void @"at_jrag::both"() #0 {
  call void @"std::outer<2>"()
  call void @"std::outer<1>"()
}

define internal void @"std::outer<1>"() #0 {
  call void @"std::inner<1>"(i8 1)
}

define internal void @"std::outer<2>"() #0 {
  call void @"std::inner<2>"(i8 1)
}

define internal void @"std::inner<1>"(i8 %0) #0 {
  call void @"std::inner<1>"(i8 %0)
}

define internal void @"std::inner<2>"(i8 %0) #0 {
  call void @"std::inner<2>"(i8 %0)
}

define internal void @"std::other"(i8 %0) #0 {
  call void @"std::inner<2>"(i8 %0)
}

define internal void @"std::kept"(i8 %0) #0 {
  call void @"std::kept"(i8 %0)
}"""
# A function whose slots are filled with zeros at its beginning, two of them again by its sources.
FILLED = """define internal noundef i8 @"at_text::read"(ptr noundef %0) #0 {
  %r1 = alloca [8 x i8], align 8
  %r2 = alloca [4 x i8], align 4
  %r3 = alloca i64, align 8
  call void @llvm.memset.p0.i64(ptr %r1, i8 0, i64 8, i1 false)
  call void @llvm.memset.p0.i64(ptr %r2, i8 0, i64 4, i1 false)
  call void @llvm.memset.p0.i64(ptr %r2, i8 0, i64 4, i1 false)
  call void @llvm.memset.p0.i64(ptr %r3, i8 0, i64 8, i1 false)
  %r4 = load i8, ptr %r1, align 8, !range !7, !noundef !1
  br label %next

next:
  call void @llvm.memset.p0.i64(ptr %r1, i8 0, i64 8, i1 false)
  ret i8 %r4
}"""
UNFILLED = """define internal i8 @"at_text::read"(ptr %0) #0 {
  %r1 = alloca [8 x i8], align 8
  %r2 = alloca [4 x i8], align 4
  %r3 = alloca i64, align 8
  call void @llvm.memset.p0.i64(ptr %r2, i8 0, i64 4, i1 false)
  call void @llvm.memset.p0.i64(ptr %r3, i8 0, i64 8, i1 false)
  %r4 = load i8, ptr %r1, align 8, !range !7
  br label %next

next:
  call void @llvm.memset.p0.i64(ptr %r1, i8 0, i64 8, i1 false)
  ret i8 %r4
}"""
CRATES = ("at_text", "at_jrag", "at_store", "at_engine", "attrd")


class Divided(unittest.TestCase):
    """A module with two crates that answer, two that read, and a library."""

    def setUp(self) -> None:
        self.answering, self.reading = parts.divided(MODULE.split("\n"), CRATES)

    def names(self, text: List[str], begin: str) -> Set[str]:
        """The names in the lines that begin so."""
        return {parts.name_of(it).strip('"') for it in text if it.startswith(begin)}

    def test_a_function_of_the_repository_stands_in_one_part(self) -> None:
        answering, reading = (self.names(it, "define ") for it in (self.answering, self.reading))
        both = {"std::both<at_jrag::Word>", "std::kept"}
        self.assertEqual(answering, {"at_engine::line", "std::only", "<&at_store::Node as core::eq>::eq"} | both)
        self.assertEqual(reading, {"main", "attrd::main", "at_text::word", "clap::words", "std::of_words"} | both)

    def test_what_the_library_of_the_command_line_alone_leads_to_is_not_optimized(self) -> None:
        plain = [it for it in [*self.answering, *self.reading] if "optnone" in it]
        self.assertEqual(plain, [f'define internal void @"{it}"() noinline optnone #0 {{' for it in ("clap::words", "std::of_words")])

    def test_what_the_other_part_calls_is_known_to_it(self) -> None:
        self.assertEqual(self.names(self.answering, "declare hidden "), {"at_text::word"})
        self.assertEqual(self.names(self.reading, "declare hidden "), {"at_engine::line"})
        self.assertEqual(self.names(self.answering, "define hidden "), {"at_engine::line"})
        self.assertEqual(self.names(self.reading, "define hidden "), {"at_text::word"})

    def test_what_is_called_is_defined_or_declared(self) -> None:
        for text in (self.answering, self.reading):
            called = set(re.findall(r'(?:call void|ptr) @"([^"]*)"', "\n".join(text)))
            self.assertLessEqual(called, self.names(text, "define ") | self.names(text, "declare "))

    def test_what_stands_outside_of_functions_is_in_both(self) -> None:
        for line in ('source_filename = "rattle"', "declare void @open(ptr)", "attributes #0 = { nounwind }"):
            self.assertIn(line, self.answering)
            self.assertIn(line, self.reading)


class Filled(unittest.TestCase):
    """Slots that the compiler fills with zeros before anything is in them."""

    def test_what_the_sources_fill_stays(self) -> None:
        self.assertEqual(parts.without_filling(FILLED), UNFILLED)

    def test_a_part_has_no_other_fillings(self) -> None:
        called = 'define i32 @main() #0 {\n  call void @"at_engine::line"(ptr null)\n}\n'
        engine = 'define internal void @"at_engine::line"(ptr noundef %0) #0 {\n  call i8 @"at_text::read"(ptr %0)\n}\n'
        answering, reading = ("\n".join(it) for it in parts.divided((called + engine + FILLED).split("\n"), CRATES))
        self.assertIn(UNFILLED.replace("internal", "hidden"), reading)
        self.assertIn('declare hidden i8 @"at_text::read"(ptr %0) #0', answering)
        self.assertNotIn("noundef", answering + reading)


class Merged(unittest.TestCase):
    """Functions that do the same, word for word."""

    def setUp(self) -> None:
        self.module = parts.Module(SAME.split("\n"))
        self.module.merge(set(CRATES))

    def test_one_of_a_library_stands_for_the_others_and_for_what_calls_them(self) -> None:
        own = {"main", '"at_text::both"', '"at_jrag::both"'}
        self.assertEqual(self.module.functions.keys(), own | {'"std::outer<1>"', '"std::inner<1>"', '"std::other"', '"std::kept"'})
        for name, text in self.module.functions.items():
            self.assertNotIn("<2>", text)
            self.assertEqual(self.module.named[name], set(parts.NAME.findall(text)))

    def test_what_calls_others_or_is_of_another_crate_stays(self) -> None:
        self.assertIn('@"std::inner<1>"(i8 %0)', self.module.functions['"std::other"'])
        for name in ('"at_text::both"', '"at_jrag::both"'):
            self.assertEqual(self.module.functions[name].count('call void @"std::outer<1>"()'), 2)


if __name__ == "__main__":
    unittest.main()
