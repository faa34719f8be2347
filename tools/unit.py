"""Runs tests of unittest, all or those that are named, and tells how many passed and which took longest."""
import time
import unittest
from typing import Iterator, List, Sequence, Tuple


class Timed(unittest.TextTestResult):
    """A result that knows how many seconds each test took."""

    seconds: List[Tuple[float, str]]
    began = 0.0

    def startTest(self, test: unittest.TestCase) -> None:
        if not hasattr(self, "seconds"):
            self.seconds = []
        self.began = time.monotonic()
        super().startTest(test)

    def stopTest(self, test: unittest.TestCase) -> None:
        self.seconds.append((time.monotonic() - self.began, name_of(test)))
        super().stopTest(test)


def name_of(test: unittest.TestCase) -> str:
    """The test's name, without its module's."""
    return ".".join(test.id().split(".")[-2:])


def each(tests: unittest.TestSuite) -> Iterator[unittest.TestCase]:
    """The tests of a suite, one by one."""
    for test in tests:
        if isinstance(test, unittest.TestSuite):
            yield from each(test)
        else:
            yield test


def named(tests: unittest.TestSuite, parts: Sequence[str]) -> unittest.TestSuite:
    """The tests whose names have one of these parts; all where there is none."""
    return unittest.TestSuite(it for it in each(tests) if not parts or any(part in name_of(it) for part in parts))


def tell_slowest(seconds: Sequence[Tuple[float, str]], count: int) -> None:
    """Prints so many names with the seconds that they took, the slowest first."""
    for spent, name in sorted(seconds, reverse=True)[:count]:
        print(f"{spent:7.2f} s  {name}")


def run(tests: unittest.TestSuite, slowest: int = 0) -> int:
    """Runs the tests and tells so many of the slowest ones; the last line is 'N passed, M failed'. Gives the status, 1 where one fails."""
    result = unittest.TextTestRunner(verbosity=1, resultclass=Timed).run(tests)
    assert isinstance(result, Timed)
    tell_slowest(getattr(result, "seconds", []), slowest)
    for test, reason in result.skipped:
        print(f"skipped: {test.id()}: {reason}")
    wrong = {it.id().partition(" ")[0] for it, _ in [*result.failures, *result.errors]} | {it.id() for it in result.unexpectedSuccesses}
    print(f"{max(0, result.testsRun - len(wrong) - len(result.skipped))} passed, {len(wrong)} failed")
    return 0 if result.wasSuccessful() and result.testsRun else 1
