"""What the system refuses, or has ended in the same moment: the page tells it, and goes on."""
from __future__ import annotations

import argparse
import asyncio
import errno
import tempfile
import unittest
from typing import List
from unittest import mock

from page_support import SECONDS

from attrd import AttrdError
from attrd_page.main import Service
from attrd_page.upstream import Upstream, start_program
from attrd_page.work import Copy, count

FULL = OSError(errno.ENOSPC, "No space left on device")


class Ended:
    """A process that ends just before it is killed, when it was waited for in vain."""

    returncode = 0

    def __init__(self) -> None:
        self.asked: List[str] = []

    async def wait(self) -> int:
        """Waits too long the first time."""
        self.asked.append("wait")
        if self.asked.count("wait") == 1:
            await asyncio.sleep(SECONDS)
        return self.returncode

    def kill(self) -> None:
        """It is too late for that."""
        self.asked.append("kill")
        raise ProcessLookupError


class Refused(unittest.TestCase):
    def test_other_files_for_which_there_is_no_room(self) -> None:
        running = mock.Mock(renewed=mock.AsyncMock(side_effect=FULL))
        service = Service(argparse.Namespace(), running)
        asyncio.run(service._renew())
        running.page.tell_files.assert_called_once_with("[Errno 28] No space left on device")
        self.assertIs(service.running, running)

    def test_a_program_for_which_there_is_no_room(self) -> None:
        with mock.patch.object(tempfile, "TemporaryFile", side_effect=FULL), self.assertRaisesRegex(AttrdError, "No space left on device"):
            asyncio.run(start_program("attrd", ["a", "t", "j"]))

    def test_a_copy_for_which_there_is_no_room(self) -> None:
        with mock.patch.object(tempfile, "TemporaryDirectory", side_effect=FULL):
            self.assertIsNone(asyncio.run(count(["attrd"], "a", ["j"], Copy(1, "A()", [], [], ""), set())))

    def test_a_program_that_ends_before_it_is_killed(self) -> None:
        process = Ended()
        with tempfile.TemporaryFile() as errors, mock.patch("attrd_page.upstream.ENDING_SECONDS", 0.01):
            errors.write(b"work 8\n")
            told = asyncio.run(Upstream(mock.Mock(), mock.Mock(), process, errors).close())  # type: ignore[arg-type]
        self.assertEqual((told, process.asked), ("work 8\n", ["wait", "kill", "wait"]))


if __name__ == "__main__":
    unittest.main()
