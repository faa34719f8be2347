"""The one stream to the server: the pipes of a program that is started here, or its socket."""
from __future__ import annotations

import asyncio
import tempfile
from contextlib import suppress
from dataclasses import dataclass
from typing import IO, List, Optional, Sequence

from attrd import AttrdError
from attrd.errors import StartFault
from attrd.programs import cannot_start, start_fault

ENDING_SECONDS = 10.0


@dataclass
class Upstream:
    """Bytes to the server and from it. `process` is the program, where it was started here."""

    reader: asyncio.StreamReader
    writer: asyncio.StreamWriter
    process: Optional[asyncio.subprocess.Process] = None
    errors: Optional[IO[bytes]] = None

    async def close(self) -> str:
        """Ends the stream; what the program wrote on standard error, where it was started here."""
        self.writer.close()
        if self.process is None or self.errors is None:
            return ""
        try:
            await asyncio.wait_for(self.process.wait(), ENDING_SECONDS)
        except asyncio.TimeoutError:
            with suppress(ProcessLookupError):
                self.process.kill()
            await self.process.wait()
        return self._told()

    def _told(self) -> str:
        assert self.errors is not None
        if self.errors.closed:
            return ""
        self.errors.seek(0)
        with self.errors:
            return self.errors.read().decode("utf-8", "replace")

    async def fault(self) -> StartFault:
        """Why a program ended before it answered a line."""
        told = await self.close()
        return start_fault(self.process.returncode if self.process else None, told)


async def start_program(program: str, files: Sequence[str], options: Sequence[str] = ()) -> Upstream:
    """Starts the program with pipes. Raises AttrdError where it can't be started."""
    try:
        errors = tempfile.TemporaryFile()
    except OSError as fault:
        raise cannot_start(program, fault) from None
    words: List[str] = [program, *options, "--", *files]
    try:
        process = await asyncio.create_subprocess_exec(
            *words, stdin=asyncio.subprocess.PIPE, stdout=asyncio.subprocess.PIPE, stderr=errors, start_new_session=True)
    except (OSError, ValueError) as fault:
        errors.close()
        raise cannot_start(program, fault) from None
    assert process.stdin is not None and process.stdout is not None
    return Upstream(process.stdout, process.stdin, process, errors)


async def connect(path: str) -> Upstream:
    """A connection to the socket of a program that runs already. Raises AttrdError where none can be made."""
    try:
        reader, writer = await asyncio.open_unix_connection(path)
    except (OSError, ValueError) as fault:
        raise AttrdError(f"{path}: no connection: {getattr(fault, 'strerror', None) or fault}") from None
    return Upstream(reader, writer)
