"""Neovim without a screen, driven over its own protocol: MessagePack, by the pipes of `nvim --embed --headless`."""
from __future__ import annotations

import os
import select
import shutil
import struct
import subprocess
import time
from pathlib import Path
from typing import Any, Dict, List, Mapping, Tuple

# How long an answer may take on a machine that is busy.
SECONDS = 120.0


class EditorFault(Exception):
    """The editor ended, told an error or didn't come to what was waited for."""


def pack(value: Any) -> bytes:
    """The value in MessagePack: texts, whole numbers, constants, lists and maps."""
    if value is None or isinstance(value, bool):
        return {None: b"\xc0", False: b"\xc2", True: b"\xc3"}[value]
    if isinstance(value, int):
        return struct.pack(">Bq", 0xD3, value)
    if isinstance(value, str):
        text = value.encode()
        return struct.pack(">BI", 0xDB, len(text)) + text
    if isinstance(value, (list, tuple)):
        return struct.pack(">BI", 0xDD, len(value)) + b"".join(map(pack, value))
    if isinstance(value, dict):
        return struct.pack(">BI", 0xDF, len(value)) + b"".join(pack(key) + pack(it) for key, it in value.items())
    raise TypeError(f"{type(value).__name__} isn't packed")


class Short(Exception):
    """There are fewer bytes than the value has."""


# The lengths of what stands behind the first byte of a number.
NUMBERS = {0xCA: ">f", 0xCB: ">d", 0xCC: ">B", 0xCD: ">H", 0xCE: ">I", 0xCF: ">Q", 0xD0: ">b", 0xD1: ">h", 0xD2: ">i", 0xD3: ">q"}
# The form of the length of a text, a list, a map or a type of the editor's own, by its first byte.
TEXTS = {0xC4: ">B", 0xC5: ">H", 0xC6: ">I", 0xD9: ">B", 0xDA: ">H", 0xDB: ">I"}
LISTS = {0xDC: ">H", 0xDD: ">I"}
MAPS = {0xDE: ">H", 0xDF: ">I"}
FIXED = {0xD4: 1, 0xD5: 2, 0xD6: 4, 0xD7: 8, 0xD8: 16}
OWN = {0xC7: ">B", 0xC8: ">H", 0xC9: ">I"}


class Unpacker:
    """Reads values from the bytes that are there."""

    def __init__(self, data: bytes) -> None:
        self.data, self.at = data, 0

    def take(self, count: int) -> bytes:
        """So many bytes. Raises Short."""
        if self.at + count > len(self.data):
            raise Short
        taken = self.data[self.at : self.at + count]
        self.at += count
        return taken

    def number(self, form: str) -> Any:
        """A number of this form. Raises Short."""
        return struct.unpack(form, self.take(struct.calcsize(form)))[0]

    def value(self) -> Any:
        """One value. Raises Short."""
        first = self.take(1)[0]
        if first < 0x80 or first >= 0xE0:
            return first if first < 0x80 else first - 0x100
        if first < 0x90 or first in MAPS:
            return self.map(first & 0x0F if first < 0x90 else self.number(MAPS[first]))
        if first < 0xA0 or first in LISTS:
            return [self.value() for _ in range(first & 0x0F if first < 0xA0 else self.number(LISTS[first]))]
        if first < 0xC0 or first in TEXTS:
            return self.take(first & 0x1F if first < 0xC0 else self.number(TEXTS[first])).decode("utf-8", "replace")
        if first in NUMBERS:
            return self.number(NUMBERS[first])
        if first in FIXED or first in OWN:
            return self.take(1 + (FIXED[first] if first in FIXED else self.number(OWN[first])))
        return {0xC2: False, 0xC3: True}.get(first)

    def map(self, count: int) -> Dict[Any, Any]:
        """A map with so many keys. Raises Short."""
        return {self.value(): self.value() for _ in range(count)}


class Neovim:
    """An editor with one file open."""

    def __init__(self, init: Path, file: Path, environment: Mapping[str, str]) -> None:
        """Raises EditorFault where there is no editor."""
        program = shutil.which("nvim")
        if program is None:
            raise EditorFault("there is no nvim: the package neovim is missing (tools/editors.sh installs it)")
        words = [program, "--embed", "--headless", "--clean", "-u", str(init), str(file)]
        pipes = {"stdin": subprocess.PIPE, "stdout": subprocess.PIPE, "stderr": subprocess.DEVNULL}
        self.process = subprocess.Popen(words, env={**os.environ, **environment}, **pipes)  # type: ignore[call-overload]
        self.read = b""
        self.count = 0

    def call(self, method: str, *arguments: Any) -> Any:
        """What a call of the editor answers. Raises EditorFault where it tells an error."""
        self.count += 1
        self.process.stdin.write(pack([0, self.count, method, list(arguments)]))
        self.process.stdin.flush()
        until = time.monotonic() + SECONDS
        while True:
            kind, number, error, result = (self.message(until) + [None, None])[:4]
            if kind == 1 and number == self.count:
                if error is not None:
                    raise EditorFault(f"{method}: {error}")
                return result

    def message(self, until: float) -> List[Any]:
        """The next message of the editor. Raises EditorFault where none comes."""
        while True:
            try:
                unpacker = Unpacker(self.read)
                message = unpacker.value()
                self.read = self.read[unpacker.at :]
                return list(message)
            except Short:
                pass
            if not select.select([self.process.stdout], [], [], max(0.0, until - time.monotonic()))[0]:
                raise EditorFault("the editor doesn't answer")
            more = os.read(self.process.stdout.fileno(), 1 << 16)
            if not more:
                raise EditorFault("the editor has ended")
            self.read += more

    def lua(self, code: str, *arguments: Any) -> Any:
        """What the Lua code returns; the arguments are `...` there."""
        return self.call("nvim_exec_lua", code, list(arguments))

    def keys(self, keys: str) -> None:
        """Types these keys (`<Esc>`, `<CR>`)."""
        self.call("nvim_input", keys)

    def until(self, code: str, *arguments: Any, seconds: float = SECONDS) -> Any:
        """What the Lua code returns when that is neither nil nor false. Raises EditorFault where it stays so."""
        end = time.monotonic() + seconds
        while True:
            found = self.lua(code, *arguments)
            if found:
                return found
            if time.monotonic() > end:
                raise EditorFault(f"this doesn't come about: {code}")
            time.sleep(0.005)

    def lines(self) -> List[str]:
        """The text of the file, as it stands in the editor."""
        return list(self.call("nvim_buf_get_lines", 0, 0, -1, True))

    def cursor(self) -> Tuple[int, int]:
        """The line, from 1, and the byte in it, from 0."""
        line, column = self.call("nvim_win_get_cursor", 0)
        return line, column

    def close(self) -> None:
        """Ends the editor."""
        try:
            self.call("nvim_command", "qa!")
        except (EditorFault, OSError):
            pass
        for stream in (self.process.stdin, self.process.stdout):
            stream.close()
        try:
            self.process.wait(timeout=10)
        except subprocess.TimeoutExpired:
            self.process.kill()
            self.process.wait()
