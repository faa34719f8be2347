"""What the tests share: a hub in a process of its own, over the files of the calculator."""
from __future__ import annotations

import os
import random
import shutil
import signal
import socket
import subprocess
import sys
import tempfile
from contextlib import suppress
from pathlib import Path
from typing import List, Tuple

CLONE = Path(__file__).resolve().parents[3]
CLIENTS = CLONE / "clients"
PYTHONPATH = [str(CLIENTS / "python"), str(CLIENTS / "hub")]
sys.path[:0] = [it for it in [*PYTHONPATH, str(CLIENTS / "page" / "tests")] if it not in sys.path]

from page_support import SECONDS, Lines, program, until  # noqa: E402

__all__ = ["SECONDS", "Hub", "Lines", "calculator", "free_port", "program", "run_hub", "until"]
FILES = ["calc.ast", "tree.txt", "calc.jrag"]
ENVIRONMENT = {**os.environ, "PYTHONPATH": os.pathsep.join(PYTHONPATH)}
# With it Python writes at once, and so hides what is left to be written at its end.
ENVIRONMENT.pop("PYTHONUNBUFFERED", None)
# A hub that waits for its last lines as long as a test does: on a busy machine these may take more time than it gives them else.
PATIENT = f"""import sys
import attrd_hub.main
attrd_hub.service.LAST_SECONDS = {SECONDS}
sys.exit(attrd_hub.main.main())
"""


def calculator(folder: Path) -> List[str]:
    """Copies the calculator's files into the folder; their paths: the grammar, the tree, the aspects."""
    return [shutil.copy(CLONE / "samples" / "calculator" / it, folder / it) for it in FILES]


def run_hub(*words: str) -> Tuple[int, str]:
    """The status of a hub that ends by itself, and what it told on standard error."""
    ended = subprocess.run([sys.executable, "-m", "attrd_hub", "--program", program(), *words], timeout=SECONDS, capture_output=True,
                           text=True, env=ENVIRONMENT, check=False)
    return ended.returncode, ended.stdout + ended.stderr


def free_port() -> int:
    """A port of 127.0.0.1 that is free, below those that the system gives to connections: else one of these might have it by then."""
    lowest = int(Path("/proc/sys/net/ipv4/ip_local_port_range").read_text().split()[0])
    while True:
        with socket.socket() as probe, suppress(OSError):
            probe.bind(("127.0.0.1", random.randrange(max(1_024, lowest // 2), max(2_048, lowest))))
            return int(probe.getsockname()[1])


class Hub:
    """A hub that is ready. `folder` has its files, its socket `hub.sock` and its state `state`, and stays until `close`."""

    def __init__(self, *words: str) -> None:
        self.words = words
        self._folder = tempfile.TemporaryDirectory(prefix="attrd-hub-test-")
        self.folder = Path(self._folder.name)
        self.files = calculator(self.folder)
        self.socket = str(self.folder / "hub.sock")
        self.state = self.folder / "state"
        self.log = self.folder / "log"
        self.start()

    def start(self) -> None:
        """Starts it, and waits until it says that it is ready."""
        with socket.socket(socket.AF_UNIX, socket.SOCK_DGRAM) as ready, open(self.log, "ab") as log:
            path = str(self.folder / "notify")
            ready.bind(path)
            ready.settimeout(SECONDS)
            self.process = subprocess.Popen(
                [sys.executable, "-c", PATIENT, "--program", program(), "--socket", self.socket, "--state", str(self.state),
                 *self.words, *self.files], stdout=log, stderr=log, env={**ENVIRONMENT, "NOTIFY_SOCKET": path})
            try:
                told = ready.recv(1_000)
            except socket.timeout:
                raise AssertionError(f"the hub doesn't get ready: {self.told()}") from None
            finally:
                os.unlink(path)
        assert told.startswith(b"READY=1"), told

    def told(self) -> str:
        """What it told on standard error so far."""
        return self.log.read_text("utf-8")

    def client(self) -> Lines:
        """A client of its socket."""
        return Lines(self.socket)

    def program_number(self) -> int:
        """The process of the program."""
        number = self.process.pid
        return int(Path(f"/proc/{number}/task/{number}/children").read_text().split()[0])

    def kill(self, number: int = signal.SIGKILL) -> int:
        """Ends the hub by a signal; its status."""
        self.process.send_signal(number)
        return self.process.wait(timeout=SECONDS)

    def close(self) -> None:
        """Ends it, and removes its folder."""
        if self.process.poll() is None:
            self.kill(signal.SIGTERM)
        self._folder.cleanup()
