"""What is kept of a tree on disk: a term, and a journal of the edits that were accepted since.

The folder has `tree-V.txt`, the term of version V, with its check sum in `tree-V.sum`, and `journal-V`, the edits that follow it. A new
term is written beside a running journal: from the version W on edits go to `journal-W`, and only when `tree-W.txt` is whole the files
before it are removed. So at each moment the newest term and the journals behind it, one after the other, make up the tree.
"""
from __future__ import annotations

import errno
import fcntl
import os
import threading
from contextlib import suppress
from pathlib import Path
from typing import List, Optional

from .folder import JOURNAL, SUM, TERM, JournalFault, State, StateFault, read_folder, sum_line, unused_name, versions
from .peers import Peer
from .records import head, record

__all__ = ["SYNCS", "Journal", "JournalFault", "State", "StateFault", "write_all"]
SYNCS = ("each", "second", "never")
# The term of the first start, until the program has taken it.
_FIRST = "tree-0.new"


def write_all(file: int, data: bytes) -> None:
    """Writes all of it. Raises OSError."""
    while data:
        data = data[os.write(file, data):]


def _write_new(path: Path, data: bytes, flags: int = os.O_TRUNC) -> None:
    """Writes a file, and makes it safe; no part of it is left where that fails. Raises OSError."""
    file = os.open(path, os.O_WRONLY | os.O_CREAT | os.O_CLOEXEC | flags, 0o600)
    try:
        write_all(file, data)
        os.fsync(file)
    except OSError:
        with suppress(OSError):
            os.unlink(path)
        raise
    finally:
        os.close(file)


class Journal:
    """Writes the edits. `sync` says when they are made safe against a crash of the machine: with each edit, each second, or never.

    `version` is that of the last edit, `written` that of the last one that stands in the journal; `edits` and `bytes` count what
    stands in the journals since the last whole term. `pending` are the edits that `commit` is to write.
    """

    def __init__(self, folder: Path, sync: str) -> None:
        """Takes the folder for itself, until `close`. Raises JournalFault."""
        self.folder, self.sync = folder, sync
        self.version = self.written = self.edits = self.bytes = 0
        self.pending: List[bytes] = []
        self._file = -1
        self._base = 0
        self._is_synced = True
        self._writing: Optional[threading.Thread] = None
        self._fault: Optional[OSError] = None
        self.term_fault: Optional[str] = None
        self._syncing: Optional[threading.Thread] = None
        try:
            folder.mkdir(mode=0o700, parents=True, exist_ok=True)
            self._lock = os.open(folder / "lock", os.O_RDWR | os.O_CREAT | os.O_CLOEXEC, 0o600)
        except FileExistsError:
            raise JournalFault(f"{folder}: it is a file, and no folder") from None
        except OSError as fault:
            raise _fault(folder, fault) from None
        try:
            fcntl.flock(self._lock, fcntl.LOCK_EX | fcntl.LOCK_NB)
            # It stays open: a term can be begun where the process may open no more files.
            self._directory = os.open(folder, os.O_RDONLY | os.O_CLOEXEC)
        except OSError as fault:
            os.close(self._lock)
            text = "another hub has it" if fault.errno in (errno.EAGAIN, errno.EACCES) else fault.strerror
            raise JournalFault(f"{folder}: {text}") from None

    def open(self, tree: Path) -> State:
        """Reads what is there, and goes on from it: `read` and `begin`. Raises JournalFault."""
        state = self.read(tree)
        self.begin(state)
        return state

    def read(self, tree: Path) -> State:
        """Reads what is there. Nothing of it is changed before `begin`.

        Where the folder has no term yet, that of the file `tree` is version 0. Raises JournalFault.
        """
        try:
            self.wait()
            self._end_file()
            state = read_folder(self.folder)
            if state is None:
                _write_new(self.folder / _FIRST, tree.read_bytes())
                state = State(self.folder / _FIRST, 0, is_first=True)
            return state
        except OSError as fault:
            raise _fault(self.folder, fault) from None

    def begin(self, state: State) -> None:
        """Goes on from what `read` has found, since the program has taken it: keeps the term of a first start, and cuts off what isn't
        right. Raises JournalFault."""
        try:
            if state.is_first:
                self._keep_first(state)
            if state.cut:
                _write_new(self.folder / state.cut_name, state.cut, os.O_EXCL)
            self.bytes = state.length
            self._go_on(self.folder / f"journal-{state.last}", state.last, state.right)
            self._drop(state)
        except OSError as fault:
            raise _fault(self.folder, fault) from None
        self.version = self.written = state.version
        self.edits = len(state.commands)

    def _write_file(self, path: Path, data: bytes) -> None:
        """Writes a file anew: it is there as a whole, or not at all. Raises OSError."""
        new = path.with_name(f"{path.name}.new")
        _write_new(new, data)
        os.rename(new, path)
        os.fsync(self._directory)

    def _keep_first(self, state: State) -> None:
        """The term of the first start gets its name."""
        term = self.folder / "tree-0.txt"
        self._write_file(term.with_suffix(".sum"), sum_line(state.term.read_bytes()))
        os.rename(state.term, term)
        os.fsync(self._directory)
        state.term = term

    def _go_on(self, path: Path, base: int, right: int) -> None:
        """Opens the last journal, behind what is right of it."""
        self._file = os.open(path, os.O_RDWR | os.O_CREAT | os.O_APPEND | os.O_CLOEXEC, 0o600)
        os.ftruncate(self._file, right)
        if not right:
            write_all(self._file, head(base))
            self.bytes += len(head(base))
        if self.sync != "never":
            os.fsync(self._file)
            os.fsync(self._directory)
        self._base = base

    def _drop(self, state: State) -> None:
        """Removes the files before the term, and puts aside journals that don't follow it."""
        for version in state.aside:
            path = self.folder / f"journal-{version}"
            os.rename(path, path.with_name(unused_name(self.folder, path.name)))
        self._remove_before(state.base)
        for left in self.folder.glob("*.new"):
            left.unlink()

    def _remove_before(self, base: int) -> None:
        """Removes the files before the term of this version, and check sums without a term. Raises OSError."""
        for form, name in ((TERM, "tree-{}.txt"), (JOURNAL, "journal-{}"), (SUM, "tree-{}.sum")):
            for version in versions(self.folder, form):
                if version < base or (form is SUM and version > base):
                    (self.folder / name.format(version)).unlink()

    def append(self, version: int, command: bytes, editor: Optional[Peer] = None) -> None:
        """An edit was accepted that made the tree this version. It is written by `commit`. Raises JournalFault where one is missing."""
        if version != self.version + 1:
            raise JournalFault(f"{self.folder}: an edit made the version {version}, and {self.version + 1} is next")
        self.version = version
        self.pending.append(record(version, command, editor))

    def commit(self) -> None:
        """Writes the edits so far: before a client is told that they are accepted. Raises JournalFault."""
        if not self.pending:
            return
        data = b"".join(self.pending)
        self.edits += len(self.pending)
        self.pending.clear()
        try:
            write_all(self._file, data)
            self.written = self.version
            self.bytes += len(data)
            self._is_synced = False
            if self.sync == "each":
                self._make_safe()
        except OSError as fault:
            raise _fault(self.folder, fault) from None

    def _make_safe(self) -> None:
        """Makes what was written safe against a crash of the machine. Raises OSError."""
        if not self._is_synced:
            os.fdatasync(self._file)
            self._is_synced = True

    def tick(self) -> None:
        """Makes the edits safe in a thread, where that is done each second: is called about as often. Raises JournalFault."""
        if self._fault is not None:
            raise _fault(self.folder, self._fault)
        if self.sync == "second" and not self._is_synced and (self._syncing is None or not self._syncing.is_alive()):
            self._begin_sync()

    def _begin_sync(self) -> None:
        """Where the system has no descriptor or no thread for that, it is waited for. Raises JournalFault."""
        file = -1
        try:
            file = os.dup(self._file)
            self._syncing = threading.Thread(target=self._sync, args=(file,), daemon=True)
            self._is_synced = True
            self._syncing.start()
        except (OSError, RuntimeError):
            self._syncing, self._is_synced = None, False
            if file >= 0:
                os.close(file)
            try:
                self._make_safe()
            except OSError as fault:
                raise _fault(self.folder, fault) from None

    def _sync(self, file: int) -> None:
        try:
            os.fdatasync(file)
        except OSError as fault:
            self._fault = fault
        finally:
            os.close(file)

    @property
    def is_writing(self) -> bool:
        """Whether a term is being written."""
        return self._writing is not None and self._writing.is_alive()

    def renew(self, term: bytes) -> None:
        """Begins a new journal at this version, and writes its term beside it in a thread. Raises JournalFault."""
        self.commit()
        self.wait()
        base = self.version
        if base == self._base:
            return
        try:
            if self.sync != "never":
                self._make_safe()
        except OSError as fault:
            raise _fault(self.folder, fault) from None
        if not self._begin_next(base):
            return
        writing = threading.Thread(target=self._write_term, args=(base, term + b"\n"), daemon=True)
        try:
            writing.start()
        except RuntimeError as fault:
            self.term_fault = f"{self.folder}: the term of version {base} can't be written: {fault}"
            return
        self._writing = writing

    def _begin_next(self, base: int) -> bool:
        """Begins the journal behind this version; whether it has begun. Where the system has no room or no descriptor for it, edits go on
        behind those before, and `term_fault` tells why."""
        path, before, self._file = self.folder / f"journal-{base}", self._file, -1
        self.edits = self.bytes = 0
        try:
            self._go_on(path, base, 0)
        except OSError as fault:
            self._end_file()
            with suppress(OSError):
                os.unlink(path)
            # It is tried again when there are as many edits more.
            self._file, self.bytes = before, 0
            self.term_fault = f"{self.folder}: the term of version {base} can't be written: {fault.strerror}"
            return False
        os.close(before)
        return True

    def _write_term(self, base: int, term: bytes) -> None:
        """Writes the term, and removes the files before it. Where it can't be written all stays as it is, and `term_fault` tells why."""
        try:
            self._write_file(self.folder / f"tree-{base}.sum", sum_line(term))
            self._write_file(self.folder / f"tree-{base}.txt", term)
            self._remove_before(base)
        except OSError as fault:
            self.term_fault = f"{self.folder}: the term of version {base} can't be written: {fault.strerror}"

    def wait(self) -> None:
        """Waits until the term that is being written is there."""
        if self._writing is not None:
            self._writing.join()
            self._writing = None

    def _end_file(self) -> None:
        if self._file >= 0:
            os.close(self._file)
            self._file = -1

    def close(self) -> None:
        """Lets go of the folder. Edits that weren't written are left out, and so is a first term that the program hasn't taken."""
        self.wait()
        self._end_file()
        with suppress(OSError):
            os.unlink(self.folder / _FIRST)
        os.close(self._directory)
        os.close(self._lock)


def _fault(folder: Path, fault: OSError) -> JournalFault:
    return JournalFault(f"{fault.filename or folder}: {fault.strerror or fault}")
