"""What a start would find, without serving: the program, the state, the files, and whether they fit together."""
from __future__ import annotations

import grp
import os
import time
from pathlib import Path
from typing import Callable, List, Optional

from attrd import AttrdError, StartFault
from attrd.programs import program_version
from attrd.versions import VERSION, misfit

from .folder import State, StateFault, read_folder
from .program import Program, Unfit
from .settings import Settings
from .sockets import PATH_BYTES, ServerThere, is_left_over, is_socket
from .status import status_path

SERVES, FAULT, LEAVES_OUT, UNFIT = 0, 3, 4, 5
# A hub that runs writes on: where its folder can't be read, or ends within an edit, it is read so often, and so many seconds apart.
READS, APART = 5, 0.1
Tell = Callable[[str], None]


def is_held(folder: Path) -> bool:
    """Whether a hub has this folder now. It is found without taking the folder's lock, for which a start would have to wait."""
    try:
        found = os.stat(folder / "lock")
        place = f"{os.major(found.st_dev):02x}:{os.minor(found.st_dev):02x}:{found.st_ino}"
        with open("/proc/locks", encoding="ascii") as locks:
            return any(" FLOCK " in it and place in it.split() for it in locks)
    except OSError:
        return False


class Check:
    """Looks at what a start by these settings would read, and tells each finding in a line: `ok:`, `warning:` or `fault:`."""

    def __init__(self, settings: Settings, tell: Tell = print, makes_folder: bool = False) -> None:
        """`makes_folder` tells whether who starts the hub makes the socket's folder before."""
        self.settings, self._tell, self._makes_folder = settings, tell, makes_folder
        self.status = SERVES

    def run(self) -> int:
        """The status: 0 where a start would serve all that was accepted, and 4 where it would leave edits out; else that with which
        it would end."""
        self._look_at_program()
        self._look_at_sockets()
        state = self._read_state() if self.settings.state is not None else None
        if self.status in (SERVES, LEAVES_OUT):
            self._try(state)
        return self.status

    def _fault(self, text: str, status: int = FAULT) -> None:
        self._tell(f"fault: {text}")
        self.status = self.status or status

    def _look_at_program(self) -> None:
        program = self.settings.program
        try:
            version = program_version(program)
        except AttrdError as fault:
            self._fault(str(fault))
            return
        warning = misfit(version)
        self._tell(f"warning: {program}: {warning}" if warning else f"ok: {program} and the hub have version {VERSION}")

    def _look_at_sockets(self) -> None:
        path, readers, group = self.settings.socket, self.settings.read_only_socket, self.settings.group
        for it in (path, path and status_path(path), readers):
            if it:
                self._look_at_place(it)
        try:
            if group is not None:
                grp.getgrnam(group)
        except KeyError:
            self._fault(f"{group}: there is no such group")

    def _look_at_place(self, path: str) -> None:
        """Whether a socket can be made there, as far as that can be seen. One that answers is that of the hub that has the state."""
        folder = os.path.dirname(path) or os.curdir
        if len(os.fsencode(path)) > PATH_BYTES:
            self._fault(f"{path}: the path of a socket has {PATH_BYTES} bytes at most")
        elif not os.path.isdir(folder) and not self._makes_folder:
            self._fault(f"{path}: there is no folder {folder}")
        elif os.path.lexists(path):
            self._look_at_file(path)

    def _look_at_file(self, path: str) -> None:
        state = self.settings.state
        is_ours = is_socket(path) and state is not None and is_held(Path(state))
        try:
            if not is_ours:
                is_left_over(path)
        except ServerThere as fault:
            # Not a fault: without a state, and on some file systems, nobody knows whose it is.
            self._tell(f"warning: {fault}: no start succeeds before its end")
        except AttrdError as fault:
            self._fault(str(fault))

    def _read_state(self) -> Optional[State]:
        """What the state has; None where it has nothing, or what no start goes on from."""
        folder = Path(self.settings.state or "")
        try:
            state = self._read_often(folder) if folder.exists() else None
        except StateFault as fault:
            self._fault(str(fault), UNFIT)
            return None
        except OSError as fault:
            self._fault(f"{fault.filename or folder}: {fault.strerror}")
            return None
        if state is None:
            self._tell(f"ok: {folder} has no tree yet: the first start takes that of {self.settings.files[1]}")
            return None
        self._tell_state(folder, state)
        return state

    def _read_often(self, folder: Path) -> Optional[State]:
        """Reads the folder; that of a hub that runs again, where it was caught in the middle of a change."""
        for left in reversed(range(READS)):
            try:
                state = read_folder(folder)
                if state is None or not state.told or not is_held(folder):
                    return state
            except (OSError, StateFault):
                if not left or not is_held(folder):
                    raise
            time.sleep(APART)
        return state

    def _tell_state(self, folder: Path, state: State) -> None:
        held = ", and a hub has it now" if is_held(folder) else ""
        checked = "its check sum is right" if state.has_sum else "it has no check sum, as one that an earlier version wrote"
        edits = f"{len(state.commands)} edit{'' if len(state.commands) == 1 else 's'}"
        self._tell(f"ok: {folder} has {state.term.name}: {checked}; behind it {edits}, to version {state.version}{held}")
        for text in state.told:
            if state.is_whole:
                self._tell(f"warning: {text}")
            else:
                self._fault(text, LEAVES_OUT)

    def _try(self, state: Optional[State]) -> None:
        """Has the program read the files, and make the edits."""
        files = list(self.settings.files)
        commands: List[bytes] = []
        if state is not None:
            files[1], commands = str(state.term), state.commands
        try:
            program = Program(self.settings.program, files, self.settings.options)
            try:
                program.replay(commands)
            finally:
                program.end()
        except StartFault as fault:
            self._fault(_first_line(fault, files, self.settings.nodes), fault.status if fault.status and fault.status > 0 else FAULT)
        except Unfit as fault:
            self._fault(f"{self.settings.state}: {fault}", UNFIT)
        except AttrdError as fault:
            self._fault(str(fault))
        else:
            self._tell_fit(state)

    def _tell_fit(self, state: Optional[State]) -> None:
        files = " ".join(self.settings.files)
        if state is None:
            self._tell(f"ok: {files} fit together")
        else:
            others = " ".join(it for at, it in enumerate(self.settings.files) if at != 1)
            self._tell(f"ok: {others} fit {state.term.name} and its edits; {self.settings.files[1]} isn't read, since there is a term")


def _first_line(fault: StartFault, files: List[str], nodes: int) -> str:
    from attrd import explain  # loads what reads grammars and trees

    try:
        return str(explain(fault, files, nodes)).splitlines()[0]
    except AttrdError:
        return str(fault).strip().splitlines()[-1]
