"""The files of a folder that are one tree."""
from __future__ import annotations

import stat
from pathlib import Path
from typing import Dict, Optional, Tuple

from .language import Language
from .language_files import path_of

# When a file was written and how long it is: another file has another stamp.
Stamp = Tuple[int, int]


def folder_of(language: Language, uri: str) -> Optional[Path]:
    """The folder whose files are one tree with that of the URI; None where it is a tree by itself."""
    path = path_of(uri)
    if language.suffix is None or path is None or not path.name.endswith(language.suffix):
        return None
    return path.parent


def files_in(folder: Path, language: Language) -> Dict[Path, Stamp]:
    """The files of the language in the folder, in the order of their names; none where it can't be read."""
    try:
        names = sorted(it for it in folder.iterdir() if it.name.endswith(language.suffix or ""))
    except OSError:
        return {}
    stamps = {it: stamp_of(it) for it in names}
    return {it: stamp for it, stamp in stamps.items() if stamp is not None}


def stamp_of(path: Path) -> Optional[Stamp]:
    """The stamp of a file; None where it is none, or has gone since its folder was read."""
    try:
        status = path.stat()
    except OSError:
        return None
    return (status.st_mtime_ns, status.st_size) if stat.S_ISREG(status.st_mode) else None


def text_of(path: Path) -> Optional[str]:
    """The text of a file; None where it can't be read."""
    try:
        return path.read_bytes().decode("utf-8", "replace")
    except OSError:
        return None
