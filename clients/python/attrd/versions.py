"""The version of this library, which is that of the program it belongs to."""
from typing import Optional

VERSION = "0.49"


class VersionWarning(UserWarning):
    """A program was started that has another version than this library."""


def misfit(program: str) -> Optional[str]:
    """What is to be told where the program's version isn't the library's; None where the two fit."""
    if program == VERSION:
        return None
    return f"the program has version {program}, and this library {VERSION}: what came with one of them the other may not know"
