"""Faults of a server itself, or of the system below it: one thing fails by them, and the server goes on."""
from __future__ import annotations

import sys
import traceback
from contextlib import suppress

from attrd import AttrdError

from .rpc import INTERNAL_ERROR, Failure

FAULTS = (ArithmeticError, AssertionError, AttrdError, AttributeError, LookupError, OSError, RuntimeError, TypeError, ValueError)


def failure_of(fault: Exception) -> Failure:
    """What the editor is told of a fault. Where it came from is written on standard error, as long as somebody reads that."""
    with suppress(OSError, ValueError):
        traceback.print_exception(type(fault), fault, fault.__traceback__, file=sys.stderr)
    return Failure(INTERNAL_ERROR, f"a fault of the language server itself: {type(fault).__name__}: {fault}")
