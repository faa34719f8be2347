"""A client of `attrd`, the attribute tree server."""
from typing import TYPE_CHECKING, Any, List

if TYPE_CHECKING:
    from .connection import Connection, Pending, accepted
    from .costs import Costs
    from .diagnosing import Check, Diagnostic, Diagnostics, diagnostics
    from .differing import difference
    from .document import Document, Update
    from .edits import Drop, Edit, Insert, Move, Put, SetNode, SetToken, applied
    from .errors import (AspectFault, AttrdError, ConnectionClosed, GrammarFault, LineFault, NoValue, OutOfMemory, ProtocolFault, Refused,
                         ReplyTimeout, ServerLost, ServerRestarted, StartFault, SyntaxFault, TermFault, TreeDiffers,
                         UnknownName)
    from .explaining import Explanation, explain
    from .grammar import ClassOf, Grammar, Part, Shape
    from .measuring import measured
    from .paths import FromMark, Path, Step
    from .programs import (KEPT, forms_options, gathering_options, kept_for, known_options, lasting_options, nodes_of, program_version,
                           sizing_options)
    from .replies import (Answer, AskValue, Circular, Code, Done, Fault, FaultKind, Memory, Ok, Opened, RefusedReply, Reply, Value)
    from .server import Server, Text, connect, start
    from .session import Mark, Question, Session
    from .terms import Node, read_term, write_term
    from .versions import VERSION, VersionWarning
    from .view import View, Views
    from .why import Bounds, Circle, Instance, NoReason, Reason, Why

__all__ = [
    "Answer", "AskValue", "AspectFault", "AttrdError", "Bounds", "Check", "Circle", "Circular", "ClassOf", "Code", "Connection",
    "ConnectionClosed", "Costs", "Diagnostic", "Diagnostics", "Document", "Done", "Drop", "Edit", "Explanation", "Fault",
    "FaultKind", "FromMark", "Grammar", "GrammarFault", "Insert", "Instance", "KEPT", "LineFault", "Mark", "Memory", "Move",
    "NoReason", "NoValue", "Node", "Ok", "Opened", "OutOfMemory", "Part", "Path", "Pending", "ProtocolFault", "Put", "Question",
    "Reason", "Refused", "RefusedReply", "Reply", "ReplyTimeout", "Server", "ServerLost", "ServerRestarted", "Session",
    "SetNode", "SetToken", "Shape", "StartFault", "Step", "SyntaxFault", "TermFault", "Text", "TreeDiffers", "UnknownName",
    "Update", "VERSION", "Value", "VersionWarning", "View", "Views", "Why",
    "accepted", "applied", "connect", "diagnostics", "difference", "explain", "forms_options", "gathering_options", "kept_for",
    "known_options", "lasting_options", "measured", "nodes_of", "program_version", "read_term", "sizing_options", "start", "write_term",
]

# A start is mostly imports, and few clients need all of this: a module is loaded where one of its names is asked for.
_MODULES = {
    "connection": ("Connection", "Pending", "accepted"),
    "costs": ("Costs",),
    "diagnosing": ("Check", "Diagnostic", "Diagnostics", "diagnostics"),
    "differing": ("difference",),
    "document": ("Document", "Update"),
    "edits": ("Drop", "Edit", "Insert", "Move", "Put", "SetNode", "SetToken", "applied"),
    "errors": ("AspectFault", "AttrdError", "ConnectionClosed", "GrammarFault", "LineFault", "NoValue", "OutOfMemory", "ProtocolFault",
               "Refused", "ReplyTimeout", "ServerLost", "ServerRestarted", "StartFault", "SyntaxFault", "TermFault", "TreeDiffers",
               "UnknownName"),
    "explaining": ("Explanation", "explain"),
    "grammar": ("ClassOf", "Grammar", "Part", "Shape"),
    "measuring": ("measured",),
    "paths": ("FromMark", "Path", "Step"),
    "programs": ("KEPT", "forms_options", "gathering_options", "kept_for", "known_options", "lasting_options", "nodes_of",
                 "program_version", "sizing_options"),
    "replies": ("Answer", "AskValue", "Circular", "Code", "Done", "Fault", "FaultKind", "Memory", "Ok", "Opened", "RefusedReply", "Reply",
                "Value"),
    "server": ("Server", "Text", "connect", "start"),
    "session": ("Mark", "Question", "Session"),
    "terms": ("Node", "read_term", "write_term"),
    "versions": ("VERSION", "VersionWarning"),
    "view": ("View", "Views"),
    "why": ("Bounds", "Circle", "Instance", "NoReason", "Reason", "Why"),
}
_MODULE_OF = {name: module for module, names in _MODULES.items() for name in names}


def __getattr__(name: str) -> Any:
    """The name of this package that isn't loaded yet. Raises AttributeError where there is none."""
    if name not in _MODULE_OF:
        raise AttributeError(f"module 'attrd' has no attribute '{name}'")
    from importlib import import_module
    found = globals()[name] = getattr(import_module(f".{_MODULE_OF[name]}", __name__), name)
    return found


def __dir__() -> List[str]:
    return sorted({*globals(), *__all__})
