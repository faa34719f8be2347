"""For those who write grammars and aspects: what names in them mean, and all faults at once."""
from typing import TYPE_CHECKING, Any, List

if TYPE_CHECKING:
    from .checked import Checked, check, checking
    from .circling import Note, circles
    from .completing import completions
    from .finding import Finding
    from .folding import FoldNote, searches, searches_of
    from .meaning import Meaning, Names, Place
    from .specification import Source, Specification
    from .tree_checking import check_tree

__all__ = ["Checked", "Finding", "FoldNote", "Meaning", "Names", "Note", "Place", "Source", "Specification", "check", "check_tree",
           "checking", "circles", "completions", "searches", "searches_of"]

# Most clients read aspects alone: a module is loaded where one of its names is asked for.
_MODULES = {
    "checked": ("Checked", "check", "checking"),
    "circling": ("Note", "circles"),
    "completing": ("completions",),
    "finding": ("Finding",),
    "folding": ("FoldNote", "searches", "searches_of"),
    "meaning": ("Meaning", "Names", "Place"),
    "specification": ("Source", "Specification"),
    "tree_checking": ("check_tree",),
}
_MODULE_OF = {name: module for module, names in _MODULES.items() for name in names}


def __getattr__(name: str) -> Any:
    """The name of this package that isn't loaded yet. Raises AttributeError where there is none."""
    if name not in _MODULE_OF:
        raise AttributeError(f"module 'attrd.authoring' has no attribute '{name}'")
    from importlib import import_module
    found = globals()[name] = getattr(import_module(f".{_MODULE_OF[name]}", __name__), name)
    return found


def __dir__() -> List[str]:
    return sorted({*globals(), *__all__})
