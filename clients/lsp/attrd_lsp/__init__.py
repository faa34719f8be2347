"""A language server over `attrd`, for any language: `serve(Language(..))`.

Raises ImportError where the library that it is made on is missing."""
import importlib.util

if importlib.util.find_spec("attrd") is None:
    raise ImportError("the package attrd is missing: put clients/python on PYTHONPATH, or install it from there")

from .language import Language, Listed, plain_name  # noqa: E402
from .main import serve  # noqa: E402
from .phrases import Fault, Parsed, Phrase, phrase  # noqa: E402
from .positions import Span  # noqa: E402
from .protocol import Symbol  # noqa: E402

__all__ = ["Fault", "Language", "Listed", "Parsed", "Phrase", "Span", "Symbol", "phrase", "plain_name", "serve"]
