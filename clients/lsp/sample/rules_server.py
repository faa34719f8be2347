"""The language server of the sample language: `python3 rules_server.py --program PROGRAM`."""
import sys
from pathlib import Path

from attrd_lsp import Language, Listed, Symbol, serve

from rules_parser import parse

HERE = Path(__file__).resolve().parent
RULES = Language(
    HERE / "rules.ast", [HERE / "rules.jrag"], parse,
    errors=["error"], warnings=["warning"], meaning={"Use": ["decl"]}, lookup={"Item": ["lookup"], "Expr": ["lookup"]},
    hover={"Item": "told", "Use": "told"}, kinds={"Rule": Symbol.FUNCTION, "Token": Symbol.CONSTANT}, fixes={"Literal": "fix"},
    words=["token"], listed=Listed("Program", "File", "File"), suffix=".rules",
)  # fmt: skip

if __name__ == "__main__":
    sys.exit(serve(RULES))
