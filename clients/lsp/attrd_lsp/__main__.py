"""Runs the language server of the tutorial's language."""
import sys

from .small.main import main


def run() -> int:
    """Serves an editor on standard input and output; the exit status."""
    return main()


if __name__ == "__main__":
    sys.exit(run())
