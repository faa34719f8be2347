"""Serves the hub."""
import importlib.util
import sys
import traceback


def run() -> int:
    """Serves it, where the library that it is made on is there; the exit status."""
    if importlib.util.find_spec("attrd") is None:
        print("attrd_hub: the package attrd is missing: put clients/python on PYTHONPATH, or install it from there", file=sys.stderr)
        return 2
    try:
        from .main import main

        return main()
    except Exception:  # Python's own status would be that of a refused file.
        traceback.print_exc()
        return 3


if __name__ == "__main__":
    sys.exit(run())
