"""Serves the page."""
import importlib.util
import sys


def run() -> int:
    """Serves it, where the libraries that it is made on are there; the exit status."""
    for name, folder in (("attrd", "python"), ("attrd_hub", "hub")):
        if importlib.util.find_spec(name) is None:
            print(f"attrd_page: the package {name} is missing: put clients/{folder} on PYTHONPATH, or install it from there", file=sys.stderr)
            return 2
    from .main import main

    return main()


if __name__ == "__main__":
    sys.exit(run())
