"""`python3 -m attrd_aspects`: see `main`."""
import sys

from .main import main


def run() -> None:
    """Ends the process with the status of the server."""
    sys.exit(main())


if __name__ == "__main__":
    run()
