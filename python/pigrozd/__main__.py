"""python3 -m pigrozd, and the script pigrozd: the command line."""
import sys

INTERRUPTED = 130


def start() -> None:
    """Runs the command line and ends with its status. An interrupt ends it quietly, also while it is loaded."""
    try:
        from .commandline import main

        status = main()
    except KeyboardInterrupt:
        status = INTERRUPTED
    sys.exit(status)


if __name__ == "__main__":
    start()
