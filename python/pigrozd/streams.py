"""Standard input, output and error of a command, also where they are closed, full or no longer read."""
import errno
import os
import sys
from typing import BinaryIO

from .files import read_all
from .messages import InputError

PROGRAM = "pigrozd"


def tell(text: str, prefix: str = PROGRAM + ": ") -> None:
    """Writes a message to standard error. If that cannot be written, nobody can be told."""
    try:
        if sys.stderr is not None:
            sys.stderr.write("%s%s\n" % (prefix, text))
            sys.stderr.flush()
    except (OSError, ValueError):
        drop(sys.stderr)


def write_out(text: str) -> None:
    """Writes a text to standard output, in UTF-8 whatever the locale, and in full. OSError names it if it is full."""
    if sys.stdout is None:
        raise InputError("standard output is closed")
    try:
        if hasattr(sys.stdout, "buffer"):
            sys.stdout.flush()
            write_all(sys.stdout.buffer, text.encode("utf-8", "surrogateescape"))
        else:
            sys.stdout.write(text)
    except BrokenPipeError:
        drop(sys.stdout)
        raise
    except OSError as error:
        drop(sys.stdout)
        raise OSError(error.errno, error.strerror, "standard output") from None


def write_all(stream: BinaryIO, data: bytes) -> None:
    """Writes all bytes. A stream without a buffer (PYTHONUNBUFFERED) may take a part of them at a time."""
    rest = memoryview(data)
    while rest:
        taken = stream.write(rest)
        if taken is None:
            raise BlockingIOError(errno.EAGAIN, os.strerror(errno.EAGAIN))
        rest = rest[taken:]
    stream.flush()


def standard_input() -> bytes:
    """All of standard input."""
    if sys.stdin is None:
        raise InputError("standard input is closed")
    return read_all(sys.stdin.buffer, "standard input")


def drop(stream: object) -> None:
    """Lets a stream that cannot be written go to nowhere, so that Python does not try again when it ends."""
    try:
        nowhere = os.open(os.devnull, os.O_WRONLY)
        os.dup2(nowhere, stream.fileno())  # type: ignore[attr-defined]
        os.close(nowhere)
    except (OSError, ValueError, AttributeError):
        pass
