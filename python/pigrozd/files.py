"""Files read as streams, and written so that nothing is lost: to a new file in the same folder, which is then renamed.

A FIFO or a device can be read, once and up to its end. It cannot be written: renaming would put a file in its place.
"""
import os
import re
import stat
import tempfile
from typing import BinaryIO, Iterable, List, Tuple

from .messages import InputError

MOST_READ = 2**24  # bytes of an input that are read; the longest file within the rules has 2,359,714
STREAMS = re.compile(r"/dev/(stdin|stdout|stderr)|/dev/fd/.*|/proc/.*")  # these may lead to a regular file


def load(path: str) -> bytes:
    """The bytes of a file."""
    with open(path, "rb") as stream:
        return read_all(stream, path)


def read_all(stream: BinaryIO, called: str) -> bytes:
    """The bytes of a stream up to its end, if it has one."""
    data = stream.read(MOST_READ + 1)
    if len(data) > MOST_READ:
        raise InputError("{} is longer than {:,} bytes, and no input may be so long".format(called, MOST_READ))
    return data


def refuse_target(path: str, inputs: Iterable[str]) -> None:
    """Refuses to write to what is not a regular file or may not be written, and to one of the inputs."""
    if not os.path.basename(path):
        raise InputError("%r is not the name of a file" % path)
    if STREAMS.fullmatch(os.path.abspath(path)):
        raise InputError("%s is no regular file, and only these are written" % path)
    try:
        mode = os.stat(path).st_mode
    except FileNotFoundError:
        return
    if not stat.S_ISREG(mode):
        raise InputError("%s is no regular file, and only these are written" % path)
    if not os.access(path, os.W_OK):
        raise InputError("%s may not be written" % path)
    for other in inputs:
        if os.path.exists(other) and os.path.samefile(path, other):
            raise InputError("%s is read here, so it is not written" % path)


def save(contents: Iterable[Tuple[str, bytes]]) -> None:
    """Writes files, each with its bytes. All are written in full under other names before the first one is renamed."""
    new: List[Tuple[str, str]] = []
    try:
        for path, data in contents:
            target = os.path.realpath(path)
            new.append((new_file(target, path), target))
            write_file(*new[-1], data, path)
        while new:
            os.replace(*new[0])
            del new[0]
    finally:
        for made, _ in new:
            os.unlink(made)


def new_file(target: str, path: str) -> str:
    """Makes an empty file in the folder of the target. An error names the path."""
    try:
        descriptor, made = tempfile.mkstemp(prefix=".pigrozd.", dir=os.path.dirname(target))
    except OSError as error:
        raise OSError(error.errno, error.strerror, path) from None
    os.close(descriptor)
    return made


def rights(target: str) -> int:
    """The rights of a file; those that a new file gets if it is not there."""
    try:
        return stat.S_IMODE(os.stat(target).st_mode)
    except FileNotFoundError:
        mask = os.umask(0)
        os.umask(mask)
        return 0o666 & ~mask


def write_file(made: str, target: str, data: bytes, path: str) -> None:
    """Writes a new file, with the rights of the file that it will replace. An error names the path."""
    try:
        with open(made, "wb") as stream:
            stream.write(data)
            stream.flush()
            os.fsync(stream.fileno())
        os.chmod(made, rights(target))
    except OSError as error:
        raise OSError(error.errno, error.strerror, path) from None
