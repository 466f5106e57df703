"""The names of attributes and tables, and FILE.names, a text file beside FILE that keeps them:

    sha256 6b3c..       the file that these names belong to has this digest
    0 frame             attribute 0 is called frame
    table 0 frames      table 0 is called frames
    copies times        the column of copies is called times
    text 1 7 dark       value 7 of attribute 1 stands for the text dark

A name goes on to the end of its line. Lines that begin with # and empty lines say nothing. Without a digest the names
are taken as they are: so they can be written by hand. With one that is not the file's, all of them are left out.
"""
import hashlib
import itertools
import os
import re
from typing import Any, Callable, Dict, Iterable, Optional, Set, Tuple

from .files import load
from .limits import ATTRIBUTE_NUMBERS, MOST_TABLES
from .values import LARGEST
from .messages import InputError

NAMES_ENDING = ".names"
LINE = re.compile(r"(?:(?P<table>table) |text (?P<text>[0-9]{1,2}) )?(?P<number>[0-9]{1,10}) (?P<name>.*)")
COPIES_LINE = "copies "  # how the line begins that names the column of copies
COPIES = "copies"  # what that column is called if it has no name
DIGEST_LINE = re.compile(r"^sha256 ([0-9a-f]{64})\r?$", re.MULTILINE)


class Names:
    """The names in a file: of attributes and tables by number, and the texts that values stand for, by attribute.

    `copies` is the name of the column of copies, the same in all tables that have one; it is empty if it has no name.
    `unnamed` is what a table without a name is called, with %d for its number."""

    def __init__(self, unnamed: str = "table%d") -> None:
        self.attributes: Dict[int, str] = {}
        self.tables: Dict[int, str] = {}
        self.texts: Dict[int, Dict[int, str]] = {}
        self.copies = ""
        self.unnamed = unnamed

    def attribute(self, number: int) -> str:
        """The attribute's name; a0, a1 and so on without one."""
        return self.attributes.get(number) or unused("a%d" % number, [*self.attributes.values(), self.copies])

    def table(self, number: int) -> str:
        """The table's name; table0, table1 and so on without one."""
        return self.tables.get(number) or unused(self.unnamed % number, self.tables.values())

    def copies_column(self) -> str:
        """The name of the column of copies; copies without one, or copies_2 and so on if an attribute is called so."""
        return self.copies or free_copies_name(self.attributes.values())

    def table_in_plan(self, number: int) -> str:
        """What the text of a plan calls the table: its name, or its number if it has none that can stand there."""
        name = self.tables.get(number, '"')
        return str(number) if '"' in name else name

    def list(self, attributes: Iterable[int]) -> str:
        """The names of these attributes in one text."""
        return ", ".join(map(self.attribute, attributes))


def unused(name: str, taken: Iterable[str]) -> str:
    """The name, lengthened until nothing else is called so."""
    while name in taken:
        name += "_"
    return name


def free_copies_name(taken: Iterable[Any]) -> str:
    """A name for a column of copies that is not taken: copies, copies_2, copies_3 and so on."""
    known = set(taken)
    further = (COPIES + "_%d" % number for number in itertools.count(2))
    return next(name for name in itertools.chain([COPIES], further) if name not in known)


def fault_of_attribute_name(name: str) -> Optional[str]:
    """What is wrong with a name for an attribute, or None."""
    if not name:
        return "an attribute without a name"
    if re.search(r"[\r\n\0\ud800-\udfff]", name):
        return "a line break, a zero or a letter that is not UTF-8 in the name of an attribute"
    return None


def fault_of_copies_name(name: str) -> Optional[str]:
    """What is wrong with a name for the column of copies, or None."""
    if not name:
        return "a column of copies without a name"
    fault = fault_of_attribute_name(name)
    return fault and fault.replace("an attribute", "a column of copies")


def fault_of_table_name(name: str) -> Optional[str]:
    """What is wrong with a name for a table, or None. It is also the name of a file in a folder."""
    if not name or name in (".", "..") or re.search(r'[/\\"\0\r\n\ud800-\udfff]', name):
        return "%r cannot be the name of a table" % name
    return None


# ---- FILE.names
def digest(data: bytes) -> str:
    """The SHA-256 digest of a file's bytes, in hexadecimal."""
    return hashlib.sha256(data).hexdigest()


def digest_in(text: str) -> Optional[str]:
    """The digest in a file of names, or None."""
    found = DIGEST_LINE.search(text)
    return found[1] if found else None


def names_text(names: Names, data: bytes) -> str:
    """The file of names of the file with these bytes."""
    lines = ["sha256 " + digest(data)]
    lines += ["%d %s" % item for item in sorted(names.attributes.items())]
    lines += ["table %d %s" % item for item in sorted(names.tables.items())]
    lines += [COPIES_LINE + names.copies] if names.copies else []
    lines += [
        "text %d %d %s" % (a, v, text) for a in sorted(names.texts) for v, text in sorted(names.texts[a].items())
    ]
    return "".join(line + "\n" for line in lines)


def names_in(text: str, path: str) -> Names:
    """The names in a file of names."""
    names = Names()
    seen: Set[Tuple[int, str]] = set()
    for at, line in enumerate(text.split("\n"), 1):
        line = line.rstrip("\r")
        if not line.strip() or line.startswith("#") or DIGEST_LINE.fullmatch(line):
            continue
        try:
            read_line(line, names, seen)
        except InputError as error:
            raise InputError("%s, line %d: %s" % (path, at, error)) from None
    return names


def read_line(line: str, names: Names, seen: Set[Tuple[int, str]]) -> None:
    """Takes one line into the names. `seen` has the names before it, each with the dictionary that it is in."""
    if line.startswith(COPIES_LINE):
        read_copies_name(line[len(COPIES_LINE) :].strip(), names, seen)
        return
    found = LINE.fullmatch(line)
    if not found:
        raise InputError(
            "expected NUMBER NAME, table NUMBER NAME, text ATTRIBUTE VALUE TEXT or copies NAME, found %r" % line[:80]
        )
    number, name, fault = int(found["number"]), found["name"], None
    if found["text"]:
        known, most = names.texts.setdefault(int(found["text"]), {}), LARGEST
        fault = None if name.strip() else "the text is empty, and an empty cell is a value that was not recorded"
    elif found["table"]:
        known, most, fault = names.tables, MOST_TABLES - 1, fault_of_table_name(name)
    else:
        name = name.strip()
        known, most, fault = names.attributes, ATTRIBUTE_NUMBERS - 1, fault_of_attribute_name(name)
    if fault:
        raise InputError(fault)
    if number > most or int(found["text"] or 0) >= ATTRIBUTE_NUMBERS:
        raise InputError("the number is too high")
    if number in known:
        raise InputError("%d has a name already" % number)
    if (id(known), name) in seen:
        raise InputError("%r is named already" % name)
    known[number] = name
    seen.add((id(known), name))


def read_copies_name(name: str, names: Names, seen: Set[Tuple[int, str]]) -> None:
    """Takes the name of the column of copies. It stands in a line with those of attributes, so none is called so."""
    fault = fault_of_copies_name(name)
    if names.copies:
        fault = "the column of copies has a name already"
    elif (id(names.attributes), name) in seen:
        fault = "%r is named already" % name
    if fault:
        raise InputError(fault)
    names.copies = name
    seen.add((id(names.attributes), name))


def load_beside(path: str) -> Optional[bytes]:
    """The bytes of FILE.names for the file at this path, or None if there is no such file."""
    return load(path + NAMES_ENDING) if os.path.isfile(path + NAMES_ENDING) else None


def names_beside(path: str, data: bytes, warn: Callable[[str], None]) -> Names:
    """The names in FILE.names for the file at this path with these bytes; none if there is no such file.

    Names that belong to another file are left out, and `warn` is told so."""
    loaded = load_beside(path)
    if loaded is None:
        return Names()
    try:
        text = loaded.decode("utf-8-sig")
    except UnicodeDecodeError:
        raise InputError("%s%s: not UTF-8 text" % (path, NAMES_ENDING)) from None
    if digest_in(text) not in (None, digest(data)):
        warn(
            "%s%s belongs to another file than %s: its digest differs, and its names are left out"
            % (path, NAMES_ENDING, path)
        )
        return Names()
    return names_in(text, path + NAMES_ENDING)
