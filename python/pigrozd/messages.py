"""Parts of messages: numbers and lists in whole words; the error for what cannot be used."""
from typing import Sequence


class InputError(ValueError):
    """Something given cannot be used. The text says which file, line, column or option, and why."""


def count(number: int, thing: str) -> str:
    """A number with its noun: 1 row, 4,096 rows, 2 copies."""
    several = thing[:-1] + "ies" if thing.endswith("y") else thing + "s"
    return "{:,} {}".format(number, thing if number == 1 else several)


def listed(names: Sequence[str], last: str = "and") -> str:
    """Names in a sentence: a, b and c."""
    return ", ".join(names[:-1]) + " %s " % last + names[-1] if len(names) > 1 else "".join(names)


def shortened(text: str, most: int = 80) -> str:
    """A text for an error, cut where it is long."""
    return text if len(text) <= most else text[: most - 2] + ".."
