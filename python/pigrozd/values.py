"""What a value is: a whole number from 0 to 4,294,967,294, or not recorded. A column is kept as little-endian words.

In a file and in the library's buffers the word 4,294,967,295 is a value that was not recorded. Python programs give
None, NaN, pandas' NA or a masked element of NumPy's for it, and get None. The number itself is refused.

A column of copies (request U9) is no attribute: it holds a whole number from 1 to 65,535 for each row, and never one
that was not recorded.
"""
import array
import collections.abc
import operator
import re
import struct
import sys
from typing import Any, Callable, Iterable, List, Optional, Sequence, Union

from .limits import MOST_COPIES

NOT_RECORDED = 4294967295  # the word of a value that was not recorded
LARGEST = NOT_RECORDED - 1
RANGE = "0 to {:,}".format(LARGEST)
COPIES_RANGE = "1 to {:,}".format(MOST_COPIES)  # of the copies of a row
NO_VALUE = "%d is the word for a value that was not recorded" % NOT_RECORDED
TEXT = re.compile("0*([0-9]{1,10})")
WHOLE_NUMBERS = re.compile("[@=<>!]?[bBhHiIlLqQ]")  # formats of a buffer
LONG_FLOATS = re.compile("[@=<>!]?d")
NO_NUMBERS = {"b": "truth values", "M": "dates", "m": "spans of time", "U": "texts", "S": "bytes"}  # by a dtype's kind

Values = Sequence[Optional[int]]  # None is a value that was not recorded


# ---- words
def word_of_text(text: str) -> Optional[int]:
    """The word that a text spells in decimal, or None if it spells none."""
    digits = TEXT.fullmatch(text.strip(" \t"))
    word = int(digits[1]) if digits else NOT_RECORDED + 1
    return word if word <= NOT_RECORDED else None


def values_of(words: Iterable[int]) -> List[Optional[int]]:
    """The values that words stand for, None for what was not recorded."""
    return [None if word == NOT_RECORDED else word for word in words]


def column_of_words(words: "array.array[int]") -> Values:
    """The column of a result: the words if every value was recorded, or else a list with None."""
    if row_not_recorded(words.tobytes()) is None:
        return words
    return values_of(words)


def row_not_recorded(words: bytes) -> Optional[int]:
    """The first row whose word is that of a value not recorded, or None. The bytes are searched and not unpacked."""
    at = words.find(b"\xff\xff\xff\xff")
    while at > 0 and at % 4:  # these bytes are of two words
        at = words.find(b"\xff\xff\xff\xff", at + 4 - at % 4)
    return at // 4 if at >= 0 else None


# ---- one value
def is_not_recorded(value: Any) -> bool:
    """Whether the value stands for one that was not recorded: None, NaN, pandas' NA, NumPy's masked."""
    if value is None or isinstance(value, float) and value != value:
        return True
    pandas, masked = sys.modules.get("pandas"), sys.modules.get("numpy.ma")
    if pandas and value is getattr(pandas, "NA", None):
        return True
    if not masked or not isinstance(value, masked.MaskedArray):
        return False
    return value.ndim == 0 and not value.dtype.names and bool(value.mask)  # masked itself, or an array of no dimension


def word_of(value: Any) -> int:
    """The word of a value; TypeError or ValueError if it is none."""
    if is_not_recorded(value):
        return NOT_RECORDED
    number = whole_number_of(value)
    if number == NOT_RECORDED:
        raise ValueError(NO_VALUE + "; give None, a masked element or NaN instead")
    if not 0 <= number <= LARGEST:
        raise ValueError("%s is not in %s" % (shown_number(number), RANGE))
    return number


def copies_of(value: Any) -> int:
    """The copies of a row; TypeError or ValueError if it is no number of copies."""
    if is_not_recorded(value):
        raise ValueError("copies that were not recorded; each row has %s" % COPIES_RANGE)
    number = whole_number_of(value)
    if not 1 <= number <= MOST_COPIES:
        raise ValueError("%s is not in %s, which are the copies of a row" % (shown_number(number), COPIES_RANGE))
    return number


def whole_number_of(value: Any) -> int:
    """The whole number that a value is, of any size; TypeError or ValueError if it is none."""
    if isinstance(value, bool) or getattr(getattr(value, "dtype", None), "kind", "") == "b":
        raise TypeError("%s is a truth value, not a number" % value)
    if isinstance(value, float):
        if not value.is_integer():
            raise ValueError("%s is not a whole number" % value)
        return int(value)
    try:
        return operator.index(value)
    except TypeError:
        raise TypeError("%.60r (%s) is not a whole number" % (value, type(value).__name__)) from None


def shown_number(number: int) -> str:
    """A number for an error, if it is not too long."""
    return str(number) if number.bit_length() <= 128 else "a longer number"


# ---- a column
def column_words(values: Any, where: str) -> bytes:
    """A column's values as words. `where` names table and column in an error."""
    refuse_kind(values, where)
    items = items_of(values, where)
    if isinstance(items, bytes):
        row = row_not_recorded(items)
        if row is not None:
            at_row(word_of, NOT_RECORDED, where, row)
        return items
    words: List[int] = []
    for row, value in enumerate(items):
        if type(value) is not int or not 0 <= value <= LARGEST:
            value = at_row(word_of, value, where, row)
        words.append(value)
    return struct.pack("<%dI" % len(words), *words)


def copies_words(values: Any, where: str) -> bytes:
    """The copies of a table's rows as words. `where` names table and column in an error."""
    refuse_kind(values, where)
    items = items_of(values, where)
    if isinstance(items, bytes):
        items = struct.unpack("<%dI" % (len(items) // 4), items)
    words = [at_row(copies_of, value, where, row) for row, value in enumerate(items)]
    return struct.pack("<%dI" % len(words), *words)


def at_row(word: Callable[[Any], int], value: Any, where: str, row: int) -> int:
    """The word of a value, or of copies; its error says where it stands."""
    try:
        return word(value)
    except TypeError as error:
        raise TypeError("%s, row %d: %s" % (where, row, error)) from None
    except ValueError as error:
        raise ValueError("%s, row %d: %s" % (where, row, error)) from None


def refuse_kind(values: Any, where: str) -> None:
    """Refuses what has no order, what can be read once only, and what is no column in another way."""
    why = None
    if isinstance(values, (str, bytes, bytearray)):
        why = "a %s is no column of numbers" % type(values).__name__
    elif isinstance(values, collections.abc.Set):
        why = "a %s has no order; give a list" % type(values).__name__
    elif isinstance(values, collections.abc.Mapping):
        why = "a %s is no column; give a list of its values" % type(values).__name__
    elif isinstance(values, collections.abc.Iterator):
        why = "a %s can be read once only; give a list" % type(values).__name__
    if why:
        raise TypeError("%s: %s" % (where, why))
    dimensions = getattr(values, "ndim", 1)
    if dimensions != 1:
        raise ValueError("%s: a column has one dimension, not %s" % (where, dimensions))
    dtype: Any = getattr(values, "dtype", None)
    dtype = getattr(dtype, "subtype", dtype)  # of pandas' sparse columns
    dtype = getattr(getattr(dtype, "categories", None), "dtype", dtype)  # of pandas' categories
    kind = "U" if getattr(dtype, "type", None) is str else getattr(dtype, "kind", "")  # pandas' texts are objects
    if kind == "f" and getattr(dtype, "itemsize", 8) < 8:
        raise TypeError(
            "%s: %s does not hold every number from %s; give whole numbers or float64" % (where, dtype, RANGE)
        )
    if kind in NO_NUMBERS:
        raise TypeError("%s: a column holds whole numbers, not %s" % (where, NO_NUMBERS[kind]))


def has_masked(values: Any) -> bool:
    """Whether this is a NumPy masked array in which an element is masked."""
    masked = sys.modules.get("numpy.ma")
    return bool(masked and isinstance(values, masked.MaskedArray) and masked.getmaskarray(values).any())


def items_of(values: Any, where: str) -> Union[bytes, Iterable[Any]]:
    """The values one after the other; or their words, if they are held as such."""
    try:
        view = memoryview(values)
    except (TypeError, ValueError, BufferError):
        try:
            return list(values)
        except TypeError:
            raise TypeError(
                "%s: a column is a sequence of whole numbers, not a %s" % (where, type(values).__name__)
            ) from None
    if view.format == "O":
        return list(values)
    if not WHOLE_NUMBERS.fullmatch(view.format) and not LONG_FLOATS.fullmatch(view.format):
        kind = "truth values" if view.format.endswith("?") else "items of the format %r" % view.format
        raise TypeError("%s: a column holds whole numbers, not %s" % (where, kind))
    if has_masked(values):
        return list(values.tolist())  # None for what is masked
    if view.itemsize == 4 and view.format.lstrip("@=<") in ("I", "L") and sys.byteorder == "little":
        return view.tobytes()
    return [item for item, in struct.iter_unpack(view.format, view.tobytes())]
