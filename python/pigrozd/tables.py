"""Tables as Python programs hold them: mappings of columns, pandas DataFrames, NumPy structured arrays; and such
tables with a column that says how often each row stands there (request U9)."""
import collections.abc
import operator
import reprlib
import sys
from dataclasses import dataclass
from typing import Any, Dict, List, Mapping, NamedTuple, Optional, Sequence, Tuple, Union

from .fileformat import table_record
from .limits import ATTRIBUTE_NUMBERS
from .messages import InputError
from .names import Names
from .results import Key, Result
from .values import column_words, copies_words

GivenTables = Union[Mapping[str, Any], Sequence[Any]]  # pandas and NumPy may be missing, so a table has no type here
KINDS = "a mapping of columns, a pandas DataFrame or a NumPy structured array"


@dataclass(frozen=True, eq=False, repr=False)
class Counted:
    """A table one of whose columns, that with the name `copies`, says how often each row stands there: 1 to 65,535
    times. This column is no attribute. A join gives what it gives for the table with each row written out so often."""

    table: Any
    copies: Key

    def __post_init__(self) -> None:
        if isinstance(self.table, Counted):
            raise TypeError("this table has its copies in the column %r already" % (self.table.copies,))
        given_table(self, "the table")

    def __repr__(self) -> str:
        names = tuple(given_table(self, "the table").columns)
        return "<Counted: names %s, copies in %r>" % (reprlib.repr(names), self.copies)


def counted(table: Any, copies: Key) -> Counted:
    """The table with copies of its rows: its column of this name says how often each row stands there, 1 to 65,535
    times, and is no attribute. It is taken wherever a table is.

    table: a mapping of columns, a pandas DataFrame, a NumPy structured array or a Result.
    copies: the column's name; or its number, if the table has numbers for names.
    """
    return Counted(table, copies)


class Copies(NamedTuple):
    """The column of copies of a table that was given: what it is called, and what it holds."""

    key: Key
    values: Any


class Given(NamedTuple):
    """A table that was given: how errors call it, its columns by attribute, and its copies if it has any."""

    called: str
    columns: Mapping[Key, Any]
    copies: Optional[Copies] = None


class Words(NamedTuple):
    """A table as words: its columns by attribute, its copies if it has any, and how many rows it has."""

    columns: Dict[Key, bytes]
    copies: Optional[bytes]
    rows: int


class Records(NamedTuple):
    """Table records, how many there are, how their tables and attributes are called, and the attributes' names or
    numbers by number."""

    data: bytes
    tables_there: int
    names: Names
    keys: Dict[int, Key]


def records_of(tables: GivenTables) -> Records:
    """The records of the tables given."""
    names = Names(unnamed="table %d")
    given: List[Given] = []
    for number, (name, table) in enumerate(named_tables(tables)):
        if name:
            names.tables[number] = name
        called = "table %s" % name if name else "table %d" % number
        given.append(given_table(table, called))
    keys = keys_of(given)
    names.attributes = {number: attribute_in_words(key) for number, key in keys.items()}
    return Records(b"".join(record_of(table, keys) for table in given), len(given), names, keys)


def named_tables(tables: GivenTables) -> List[Tuple[str, Any]]:
    """The tables in their order, each with its name; the name is empty if it has none."""
    if isinstance(tables, collections.abc.Mapping):
        for name in tables:
            if not isinstance(name, str) or not name:
                raise TypeError("tables are named by texts, not by %.60r" % (name,))
        return list(tables.items())
    if isinstance(tables, (list, tuple)):
        return [("", table) for table in tables]
    raise TypeError("tables come in a list, or in a mapping of their names, not in a %s" % type(tables).__name__)


def given_table(table: Any, called: str) -> Given:
    """A table that was given: its columns, and apart from them its copies."""
    if not isinstance(table, Counted):
        return Given(called, columns_of(table, called))
    key, columns = table.copies, dict(columns_of(table.table, called))
    if not isinstance(key, str) and (isinstance(key, bool) or not hasattr(key, "__index__")):
        raise TypeError("%s: the column of copies is given by its name or number, not by %.60r" % (called, key))
    if key not in columns:
        there = ", ".join("%r" % (other,) for other in columns) or "none"
        raise InputError("%s: there is no column %.60r to hold its copies; its columns: %s" % (called, key, there))
    return Given(called, columns, Copies(key, columns.pop(key)))


def columns_of(table: Any, called: str) -> Mapping[Key, Any]:
    """The columns of a table by attribute."""
    pandas, numpy = sys.modules.get("pandas"), sys.modules.get("numpy")
    if isinstance(table, Result):
        return table.columns
    if pandas and isinstance(table, pandas.DataFrame):
        if not table.columns.is_unique:
            raise InputError("%s: two columns of the DataFrame have one name" % called)
        return {label: table[label] for label in table.columns}
    if numpy and isinstance(table, numpy.ndarray) and table.dtype.names:
        if table.ndim != 1:
            raise InputError("%s: a structured array has one dimension, not %d" % (called, table.ndim))
        return {name: table[name] for name in table.dtype.names}
    if not isinstance(table, collections.abc.Mapping):
        raise TypeError("%s: a table is %s, not a %s" % (called, KINDS, type(table).__name__))
    return table


# ---- attributes
def keys_of(given: Sequence[Given]) -> Dict[int, Key]:
    """The attributes by number: numbers stand for themselves, names are numbered in order of first appearance."""
    kinds: Dict[bool, Tuple[str, Any]] = {}  # whether an attribute is a text -> the first such one
    keys: Dict[int, Key] = {}
    for table in given:
        for key in table.columns:
            kinds.setdefault(is_text(key, table.called), (table.called, key))
    if len(kinds) == 2:
        (where, text), (other, number) = kinds[True], kinds[False]
        raise InputError(
            "attributes have names or numbers, not both: %s has %r and %s has %r" % (where, text, other, number)
        )
    for table in given:
        for key in table.columns:
            if not isinstance(key, str):
                keys[operator.index(key)] = operator.index(key)
            elif key not in keys.values():
                keys[len(keys)] = key
    if len(keys) > ATTRIBUTE_NUMBERS:
        raise InputError(
            "the tables have %d attributes together, and at most %d can be joined" % (len(keys), ATTRIBUTE_NUMBERS)
        )
    return keys


def is_text(key: Any, called: str) -> bool:
    """Whether an attribute is given by its name and not by its number; an error if it is given in another way."""
    if isinstance(key, str):
        if not key:
            raise InputError("%s: an attribute without a name" % called)
        return True
    try:
        number = operator.index(key)
    except TypeError:
        number = None
    if number is None or isinstance(key, bool) or key != number:  # what is not equal to its number is not found by it
        raise TypeError("%s: an attribute is a name or a number from 0 to 31, not %.60r" % (called, key))
    if not 0 <= number < ATTRIBUTE_NUMBERS:
        raise InputError("%s: attribute numbers are 0 to 31, not %.60r" % (called, key))
    return False


def attribute_in_words(key: Key) -> str:
    """What an attribute is called in a sentence."""
    return key if isinstance(key, str) else "attribute %d" % key


# ---- records
def record_of(table: Given, keys: Dict[int, Key]) -> bytes:
    """The record of a table. Errors say which column and row is at fault."""
    words = words_of(table, [key for _, key in sorted(keys.items()) if key in table.columns])
    columns = [(number, words.columns[key]) for number, key in sorted(keys.items()) if key in words.columns]
    return table_record(columns, words.rows, words.copies)


def words_of(table: Given, keys: Sequence[Key]) -> Words:
    """A table as words, whose attributes are these. Errors say which column and row is at fault."""
    columns: Dict[Key, bytes] = {}
    for key in keys:
        kind = "column %s" % key if isinstance(key, str) else attribute_in_words(key)
        columns[key] = column_words(table.columns[key], "%s, %s" % (table.called, kind))
    lengths = {attribute_in_words(key): len(words) // 4 for key, words in columns.items()}
    copies = None
    if table.copies:
        copies = copies_words(table.copies.values, "%s, column %s" % (table.called, table.copies.key))
        lengths["column %s of copies" % table.copies.key] = len(copies) // 4
    if len(set(lengths.values())) > 1:
        raise InputError(
            "%s: columns of different length: %s"
            % (table.called, ", ".join("%s has %d" % item for item in lengths.items()))
        )
    return Words(columns, copies, max(lengths.values(), default=0))
