"""Tables opened once, so that any result of their join is given by its number, without the others, and its number by
the rows and copies that it is made of (requests U6 and U9)."""
import collections.abc
import operator
import sys
import threading
from dataclasses import dataclass
from typing import Any, Dict, Iterator, List, Mapping, Optional, Sequence, Tuple, Union, overload

from . import plans
from .answers import NO_SUCH_RESULT, NOT_A_RESULT, TOO_MANY_RESULTS, NoSuchResult, Refused
from .fileformat import File, number_at, read
from .joining import AnyAnswer, GivenFile, every_pair, followed, loaded, packed, refusal
from .library import HIGHEST_NUMBER, HIGHEST_WORD, ResultAnswer
from .library import call_number_of, call_result_at, whole_number, zeros
from .limits import HIGHEST_COUNT
from .messages import InputError, count, listed
from .names import Names
from .results import Key
from .sizes import Size
from .tables import GivenTables
from .values import NOT_RECORDED, values_of

PAGE = 40  # results that a page has if nothing else is said
ROW_NUMBER, COPY_NUMBER = "row number", "copy number"  # what is given for each table on the way back

RowValues = Tuple[Optional[int], ...]  # the values of a result, None for what was not recorded
GivenNumbers = Union[Sequence[int], Mapping[Key, int]]  # by table number; or by the tables' names or numbers


def open_tables(tables: GivenTables, plan: Optional[plans.GivenPlan] = None) -> "Tables":
    """Opens tables, so that any result of their join can be asked for: Tables, or Refused.

    Tables and plan are given as to `join`. Results are numbered from 0, in the order in which `join` gives them."""
    return Tables(*packed(tables, plan))


def open_file(file: GivenFile) -> "Tables":
    """Opens a file in the same way: Tables, or Refused. `file` is its path, or its bytes.

    Names of attributes and tables are read beside the path, as by `join_file`."""
    return Tables(*loaded(file))


@dataclass(frozen=True)
class ResultRow:
    """One result: its number `n`; its `values`, in the order of the names, None for what was not recorded; the numbers
    of the `rows` that it is made of, one of each table, by table number; and in the same way its `copies`: which copy
    of each of these rows it is made of, from 0. In a table without copies this is 0."""

    n: int
    values: RowValues
    rows: Tuple[int, ...]
    copies: Tuple[int, ...]


class Tables(Sequence[RowValues]):
    """Tables that were opened, as the sequence of the results of their join: tables[n] has the values of result n, a
    tuple in the order of `names`. The library is asked for each result when it is read, and never for others. A slice
    is a ResultSlice, which reads nothing by itself.

    Each time a result is asked for, the library reads and groups the tables once more, as it does for a join before it
    writes. So `join` is the better way to all results. `in`, index() and count() go through them one by one.

    `size` tells how many results there are and how many bytes they take. There must be fewer than
    18,446,744,073,709,551,615 results; else opening is refused with 11. len() goes only as far as Python's does:
    above 9,223,372,036,854,775,807 results it raises OverflowError. A number that no result has raises NoSuchResult,
    which is an IndexError and a Refused with the number 16.

    An object lends its own scratch to the library. Threads that use one object wait for each other; each that is to
    work beside others opens the tables for itself.

    `names` are the attributes and `table_names` the tables in the order of their numbers: names, or numbers if they
    have no names. `plan`, `plan_bytes`, `mended` and `found` tell the plan that is followed, as those of a Result."""

    def __init__(self, data: bytes, called: Names, keys: Optional[Dict[int, Key]] = None) -> None:
        self._data, self._called = data, called
        self._file = read(data, called)
        self._scratch, self._lock = zeros(0), threading.RLock()
        attributes = plans.width(self._file.tables)
        self.names: Tuple[Key, ...] = tuple(keys[a] if keys else a for a in attributes)
        self.table_names: Tuple[Key, ...] = tuple(called.tables.get(t, t) for t in range(len(self._file.tables)))
        self.size = Size(self._counted(), len(attributes))
        self._total = self.size.results
        self.plan, self.plan_bytes, self.mended, self.found = followed(self._file, called)

    def _counted(self) -> int:
        """How many results there are, by answer 16 to a number that none has. The scratch is as long as 10 says."""
        answer, _ = self._asked(HIGHEST_NUMBER)
        if answer.number == 10:
            self._scratch = zeros(answer.detail)
            answer, _ = self._asked(HIGHEST_NUMBER)
        if answer.number != NO_SUCH_RESULT:
            raise self._refusal(answer)
        return answer.detail

    def _asked(self, n: int) -> Tuple[ResultAnswer, Sequence[int]]:
        """The library's answer for result n, and its words."""
        row = zeros(len(self.names))
        with self._lock:
            return call_result_at(self._data, self._scratch, n, row), row

    def _refusal(self, answer: AnyAnswer) -> Refused:
        """What the library refuses whichever result is asked for."""
        if answer.number == TOO_MANY_RESULTS:
            size = Size(answer.detail, len(self.names))
            return Refused(answer.number, answer.detail, too_many(self._file, self._called), size=size)
        return refusal(answer, self._file, self._called)

    # ---- by number
    def result(self, n: int) -> ResultRow:
        """Result number n, from 0, with the rows and copies that it is made of. NoSuchResult if there is none."""
        number = whole_number(n, "the number of a result")
        if number < 0:
            raise InputError("results are numbered from 0 on, not %.60r; tables[-1] is the last one" % n)
        if number > HIGHEST_NUMBER:
            raise no_such_result(number, self._total)
        answer, words = self._asked(number)
        if answer.number == NO_SUCH_RESULT:
            raise no_such_result(number, answer.detail)
        if answer.number:
            raise self._refusal(answer)
        tables = len(self.table_names)
        return ResultRow(number, tuple(values_of(words)), answer.rows[:tables], answer.copies[:tables])

    def __len__(self) -> int:
        return length(self._total)

    def __bool__(self) -> bool:
        return self._total > 0

    @overload
    def __getitem__(self, index: int) -> RowValues: ...

    @overload
    def __getitem__(self, index: slice) -> "ResultSlice": ...

    def __getitem__(self, index: Any) -> Any:
        if isinstance(index, slice):
            return ResultSlice(self, range(self._total)[index])
        n = operator.index(index)
        if not -self._total <= n < self._total:
            raise no_such_result(n, self._total)
        return self.result(n % self._total).values

    def __iter__(self) -> Iterator[RowValues]:
        return iter(self[:])

    def __reversed__(self) -> Iterator[RowValues]:
        return iter(self[::-1])

    def pages(self, size: int = PAGE) -> "Iterator[ResultSlice]":
        """The results in order, so many at a time: ResultSlices, of which the last may be shorter."""
        if whole_number(size, "the size of a page") < 1:
            raise InputError("a page has at least 1 result, not %.60r" % size)
        return (self[start : start + size] for start in range(0, self._total, size))

    def __repr__(self) -> str:
        tables, results = count(len(self.table_names), "table"), count(self._total, "result")
        return "<Tables: %s, %s, names %r>" % (tables, results, self.names)

    # ---- by rows
    def number_of(self, rows: GivenNumbers, copies: Optional[GivenNumbers] = None) -> int:
        """The number of the result that is made of these rows and copies: the way back from result(n).rows and
        result(n).copies.

        rows: the row number of each table, in the order of the tables; or a mapping of the tables' names or numbers to
        row numbers. copies: which copy of each of these rows, given in the same way; without them copy 0 of each row.
        Refused with 17, and why, if no result is made of them."""
        row_numbers = self._by_table(rows, ROW_NUMBER)
        copy_numbers = [0] * len(row_numbers) if copies is None else self._by_table(copies, COPY_NUMBER)
        if all(0 <= number <= HIGHEST_WORD for number in row_numbers + copy_numbers):
            with self._lock:
                answer = call_number_of(self._data, self._scratch, row_numbers, copy_numbers)
            if answer.number == 0:
                return answer.n
            if answer.number != NOT_A_RESULT:
                raise self._refusal(answer)
        raise Refused(NOT_A_RESULT, 0, why_no_result(row_numbers, copy_numbers, self._file, self._called))

    def _by_table(self, numbers: Any, called: str) -> List[int]:
        """Row numbers or copy numbers by table number: of a mapping, or given in order."""
        if isinstance(numbers, collections.abc.Mapping):
            return self._of_mapping(numbers, called)
        return in_order(numbers, called)

    def _of_mapping(self, numbers: Mapping[Any, Any], called: str) -> List[int]:
        """The numbers of a mapping, by table number. Refused if a table has none."""
        given: Dict[int, int] = {}
        for key, number in numbers.items():
            table = self._table_number(key)
            if table in given:
                raise InputError("two %ss are given for %s" % (called, self._called.table(table)))
            given[table] = whole_number(number, "a " + called)
        lacking = [self._called.table(t) for t in range(len(self.table_names)) if t not in given]
        if lacking:
            told = "one %s for each table is wanted, and none is given for %s" % (called, listed(lacking))
            raise Refused(NOT_A_RESULT, 0, told)
        return [given[t] for t in range(len(given))]

    def _table_number(self, key: Any) -> int:
        """The number of a table that is given by its name or number."""
        known = [self._called.table(t) for t in range(len(self.table_names))]
        if isinstance(key, str):
            number = known.index(key) if key in known else len(known)
        else:
            number = whole_number(key, "a table's name is a text, and its number")
        if not 0 <= number < len(known):
            raise InputError("there is no table %.60r; there are %s" % (key, listed(known)))
        return number


class ResultSlice(Sequence[RowValues]):
    """Some of the results of opened tables: those with the `numbers`, a range. They are read one by one, each when it
    is asked for; a slice of a slice reads nothing either. `size` and len() are as those of opened tables."""

    def __init__(self, tables: Tables, numbers: range) -> None:
        self.tables, self.numbers = tables, numbers
        results = (numbers[-1] - numbers[0]) // numbers.step + 1 if numbers else 0  # len() goes less far
        self.size = Size(results, len(tables.names))

    def results(self) -> Iterator[ResultRow]:
        """The results with their numbers and rows, one after the other."""
        return map(self.tables.result, self.numbers)

    def __len__(self) -> int:
        return length(self.size.results)

    def __bool__(self) -> bool:
        return self.size.results > 0

    @overload
    def __getitem__(self, index: int) -> RowValues: ...

    @overload
    def __getitem__(self, index: slice) -> "ResultSlice": ...

    def __getitem__(self, index: Any) -> Any:
        if isinstance(index, slice):
            return ResultSlice(self.tables, self.numbers[index])
        return self.tables.result(self.numbers[index]).values

    def __iter__(self) -> Iterator[RowValues]:
        return (result.values for result in self.results())

    def __reversed__(self) -> Iterator[RowValues]:
        return iter(self[::-1])

    def __repr__(self) -> str:
        there = count(self.tables.size.results, "result")
        return "<ResultSlice: {:,} of {}, {}>".format(self.size.results, there, self.numbers)


def length(results: int) -> int:
    """A number of results as len() gives it. OverflowError if it is more than Python takes of any len()."""
    if results > sys.maxsize:
        told = "there are {:,} results, and len() goes up to {:,}; size.results has their number"
        raise OverflowError(told.format(results, sys.maxsize))
    return results


def in_order(numbers: Any, called: str) -> List[int]:
    """The row numbers or copy numbers that are given in the order of the tables."""
    if isinstance(numbers, collections.abc.Set):
        raise TypeError("a %s has no order; give a list of %ss" % (type(numbers).__name__, called))
    if isinstance(numbers, str) or not isinstance(numbers, collections.abc.Iterable):
        told = "%ss come in a list, or in a mapping of tables, not in a %s"
        raise TypeError(told % (called, type(numbers).__name__))
    return [whole_number(number, "a " + called) for number in numbers]


# ---- in words
def no_such_result(n: int, results: int) -> NoSuchResult:
    """Answer 16 for this number, where there are so many results."""
    why = "there are no results"
    if results:
        there = "there is 1 result, number 0" if results == 1 else "there are {:,} results, numbers 0 to {}"
        told = "no result %d" % n if n.bit_length() <= 128 else "none with such a number"
        why = there.format(results, results - 1) + ", and " + told
    return NoSuchResult(NO_SUCH_RESULT, results, why)


def too_many(file: File, names: Names) -> str:
    """That there are too many results to number them; and which joins match every pair, as these make many."""
    why = "there are {:,} results or more, and results cannot be numbered then".format(HIGHEST_COUNT)
    return why + every_pair(file, names)


def why_no_result(rows: Sequence[int], copies: Sequence[int], file: File, names: Names) -> str:
    """Why no result is made of rows and copies with these numbers, by table number; nothing if one is."""
    tables = file.tables
    for numbers, called in ((rows, ROW_NUMBER), (copies, COPY_NUMBER)):
        if len(numbers) != len(tables):
            named = listed([names.table(t) for t in range(len(tables))])
            given = "none is" if not numbers else "1 is" if len(numbers) == 1 else "%d are" % len(numbers)
            return "one %s for each table is wanted (%s), and %s given" % (called, named, given)
    for t, (row, copy) in enumerate(zip(rows, copies)):
        if not 0 <= row < tables[t].rows:
            return why_none(names.table(t), row, tables[t].rows, "row")
        copies_there = file.copies(tables[t])[row]
        if not 0 <= copy < copies_there:
            return why_none("row %d of %s" % (row, names.table(t)), copy, copies_there, "copy")
    for t in range(len(tables)):
        for u in range(t + 1, len(tables)):
            for a in tables[t].attributes:
                if a in tables[u].attributes and not match(file, a, (t, rows[t]), (u, rows[u])):
                    return why_no_match(file, names, a, (t, rows[t]), (u, rows[u]))
    return ""


def why_none(holder: str, number: int, there: int, thing: str) -> str:
    """That a table has no row with this number, or a row no such copy, and how many there are."""
    has = count(there, thing) + ", numbered from 0" if there else "no %ss" % thing
    told = str(number) if number.bit_length() <= 128 else "with such a number"
    return "%s has no %s %s: it has %s" % (holder, thing, told, has)


TableRow = Tuple[int, int]  # a table's number, and that of one of its rows


def word_at(file: File, attribute: int, at: TableRow) -> int:
    """The word of an attribute in a row of a table."""
    table = file.tables[at[0]]
    return number_at(file.data, table.column(list(table.attributes).index(attribute))[0] + 4 * at[1])


def match(file: File, attribute: int, one: TableRow, other: TableRow) -> bool:
    """Whether two rows have equal and recorded values in an attribute."""
    return word_at(file, attribute, one) == word_at(file, attribute, other) != NOT_RECORDED


def why_no_match(file: File, names: Names, attribute: int, one: TableRow, other: TableRow) -> str:
    """Which values two rows have in an attribute, or that one was not recorded."""
    texts = names.texts.get(attribute, {})
    tables = names.table(one[0]), names.table(other[0])
    places = ["in row %d of %s" % (at[1], table) for at, table in zip((one, other), tables)]
    words = [word_at(file, attribute, at) for at in (one, other)]
    told = "%s and %s do not agree: %s " % (*tables, names.attribute(attribute))
    missing = [place for place, word in zip(places, words) if word == NOT_RECORDED]
    if missing:
        return told + "was not recorded %s, so that it matches nothing" % listed(missing)
    return told + "is " + listed(["%s %s" % (texts.get(word, word), place) for place, word in zip(places, words)])
