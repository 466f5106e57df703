"""Joins of tables and of files, and how many results they have."""
import os
import warnings
from typing import Dict, Optional, Tuple, Union

from . import plans
from .answers import IN_FILE, MEANINGS, TOO_MANY_CHOICES, TOO_MANY_RESULTS, Refused
from .fileformat import File, plan_record, read
from .files import load
from .library import Answer, BytesLike, Engine, NumberAnswer, ResultAnswer, SlowAnswer
from .library import bytes_of, call_slow_with_enough, call_with_enough, call_with_scratch, engine_named, zeros
from .limits import MOST_CHOICES, MOST_OUTPUT
from .names import Names, names_beside
from .results import Key, Result
from .sizes import Size
from .tables import GivenTables, records_of
from .values import Values, column_of_words

GivenFile = Union[str, "os.PathLike[str]", BytesLike]  # its path, or its bytes
AnyAnswer = Union[Answer, SlowAnswer, ResultAnswer, NumberAnswer]

NO_COUNTS = (None, None, None, None)  # of a result that the slow engine gave


def join(tables: GivenTables, plan: Optional[plans.GivenPlan] = None, engine: Engine = "join") -> Result:
    """Joins tables, by a plan or without one: a Result, or Refused.

    tables: a list of tables, or a mapping of table names to tables. A table is a mapping of attributes to columns, a
    pandas DataFrame, a NumPy structured array, or a Result; or one of these with copies of its rows, as `counted` and
    `fold` give them. An attribute is a name or a number from 0 to 31, in all tables alike. None, NaN and masked values
    are not recorded: they match nothing, and come back as None.

    plan: a table's name or number, or a pair of plans, such as ("frames", ("exposures", "readings")); or a text, such
    as "(frames (exposures readings))"; or the plan's bytes, as a file has them. Without a plan, or with no bytes, the
    library finds one if there is one. A plan that is not well-behaved is mended. The result names the plan that was
    followed.

    engine: "join"; or "slow" for the slow engine, which goes through every choice of rows and their copies and gives
    the same result, without counts. It refuses tables that have more than 1,048,576 choices.
    """
    engine = engine_named(engine, "engine")
    data, names, keys = packed(tables, plan)
    return join_bytes(data, names, keys, engine)


def make_file(tables: GivenTables, plan: Optional[plans.GivenPlan] = None) -> bytes:
    """The file of these tables and this plan, as bytes; without a plan its plan has length 0, and the library is to
    find one. It may still be a file that the library refuses."""
    return packed(tables, plan)[0]


def join_file(file: GivenFile, engine: Engine = "join") -> Result:
    """Joins a file: a Result, or Refused. `file` is its path, or its bytes. The engines are those of `join`.

    Columns are called by attribute number; with names beside the path (PATH.names, of this very file), by name."""
    engine = engine_named(engine, "engine")
    return join_bytes(*loaded(file), engine)


def count(tables: GivenTables, plan: Optional[plans.GivenPlan] = None) -> Size:
    """How many results the join of these tables has, and how many bytes they take: a Size, or Refused.

    Tables and plan are given as to `join`. The results are counted from the groups, and none is written. So there may
    be more of them than `join` can give: their number is exact below 18,446,744,073,709,551,615."""
    return count_bytes(*packed(tables, plan)[:2])


def count_file(file: GivenFile) -> Size:
    """How many results the join of a file has, in the same way: a Size, or Refused. `file` is its path, or bytes."""
    return count_bytes(*loaded(file)[:2])


def loaded(file: GivenFile) -> Tuple[bytes, Names, Optional[Dict[int, Key]]]:
    """The bytes of a file, given by its path or as bytes; its names, and its attributes by number, or None if they
    have no names. A warning is about the line that called the caller."""
    if not isinstance(file, (str, os.PathLike)):
        return bytes_of(file), Names(), None
    path = os.fsdecode(file)
    data = load(path)
    names = names_beside(path, data, lambda text: warnings.warn(text, stacklevel=5))
    if not names.attributes:
        return data, names, None
    return data, names, {a: names.attribute(a) for a in plans.width(read(data).tables)}


def packed(tables: GivenTables, plan: Optional[plans.GivenPlan]) -> Tuple[bytes, Names, Dict[int, Key]]:
    """The file of these tables and this plan, of no bytes if it is None; its names, and its attributes by number."""
    records, tables_there, names, keys = records_of(tables)
    code = plans.code_of(b"" if plan is None else plan, [names.table(number) for number in range(tables_there)])
    return records + plan_record(code), names, keys


def join_bytes(
    data: bytes, names: Names, keys: Optional[Dict[int, Key]] = None, engine: Engine = "join"
) -> Result:
    """Joins a file's bytes: a Result, or Refused in these names. Without `keys` columns are called by number."""
    answer: Union[Answer, SlowAnswer]
    if engine == "slow":
        answer, output = call_slow_with_enough(data)
    else:
        answer, output = call_with_enough(data)
    file = read(data, names)
    if answer.number:
        raise refusal(answer, file, names)
    attributes = plans.width(file.tables)
    end = answer.rows * len(attributes)
    columns: Dict[Key, Values] = {}
    for place, a in enumerate(attributes):
        columns[keys[a] if keys else a] = column_of_words(output[place : end : len(attributes)])
    counts = answer[3:] if isinstance(answer, Answer) else NO_COUNTS
    return Result(columns, answer.rows, *counts, *followed(file, names), engine)


def count_bytes(data: bytes, names: Names) -> Size:
    """The size of the result of a file's bytes, or Refused in these names."""
    answer, _ = call_with_scratch(data, zeros(0))
    file = read(data, names)
    if answer.number not in (0, TOO_MANY_RESULTS):
        raise refusal(answer, file, names)
    return Size(answer.detail, len(plans.width(file.tables)))  # after 0 there are no results, and the detail is 0


def followed(file: File, names: Names) -> Tuple[str, bytes, bool, bool]:
    """The plan that the join of a file followed, as text and as bytes; whether the file's own was mended, so that this
    is another one; and whether the file has none, so that it was found. Text and bytes are empty if the reader refuses
    what the library joined, so that it knows no plan."""
    found = file.found is not None
    if not file.mended:
        return "", b"", False, found
    text = plans.to_text(file.mended.plan, names.table_in_plan)
    return text, file.mended.code, not found and file.mended.code != file.code, found


def refusal(answer: AnyAnswer, file: File, names: Names) -> Refused:
    """The library's refusal of a file, in these names. 11 is that of a join."""
    number, detail = answer.number, answer.detail
    if MEANINGS[number].kind in IN_FILE:
        fault = file.fault
        return fault if fault and (fault.number, fault.detail) == (number, detail) else Refused(number, detail)
    if number == TOO_MANY_RESULTS:
        size = Size(detail, len(plans.width(file.tables)))
        return Refused(number, detail, too_many(size) + every_pair(file, names), size=size)
    if number == TOO_MANY_CHOICES:
        return Refused(number, detail, too_many_choices(file))
    return Refused(number, detail)


def too_many(size: Size) -> str:
    """How many results there are, how many bytes they take, and how many fit."""
    told = "there are {}, and the longest output ({:,} words) fits {:,}"
    return told.format(size, MOST_OUTPUT, MOST_OUTPUT // size.values)


def every_pair(file: File, names: Names) -> str:
    """Which joins of the plan that is followed match every pair, as these make many results; nothing if none does."""
    joins = plans.joins_of(file.mended.plan) if file.mended else []
    return "".join(
        "; the join of %s is on no attribute, so that every pair matches" % plans.sides_of(join, names)
        for join in joins
        if not plans.key(join, file.tables)
    )


def too_many_choices(file: File) -> str:
    """How many choices there are, how many the slow engine goes through, and what to do."""
    chosen, fewer = "one row", "fewer rows"
    if file.is_counted():
        chosen, fewer = "one copy of one row", "fewer rows or copies"
    return (
        "{} of each table makes {}, and the slow engine goes through {:,} at most; give it {}, or leave the tables to "
        "the join"
    ).format(chosen, plans.choices_in_words(file.tables), MOST_CHOICES, fewer)
