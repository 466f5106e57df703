"""The result of a join."""
import reprlib
from dataclasses import dataclass
from typing import Any, Dict, Iterator, NamedTuple, Optional, Tuple, Union

from .messages import count
from .values import NOT_RECORDED, Values

Key = Union[str, int]  # what an attribute is called: its name, or its number


class Counts(NamedTuple):
    """The four counts of the work done, as document 01 defines them."""

    entries: int
    lookups: int
    comparisons: int
    visits: int


@dataclass(frozen=True, repr=False)
class Result:
    """A join's result: its columns by attribute (name or number, as the tables were given), how many rows it has, and
    the four counts of the work done. Going through it gives its rows, each a tuple in the order of `names`.

    A column is an array.array of 32-bit words; if a value was not recorded it is a list, with None for the value.

    `engine` is "join", or "slow" if the slow engine gave the result. That one reports no counts: they are None then.

    `plan` is the text of the plan that the join followed, and `plan_bytes` has its bytes. `mended` says whether it is
    another one than was given, `found` whether none was given. The order of the rows is that of this plan."""

    columns: Dict[Key, Values]
    rows: int
    entries: Optional[int]
    lookups: Optional[int]
    comparisons: Optional[int]
    visits: Optional[int]
    plan: str
    plan_bytes: bytes
    mended: bool
    found: bool = False
    engine: str = "join"

    @property
    def names(self) -> Tuple[Key, ...]:
        """The attributes, in the order of the columns: names, or numbers if the tables had numbers."""
        return tuple(self.columns)

    @property
    def counts(self) -> Optional[Counts]:
        """The four counts together, or None if the slow engine gave the result."""
        if self.entries is None or self.lookups is None or self.comparisons is None or self.visits is None:
            return None
        return Counts(self.entries, self.lookups, self.comparisons, self.visits)

    def __iter__(self) -> Iterator[Tuple[Optional[int], ...]]:
        return zip(*self.columns.values())

    def __len__(self) -> int:
        return self.rows

    def __repr__(self) -> str:
        counts = self.counts or "no counts"
        return "<Result: %s, names %s, %s>" % (count(self.rows, "row"), reprlib.repr(self.names), counts)

    def to_numpy(self) -> Any:
        """A NumPy structured array, one field of 32-bit words for each attribute. An attribute that has only a number
        is the field a0, a1 and so on. Where a value was not recorded it is a masked array, and the value is masked."""
        import numpy

        fields = [name if isinstance(name, str) else "a%d" % name for name in self.columns]
        table = numpy.empty(self.rows, dtype=[(field, numpy.uint32) for field in fields])
        mask = numpy.empty(self.rows, dtype=[(field, bool) for field in fields])
        for field, column in zip(fields, self.columns.values()):
            whole = not isinstance(column, list)
            table[field] = column if whole else [NOT_RECORDED if value is None else value for value in column]
            mask[field] = table[field] == NOT_RECORDED
        if not any(mask[field].any() for field in fields):
            return table
        masked: Any = numpy.ma
        return masked.array(table, mask=mask, fill_value=(NOT_RECORDED,) * len(fields))

    def to_pandas(self) -> Any:
        """A pandas DataFrame, one column of 32-bit words for each attribute, called by its name or number. Where a
        value was not recorded the column is of pandas' UInt32, and the value is NA."""
        import numpy
        import pandas  # type: ignore[import]

        table = {}
        for name, column in self.columns.items():
            whole = not isinstance(column, list)
            table[name] = numpy.array(column, dtype="uint32") if whole else pandas.array(column, dtype="UInt32")
        return pandas.DataFrame(table)
