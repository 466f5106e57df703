"""Tables folded: rows that stand next to each other and are equal are made one row with copies (request U9).

What was not recorded is equal to itself here, since rows of equal words behave alike. A join of folded tables gives
the same results. It gives them in the same order if it follows the same plan: the copies of each row, in turn, are the
rows as they stood. The plan is the same where none is given, since attributes alone decide which one is found, and
where the one that is given is well-behaved. Any other plan is mended by the numbers of rows, which folding lowers, so
that another plan may be followed.
"""
import array
import struct
from typing import Any, Dict, Hashable, List, NamedTuple, Optional, Sequence, Tuple

from . import mending, plans
from .limits import MOST_COPIES
from .messages import count
from .names import Names, free_copies_name
from .results import Key
from .tables import Counted, Words, given_table, keys_of, words_of
from .values import Values, column_of_words


class Folding:
    """Rows that are taken one after the other, each with its copies. `taken` says how many they are, and `copies` has
    those of the rows that come of it."""

    def __init__(self) -> None:
        self.taken = 0
        self.copies: List[int] = []
        self.last: Optional[Hashable] = None

    def take(self, row: Optional[Hashable], copies: int = 1) -> bool:
        """Takes a row. Whether a row begins with it: if it is equal to the row before, its copies are added to those.
        A row has at most 65,535 copies, and what is more begins a further row. None is equal to no row."""
        if row is not None and row == self.last:
            added = min(copies, MOST_COPIES - self.copies[-1])
            self.copies[-1] += added
            copies -= added
        self.taken, self.last = self.taken + 1, row
        if copies:
            self.copies.append(copies)
        return copies > 0


# ---- tables of Python programs
def fold(table: Any) -> Counted:
    """The table with copies of its rows, in which rows that stood next to each other and are equal are one row.

    table: what `join` takes as a table, with copies or without them. It may have more than 4,096 rows.
    The column of copies keeps its name. If it is new it is called copies, or copies_2 and so on if that is taken.
    """
    given = given_table(table, "the table")
    keys = list(keys_of([given]).values())
    words = words_of(given, keys)
    folding = Folding()
    rows = [row for row, copies in rows_of(words) if folding.take(row, copies)]
    columns: Dict[Key, Values] = {}
    for place, key in enumerate(keys):
        columns[key] = column_of_words(array.array("I", (row[place] for row in rows)))
    called = given.copies.key if given.copies else free_copies_name(keys)
    columns[called] = array.array("I", folding.copies)
    return Counted(columns, called)


def rows_of(table: Words) -> List[Tuple[Tuple[int, ...], int]]:
    """The rows of a table as words, each with its copies."""
    form = "<%dI" % table.rows
    columns = [struct.unpack(form, words) for words in table.columns.values()]
    copies = [1] * table.rows if table.copies is None else struct.unpack(form, table.copies)
    return [(tuple(column[row] for column in columns), copies[row]) for row in range(table.rows)]


# ---- in words
class Folded(NamedTuple):
    """What folding made of a table: its name, and how many rows and bytes it has before and after."""

    name: str
    rows_before: int
    rows_after: int
    bytes_before: int
    bytes_after: int

    def __str__(self) -> str:
        rows, size = count(self.rows_before, "row"), count(self.bytes_before, "byte")
        return "{}: {} folded to {:,}, {} to {:,}".format(self.name, rows, self.rows_after, size, self.bytes_after)


def in_words(tables: Sequence[Folded]) -> List[str]:
    """What folding saved, table by table; or that it saved nothing."""
    changed = [
        str(table)
        for table in tables
        if table.rows_before != table.rows_after or table.bytes_before != table.bytes_after
    ]
    return changed or ["nothing is folded: each table has as many rows as before"]


class OtherPlan(NamedTuple):
    """That a plan is mended in another way where tables are folded: the plan that is followed without folding and the
    one that is followed with it, as texts. These name the tables in different orders, since the order in which a
    mended plan names them tells the root of each side of a join, and so the tree."""

    before: str
    after: str

    def __str__(self) -> str:
        told = "the plan is mended by the tables' numbers of rows, which folding lowers: the join follows %s, and %s "
        return (told + "without --fold, so that the same results come in another order") % (self.after, self.before)


def other_plan(
    plan: plans.Plan, before: Sequence[plans.Shape], after: Sequence[plans.Shape], names: Names
) -> Optional[OtherPlan]:
    """What is followed in place of a plan that is mended in another way where tables are folded; None if it is not.
    The numbers of rows are known, before and after."""
    unfolded, folded = mending.mend(plan, before), mending.mend(plan, after)
    if not unfolded or not folded or unfolded.code == folded.code:
        return None
    return OtherPlan(plans.to_text(unfolded.plan, names.table), plans.to_text(folded.plan, names.table))
