"""The answers of document 01: what each number means and what its detail is. The package has one table of them."""
import enum
from typing import Dict, NamedTuple, Optional

from .sizes import Size


class Kind(enum.Enum):
    """What the detail of an answer is."""

    OFFSET = "an offset in the file"
    PLAN_INDEX = "an index in the plan's bytes"
    TABLE = "a table's number"
    AMOUNT = "how much is there, or is needed"
    NOTHING = "always 0"


class Meaning(NamedTuple):
    """What an answer's number means, what its detail is, and of which kind. docs/answers has a page for each."""

    means: str
    detail: str
    kind: Kind


IN_FILE = (Kind.OFFSET, Kind.PLAN_INDEX, Kind.TABLE)  # of refusals that the bytes of a file alone decide

# 12 is retired and not used again (docs/SPECIFICATION.md, 9.8).
MEANINGS: Dict[int, Meaning] = {
    0: Meaning("joined", "0", Kind.NOTHING),
    1: Meaning("the file is cut off", "offset of the record that is cut", Kind.OFFSET),
    2: Meaning("none of the three marks stands here", "offset", Kind.OFFSET),
    3: Meaning("a table with no attribute, or with more than 8", "offset of the table's record", Kind.OFFSET),
    4: Meaning("a table with more than 4,096 rows", "offset of the table's record", Kind.OFFSET),
    5: Meaning("a 17th table", "offset of its record", Kind.OFFSET),
    6: Meaning("something stands behind the plan", "offset of the first byte too many", Kind.OFFSET),
    7: Meaning("the plan's bytes are not a plan", "index in the plan", Kind.PLAN_INDEX),
    8: Meaning("the plan does not name each table once", "index in the plan", Kind.PLAN_INDEX),
    9: Meaning(
        "a join has a side where no table holds its join attributes", "index of an FF in the plan", Kind.PLAN_INDEX
    ),
    10: Meaning("the scratch is too short", "words needed", Kind.AMOUNT),
    11: Meaning("more results than the output fits", "number of results", Kind.AMOUNT),
    13: Meaning("standard input is too long", "65536", Kind.AMOUNT),
    14: Meaning("no plan can be found for these tables", "lowest number of a table that remains", Kind.TABLE),
    15: Meaning("more choices than the slow engine goes through", "0", Kind.NOTHING),
    16: Meaning("n is not below the number of results", "number of results", Kind.AMOUNT),
    17: Meaning("the row numbers and copies are those of no result", "0", Kind.NOTHING),
    18: Meaning("the row buffer is shorter than the values of a row", "values of a row", Kind.AMOUNT),
    19: Meaning("a row of no copies, or of more than 65,535", "offset of the table's record", Kind.OFFSET),
}

BEHIND_PLAN = 6  # the only refusal of records where all tables and the plan's record are whole
NO_HOLDER = 9  # the only refusal of a plan that is spelled right and names each table once
TOO_MANY_RESULTS = 11  # than the output fits; where one result is asked for, than can be numbered
NONE_FOUND = 14  # in place of 8 and 9 where a file with tables has no plan; its detail is the number of a table
TOO_MANY_CHOICES = 15  # in place of 10 where the slow engine is called
NO_SUCH_RESULT, NOT_A_RESULT, ROW_SHORT = 16, 17, 18  # where one result is asked for by its number, or by its rows
COPIES_RANGE = 19  # of a table with copies, once its columns are known to be there


class Refused(Exception):
    """A refusal: the answer's number and detail, and why in the words of who gave the tables.

    `kind` tells what the detail is. `table` is the number of the table that is at fault where the number is 3, 4, 5 or
    19, else None. `size` tells where the number is 11 how many results there are and how many bytes they take, else it
    is None."""

    def __init__(
        self, number: int, detail: int, why: str = "", table: Optional[int] = None, size: Optional[Size] = None
    ) -> None:
        super().__init__(number, detail, why, table, size)
        self.number, self.detail, self.why, self.table, self.size = number, detail, why, table, size

    @property
    def kind(self) -> Kind:
        """What the detail is."""
        return MEANINGS[self.number].kind

    @property
    def meaning(self) -> str:
        """What the answer means, in one sentence."""
        meaning = MEANINGS[self.number]
        if self.why:
            return "%s: %s" % (meaning.means, self.why)
        return "%s (%s: %d)" % (meaning.means, meaning.detail, self.detail)

    def __str__(self) -> str:
        return "refused %d %d: %s" % (self.number, self.detail, self.meaning)


class NoSuchResult(Refused, IndexError):
    """Answer 16: there is no result with this number. It is a Refused, and the IndexError of a sequence."""
