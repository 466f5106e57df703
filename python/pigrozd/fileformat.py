"""A file of document 01: its records, read as far as the answers 9, 14 and 19 go, and written.

This is the package's one reader and its one writer of the format.
"""
import struct
from typing import List, Optional, Sequence, Tuple

from . import finding, mending, plans
from .answers import COPIES_RANGE, MEANINGS, NO_HOLDER, Kind, Refused
from .limits import ATTRIBUTE_NUMBERS, MOST_ATTRIBUTES, MOST_COPIES, MOST_ROWS, MOST_TABLES
from .names import Names
from .messages import count
from .values import values_of

TABLE_MARK, COUNTED_MARK, PLAN_MARK = b"TB", b"TC", b"PL"
HEAD = 10  # bytes of a table record before its columns: mark, mask, row count
PLAN_HEAD = 3  # bytes of a plan record before the plan: mark, length


class Table(plans.Shape):
    """A table record: the offset of its mark, its attributes in rising order, its number of rows. If it is `counted`,
    a column of copies stands before those of the attributes; the reader sets `pairs` when it has read them."""

    rows: int
    pairs: int

    def __init__(self, at: int, attributes: Sequence[int], rows: int, *, counted: bool = False) -> None:
        super().__init__(attributes, rows, counted=counted)
        self.at = at

    @property
    def copies_at(self) -> Tuple[int, int]:
        """Where the column of copies begins and ends; if there is none, both are where the first column begins."""
        start = self.at + HEAD
        return start, start + (4 * self.rows if self.counted else 0)

    def column(self, place: int) -> Tuple[int, int]:
        """Where the attribute's column at this place begins and ends."""
        start = self.copies_at[1] + 4 * self.rows * place
        return start, start + 4 * self.rows

    def end(self) -> int:
        """Where the record ends."""
        return self.column(len(self.attributes))[0]


class File:
    """What is in a file's bytes.

    `fault` is the first refusal of 1 to 9, 14 and 19 that is due, or None. `plan_at` is the offset of a plan record
    that is whole, `code` has its plan's bytes, and `plan` is its tree if it is spelled right and names each table
    once. `found` is there if there are tables and the plan has no bytes: what is found in its place. `mended` has the
    plan that a join follows, if no refusal is due; one that was found is left as it is."""

    def __init__(self, data: bytes) -> None:
        self.data = data
        self.tables: List[Table] = []
        self.plan_at: Optional[int] = None
        self.code = b""
        self.plan: Optional[plans.Plan] = None
        self.found: Optional[finding.Found] = None
        self.mended: Optional[mending.Mended] = None
        self.fault: Optional[Refused] = None

    def values(self, table: Table, place: int) -> List[Optional[int]]:
        """The values of a table's column, None for what was not recorded."""
        start, end = table.column(place)
        return values_of(struct.unpack("<%dI" % table.rows, self.data[start:end]))

    def copies(self, table: Table) -> List[int]:
        """How many copies each row of a table has: 1 in a table that is not counted."""
        if not table.counted:
            return [1] * table.rows
        start, end = table.copies_at
        return list(struct.unpack("<%dI" % table.rows, self.data[start:end]))

    def is_counted(self) -> bool:
        """Whether some table is counted."""
        return any(table.counted for table in self.tables)

    def row_count(self) -> int:
        """The rows of all tables together."""
        return sum(table.rows for table in self.tables)

    def pair_count(self) -> int:
        """The copies of all rows of all tables together, 1 for a row of a table that is not counted."""
        return sum(table.pairs for table in self.tables)


# ---- reading
def number_at(data: bytes, at: int) -> int:
    """The number in the 4 bytes at an offset."""
    return int.from_bytes(data[at : at + 4], "little")


def attributes_of(mask: int) -> List[int]:
    """The attributes in a mask, rising."""
    return [a for a in range(ATTRIBUTE_NUMBERS) if mask >> a & 1]


def read(data: bytes, names: Optional[Names] = None) -> File:
    """The file in these bytes, whatever they are. The names are used in the words of its fault."""
    names = names or Names()
    file = File(data)
    file.fault = read_tables(file, names) or read_plan_record(file) or judge_plan(file, names)
    return file


def read_tables(file: File, names: Names) -> Optional[Refused]:
    """Reads the tables before the plan record. The refusal of 1 to 5 and 19 that is due, or None."""
    at = 0
    while True:
        left, mark = len(file.data) - at, file.data[at : at + 2]
        if left < 2:
            return Refused(1, at, "the file ends before a plan" if left == 0 else "the last byte is half a mark")
        if mark == PLAN_MARK:
            return None
        if mark not in (TABLE_MARK, COUNTED_MARK):
            told = "at offset %d stands %02x %02x, neither 54 42 nor 54 43 (a table) nor 50 4c (the plan)"
            return Refused(2, at, told % (at, *mark))
        if len(file.tables) == MOST_TABLES:
            return Refused(5, at, "a file has at most %d tables" % MOST_TABLES, MOST_TABLES)
        fault = read_table(file, at, names)
        if fault:
            return fault
        at = file.tables[-1].end()


def read_table(file: File, at: int, names: Names) -> Optional[Refused]:
    """Reads the table at an offset, of either mark. The refusal among 1, 3, 4 and 19 that is due, or None."""
    number, left = len(file.tables), len(file.data) - at
    name = names.table(number)
    if left < HEAD:
        return Refused(1, at, "mark, mask and row count of %s take %d bytes, %d are there" % (name, HEAD, left))
    attributes, rows = attributes_of(number_at(file.data, at + 2)), number_at(file.data, at + 6)
    if not 1 <= len(attributes) <= MOST_ATTRIBUTES:
        return Refused(3, at, "%s has %s" % (name, count(len(attributes), "attribute")), number)
    if rows > MOST_ROWS:
        return Refused(4, at, "%s has %s" % (name, count(rows, "row")), number)
    table = Table(at, attributes, rows, counted=file.data[at : at + 2] == COUNTED_MARK)
    if table.end() > len(file.data):
        return Refused(
            1, at, "the columns of %s end at offset %d, the file at %d" % (name, table.end(), len(file.data))
        )
    fault = read_copies(file, table, name) if table.counted else None
    if fault is None:
        file.tables.append(table)
    return fault


def read_copies(file: File, table: Table, name: str) -> Optional[Refused]:
    """Reads the copies of the next table, which has this name, and adds them up. Refusal 19 if it is due, or None."""
    copies = file.copies(table)
    for row, there in enumerate(copies):
        if not 1 <= there <= MOST_COPIES:
            told = "row {} of {} has {}, and a row has 1 to {:,}"
            why = told.format(row, name, count(there, "copy"), MOST_COPIES)
            return Refused(COPIES_RANGE, table.at, why, len(file.tables))
    table.pairs = sum(copies)
    return None


def read_plan_record(file: File) -> Optional[Refused]:
    """Reads the plan record behind the tables. The refusal among 1 and 6 that is due, or None."""
    data, at = file.data, file.tables[-1].end() if file.tables else 0
    left = len(data) - at
    if left < PLAN_HEAD:
        return Refused(1, at, "the plan is cut: its length is missing")
    length = data[at + 2]
    if left < PLAN_HEAD + length:
        return Refused(1, at, "the plan is cut: it says %s, %d are there" % (count(length, "byte"), left - PLAN_HEAD))
    end = at + PLAN_HEAD + length
    file.plan_at, file.code = at, data[at + PLAN_HEAD : end]
    if end < len(data):
        return Refused(6, end, "%s behind it" % count(len(data) - end, "byte"))
    return None


def judge_plan(file: File, names: Names) -> Optional[Refused]:
    """Reads the plan, or finds one for tables that have none. The refusal of 7 to 9 and 14 that is due, or None."""
    if file.tables and not file.code:
        file.found = finding.find(file.tables)
        file.mended = mending.mend(file.found.plan, file.tables) if file.found.plan else None
        return finding.refusal(file.found, names)
    fault = plans.check(file.code, file.tables, names)
    if fault is None or fault.number == NO_HOLDER:
        file.plan = plans.from_bytes(file.code)
        file.mended = mending.mend(file.plan, file.tables)
    return fault


def offset_of(file: File, number: int, detail: int) -> Optional[int]:
    """The offset of the byte that an answer's detail points at, or None if it points at none."""
    kind = MEANINGS[number].kind
    if kind is Kind.OFFSET:
        return detail
    if kind is Kind.PLAN_INDEX and file.plan_at is not None:
        return file.plan_at + PLAN_HEAD + detail
    if kind is Kind.TABLE and detail < len(file.tables):
        return file.tables[detail].at
    return None


# ---- writing
def table_record(columns: Sequence[Tuple[int, bytes]], rows: int, copies: Optional[bytes] = None) -> bytes:
    """The bytes of a table. Columns are words, each with its attribute, attributes rising. If there are copies, they
    are words too, one for each row, and the table is a counted one."""
    mark = TABLE_MARK if copies is None else COUNTED_MARK
    mask = sum(1 << attribute for attribute, _ in columns)
    return mark + struct.pack("<II", mask, rows) + (copies or b"") + b"".join(words for _, words in columns)


def plan_record(code: bytes) -> bytes:
    """The bytes of a plan record."""
    return PLAN_MARK + bytes([len(code)]) + code
