"""Tables from CSV files and to them: the first line has the names of the attributes, each further line is a row.

A column can hold the copies of the rows (request U9). It is no attribute, and may stand anywhere among the columns.
"""
import csv
import io
import itertools
import os
import re
import struct
from typing import Any, Dict, FrozenSet, Iterable, Iterator, List, NamedTuple, Optional, Sequence, TextIO, Tuple, Union

from . import plans
from .fileformat import COUNTED_MARK, HEAD, PLAN_MARK, TABLE_MARK, File, Table, plan_record, table_record
from .folding import Folded, Folding
from .limits import ATTRIBUTE_NUMBERS, MOST_ATTRIBUTES, MOST_COPIES, MOST_ROWS, MOST_TABLES
from .messages import InputError, count
from .names import Names, fault_of_attribute_name, fault_of_copies_name, fault_of_table_name
from .values import LARGEST, NO_VALUE, NOT_RECORDED, Values, word_of_text

ENDING = ".csv"
MOST_LINE = 2**20  # letters of a line that are read

Cell = Union[None, int, str]  # what a cell stands for: nothing that was recorded, a number, or a text


class Reading(NamedTuple):
    """How CSV files are read: the name of the column of copies, or None; the names of the attributes that hold texts;
    and whether rows that stand next to each other and are equal are folded into one."""

    copies: Optional[str] = None
    texts: FrozenSet[str] = frozenset()
    fold: bool = False


class Sheet:
    """A CSV file: the table's name, the names of its columns, its rows as texts, the lines where they begin and their
    copies. `copies_column` is the place of the column that has these, or None; the others are attributes."""

    def __init__(self, path: str, reading: Reading = Reading()) -> None:
        self.path, self.reading = path, reading
        self.name = os.path.splitext(os.path.basename(path))[0]
        self.header: List[str] = []
        self.header_line = 1
        self.copies_column: Optional[int] = None
        self.attribute_columns: List[int] = []
        self.rows: List[List[str]] = []
        self.lines: List[int] = []
        self.folding = Folding()

    def error(self, line: int, column: Optional[int], what: str) -> InputError:
        """An error at a line and, if it is not None, at a column; both count from 1."""
        where = "%s, line %d" % (self.path, line)
        if column is not None:
            name = self.header[column] if column < len(self.header) else ""
            where += ", column %d%s" % (column + 1, name and " (%s)" % name)
        return InputError("%s: %s" % (where, what))

    @property
    def attributes(self) -> List[str]:
        """The names of the attributes, in the order of their columns."""
        return [self.header[column] for column in self.attribute_columns]

    @property
    def counted(self) -> bool:
        """Whether its table has copies: a folded one has them if some row has several."""
        if self.reading.fold:
            return any(copies > 1 for copies in self.folding.copies)
        return self.copies_column is not None

    @property
    def folded(self) -> Folded:
        """What folding made of it: rows and bytes of its table before and after."""
        before, after = self.folding.taken, len(self.rows)
        columns = len(self.attributes) + self.counted
        return Folded(self.name, before, after, HEAD + 4 * before * len(self.header), HEAD + 4 * after * columns)


# ---- reading
def reading_of(copies: Optional[str], texts: Optional[str], fold: bool = False) -> Reading:
    """How CSV files are read, by the options --copies, --text and --fold. Which attributes hold texts is asked where
    rows are folded, as 07 is 7 only among numbers."""
    name = None if copies is None else copies.strip()
    fault = None if name is None else fault_of_copies_name(name)
    if fault:
        raise InputError("--copies %r: %s" % (copies, fault))
    return Reading(name, frozenset(name_list(texts, "--text") if fold and texts else ()), fold)


def read_all(paths: Sequence[str], reading: Reading) -> List[Sheet]:
    """The tables in CSV files. One of them has the column of copies, if a name is given for it."""
    sheets = [read(path, reading) for path in paths]
    check_copies(sheets, reading)
    return sheets


def check_copies(sheets: Sequence[Sheet], reading: Reading) -> None:
    """Refuses a name for the column of copies that no table has."""
    if reading.copies is not None and all(sheet.copies_column is None for sheet in sheets):
        raise InputError("--copies %s: no table has a column of this name" % reading.copies)


def read(path: str, reading: Reading = Reading()) -> Sheet:
    """The table in a CSV file, which is read once, as a stream."""
    sheet = Sheet(path, reading)
    fault = fault_of_table_name(sheet.name)
    if fault:
        raise InputError("%s: %s" % (path, fault))
    with open(path, "rb") as stream:
        start = stream.peek(16)[:16]
        if start[:2] in (TABLE_MARK, COUNTED_MARK, PLAN_MARK) and b"\0" in start:
            raise InputError("%s: a packed file, not CSV; a packed file is joined alone" % path)
        with io.TextIOWrapper(stream, encoding="utf-8-sig", newline="") as text:
            read_lines(sheet, lines_of(sheet, text))
    if not sheet.header:
        raise InputError("%s, line 1: the line with the names of the attributes is missing" % path)
    return sheet


def lines_of(sheet: Sheet, text: TextIO) -> Iterator[str]:
    """The lines of a file, if they are not endless."""
    for number in itertools.count(1):
        line = text.readline(MOST_LINE)
        if not line:
            return
        if len(line) == MOST_LINE:
            raise sheet.error(number, None, "a line of {:,} letters or more".format(MOST_LINE))
        yield line


def read_lines(sheet: Sheet, text: Iterable[str]) -> None:
    """Reads the header and the rows into the sheet."""
    reader = csv.reader(text, strict=True)
    end = 0  # the line on which the row before ends
    try:
        for cells in reader:
            line, end = end + 1, reader.line_num
            if cells and not sheet.header:
                read_header(sheet, line, cells)
            elif cells:
                read_row(sheet, line, cells)
    except UnicodeDecodeError as error:  # of a piece of the file that begins within the next line
        line = reader.line_num + len((error.object[: error.start] + b".").splitlines())
        raise InputError("%s, line %d: not UTF-8 text; save the file as UTF-8" % (sheet.path, line)) from None
    except csv.Error as error:
        raise InputError("%s, line %d: not CSV: %s" % (sheet.path, reader.line_num, error)) from None


def read_header(sheet: Sheet, line: int, cells: Sequence[str]) -> None:
    """Takes the names of the attributes into the sheet, and that of the column of copies."""
    sheet.header_line = line
    for column, name in enumerate(cell.strip() for cell in cells):
        fault = fault_of_attribute_name(name) or (name in sheet.header and "%s stands in this line already" % name)
        if fault:
            raise sheet.error(line, column, fault)
        sheet.header.append(name)
        if name == sheet.reading.copies:
            sheet.copies_column = column
        else:
            sheet.attribute_columns.append(column)
    columns = sheet.attribute_columns
    if len(columns) > MOST_ATTRIBUTES:
        raise sheet.error(line, columns[MOST_ATTRIBUTES], "a table has at most %d attributes" % MOST_ATTRIBUTES)
    if not columns:
        raise sheet.error(line, None, "a table has an attribute beside its copies, and this one has none")


def read_row(sheet: Sheet, line: int, cells: List[str]) -> None:
    """Takes one row into the sheet; no further one if it is folded into the row before."""
    if len(cells) != len(sheet.header):
        thing = "attribute" if sheet.copies_column is None else "column"
        raise sheet.error(
            line,
            None,
            "%s, but the first line names %s" % (count(len(cells), "value"), count(len(sheet.header), thing)),
        )
    if not sheet.folding.take(row_key(sheet, cells), copies_of_row(sheet, line, cells)):
        return
    if len(sheet.rows) == MOST_ROWS:
        folded = " after folding" if sheet.reading.fold else ""
        raise sheet.error(
            line,
            None,
            "a table has at most {:,} rows{}, and this is one more; split the file".format(MOST_ROWS, folded),
        )
    sheet.rows.append(cells)
    sheet.lines.append(line)


def copies_of_row(sheet: Sheet, line: int, cells: Sequence[str]) -> int:
    """The copies of a row: 1 if there is no column of copies."""
    column = sheet.copies_column
    if column is None:
        return 1
    copies = word_of_text(cells[column])
    if copies is None or not 1 <= copies <= MOST_COPIES:
        given = "%.60r" % cells[column] if cells[column].strip() else "an empty cell"
        raise sheet.error(line, column, "copies are a number from 1 to %d, not %s" % (MOST_COPIES, given))
    return copies


def row_key(sheet: Sheet, cells: Sequence[str]) -> Optional[Tuple[Cell, ...]]:
    """What is equal in rows that are folded into one: what their cells stand for. None if rows are not folded."""
    if not sheet.reading.fold:
        return None
    return tuple(cell_key(cells[column], sheet.header[column], sheet.reading) for column in sheet.attribute_columns)


def cell_key(cell: str, attribute: str, reading: Reading) -> Cell:
    """What a cell of an attribute stands for. A number that is spelled wrong stands for itself, and is told later."""
    if not cell.strip():
        return None
    number = None if attribute in reading.texts else word_of_text(cell)
    return cell if number is None else number


# ---- attributes
def name_list(text: str, option: str) -> List[str]:
    """The names in an option's text, separated by commas as in a line of a CSV file."""
    try:
        if re.search(r"[\r\n]", text):
            raise csv.Error("a line break among names")
        return [name.strip() for line in csv.reader([text], strict=True) for name in line]
    except csv.Error as error:
        raise InputError("%s %r: %s" % (option, text, error)) from None


def given_numbers(text: str) -> Dict[int, str]:
    """Attribute names by number, as --attributes has them. An empty name leaves its number free."""
    numbers = {number: name for number, name in enumerate(name_list(text, "--attributes")) if name}
    for number, name in numbers.items():
        fault = fault_of_attribute_name(name)
        if list(numbers.values()).index(name) != list(numbers).index(number):
            fault = "a name stands there twice"
        if number >= ATTRIBUTE_NUMBERS:
            fault = "%s has the number %d, and the highest is %d" % (name, number, ATTRIBUTE_NUMBERS - 1)
        if fault:
            raise InputError("--attributes %s: %s" % (text, fault))
    return numbers


def number_attributes(sheets: Sequence[Sheet], given: Optional[str] = None) -> Dict[int, str]:
    """Attribute names by number: as given, or in order of first appearance."""
    numbers = {} if given is None else given_numbers(given)
    copies = sheets[0].reading.copies if sheets else None
    if copies in numbers.values():
        raise InputError("--attributes %s: %s is the column of copies, and no attribute" % (given, copies))
    for sheet in sheets:
        for column in sheet.attribute_columns:
            name = sheet.header[column]
            if name not in numbers.values():
                if given is not None:
                    raise sheet.error(sheet.header_line, column, "not among --attributes " + given)
                numbers[len(numbers)] = name
    if max(numbers, default=0) >= ATTRIBUTE_NUMBERS:
        raise InputError(
            "a file has at most %d attributes, these have %d: %s"
            % (ATTRIBUTE_NUMBERS, max(numbers) + 1, ", ".join(numbers.values()))
        )
    return numbers


def names_of(sheets: Sequence[Sheet], attributes: Optional[str] = None) -> Names:
    """The names of the sheets' tables and attributes."""
    if len(sheets) > MOST_TABLES:
        raise InputError("a file has at most %d tables, these are %d" % (MOST_TABLES, len(sheets)))
    names = Names()
    names.attributes = number_attributes(sheets, attributes)
    for number, sheet in enumerate(sheets):
        if sheet.name in names.tables.values():
            raise InputError("%s: a table called %s was given already" % (sheet.path, sheet.name))
        names.tables[number] = sheet.name
    return names


def attributes_of(sheet: Sheet, names: Names) -> List[int]:
    """The numbers of a sheet's attributes, rising."""
    return sorted(number for number, name in names.attributes.items() if name in sheet.attributes)


def copies_name(sheets: Sequence[Sheet], names: Names) -> str:
    """The name of the column of copies: the one that was given, or else a free one. Without copies it is empty."""
    if not any(sheet.counted for sheet in sheets):
        return ""
    return sheets[0].reading.copies or names.copies_column()


# ---- packing
def pack(
    sheets: Sequence[Sheet], plan: Optional[str], attributes: Optional[str] = None, texts: Optional[str] = None
) -> Tuple[bytes, Names]:
    """The bytes of a file with these tables and this plan, and its names. Without a plan the file has one of length 0,
    so that the library finds it. Attributes named in `texts` hold texts."""
    names = names_of(sheets, attributes)
    names.copies = copies_name(sheets, names)
    for text in name_list(texts, "--text") if texts else []:
        numbers = [number for number, name in names.attributes.items() if name == text]
        if not numbers:
            raise InputError("--text %s: no attribute is called %s" % (texts, text))
        names.texts[numbers[0]] = {}
    code = plans.code_of(b"" if plan is None else plan, [sheet.name for sheet in sheets])
    return b"".join(record_of(sheet, names) for sheet in sheets) + plan_record(code), names


def record_of(sheet: Sheet, names: Names) -> bytes:
    """The table record of a sheet."""
    columns = [(a, column_of(sheet, a, names)) for a in attributes_of(sheet, names)]
    copies = sheet.folding.copies
    return table_record(columns, len(copies), struct.pack("<%dI" % len(copies), *copies) if sheet.counted else None)


def column_of(sheet: Sheet, attribute: int, names: Names) -> bytes:
    """A column's values as words. Texts get numbers, those of `names` first. An empty cell was not recorded."""
    column = sheet.header.index(names.attributes[attribute])
    texts = names.texts.get(attribute)
    numbers = {text: number for number, text in texts.items()} if texts is not None else None
    words = []
    for line, row in zip(sheet.lines, sheet.rows):
        try:
            words.append(word_of_cell(row[column], numbers))
        except InputError as error:
            raise sheet.error(line, column, str(error)) from None
    if texts is not None and numbers is not None:
        texts.update((number, text) for text, number in numbers.items())
    return struct.pack("<%dI" % len(words), *words)


def word_of_cell(cell: str, numbers: Optional[Dict[str, int]]) -> int:
    """The word of a cell. If it holds a text, its number is in `numbers`, and a new text is taken into them."""
    if not cell.strip():
        return NOT_RECORDED
    if numbers is not None:
        if re.search(r"[\r\n\0]", cell):
            raise InputError("a text with a line break or a zero")
        return numbers.setdefault(cell, len(numbers))
    word = word_of_text(cell)
    if word == NOT_RECORDED:
        raise InputError(NO_VALUE + "; leave the cell empty instead")
    if word is None:
        raise InputError(
            "%.60r is not a number from 0 to %d; a value that was not recorded is an empty cell" % (cell, LARGEST)
        )
    return word


# ---- writing
def csv_text(header: Iterable[str], rows: Iterable[Sequence[Any]]) -> str:
    """CSV with this first line and these rows."""
    text = io.StringIO()
    writer = csv.writer(text, lineterminator="\n")
    writer.writerow(header)
    writer.writerows(rows)
    return text.getvalue()


def csv_line(cells: Sequence[str]) -> str:
    """One line of CSV, without its end."""
    text = io.StringIO()
    csv.writer(text, lineterminator="").writerow(cells)
    return text.getvalue()


def columns_text(columns: Sequence[Tuple[int, Values]], names: Names) -> str:
    """CSV of columns, each with its attribute. The cell of a value that was not recorded is empty."""
    shown = [shown_values(values, attribute, names) for attribute, values in columns]
    return csv_text([names.attribute(attribute) for attribute, _ in columns], zip(*shown))


def table_text(file: File, table: Table, names: Names) -> str:
    """CSV of a table of a file. Its copies, if it has any, are the first column."""
    header = [names.attribute(attribute) for attribute in table.attributes]
    shown = [shown_values(file.values(table, place), a, names) for place, a in enumerate(table.attributes)]
    if table.counted:
        header.insert(0, names.copies_column())
        shown.insert(0, file.copies(table))
    return csv_text(header, zip(*shown))


def shown_values(values: Values, attribute: int, names: Names) -> Sequence[Any]:
    """The values of an attribute as CSV shows them: as numbers or as the texts that they stand for, and None."""
    texts = names.texts.get(attribute)
    if texts is None:
        return values
    for value in values:
        if value is not None and value not in texts:
            raise InputError(
                "value %d of attribute %d %s stands for no text in the file of names"
                % (value, attribute, names.attribute(attribute))
            )
    return [None if value is None else texts[value] for value in values]
