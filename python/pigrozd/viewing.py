"""Results shown a page at a time: the columns they stand in, a page as text, and what a viewer shows and does with
each key. screens.py has the terminal; nothing here knows of it."""
import re
import textwrap
import unicodedata
from typing import Callable, Dict, Iterator, List, NamedTuple, Optional, Sequence, Tuple

from . import plans
from .access import ResultRow, Tables
from .answers import Refused
from .csvfiles import shown_values
from .fileformat import File
from .messages import InputError, count
from .names import Names

WIDEST = 40  # a longer text is cut, and so is a longer name
LINES_AT_ONCE = 1000  # of a long page
BETWEEN = "  "  # what stands between two columns
BAR = "|"  # what stands between values and row numbers
HELP = (
    "q: quit; space, b: a page on, back; j, k: a line on, back; g, G: first, last result; N or :N, and Enter: result "
    "number N; / and row numbers, and Enter: the result of these rows; r: row numbers or none; left, right: columns; "
    "Esc: leave a question; the page keys, the arrows, Home and End too"
)
POINT = "."  # what stands between a row number and a copy number
COPY_TITLE = POINT + "copy"  # what stands behind the name of a table whose rows have copies
HELP_OF_COPIES = "; under a table's name with %s, 12%s3 is copy 3 of row 12, and so it is typed" % (COPY_TITLE, POINT)


# ---- letters
def printable(text: str) -> str:
    """A text without letters that move the cursor of a terminal, or do something else to it."""
    return "".join(letter if letter.isprintable() else "?" for letter in text)


def places(letter: str) -> int:
    """How many places a letter takes on a line."""
    return 0 if unicodedata.combining(letter) else 2 if unicodedata.east_asian_width(letter) in "WF" else 1


def width_of(text: str) -> int:
    """How many places a text takes on a line."""
    return len(text) if text.isascii() else sum(map(places, text))


def cut(text: str, width: int) -> str:
    """The first letters of a text, as many as this many places hold."""
    if text.isascii():
        return text[: max(width, 0)]
    used = 0
    for end, letter in enumerate(text):
        used += places(letter)
        if used > width:
            return text[:end]
    return text


def last_of(text: str, width: int) -> str:
    """The last letters of a text, as many as this many places hold."""
    return cut(text[::-1], width)[::-1]


def in_column(text: str, widest: int = WIDEST) -> str:
    """A name or a text as a column shows it."""
    shown = printable(text[: widest + 1])
    return shown if width_of(shown) <= widest else cut(shown, widest - 2) + ".."


# ---- numbers that are typed
def number_in(text: str, called: str) -> int:
    """The number that a text spells in decimal, with commas or without."""
    digits = text.strip().replace(",", "")
    if not re.fullmatch("[0-9]+", digits):
        raise InputError("%s is a number from 0 on, not %.60r" % (called, text))
    return int(digits.lstrip("0")[:100] or "0")  # one of more digits is too high in any case


def pairs_in(text: str, where: str = "") -> Tuple[List[int], List[int]]:
    """The row numbers in a text, with commas or blanks between them, and the copy number behind each of them: 12.3 is
    copy 3 of row 12, and 12 is its copy 0. `where` says in an error where they stand, such as " of --find"."""
    words = re.split(r"\s*,\s*|\s+", text.strip()) if text.strip() else []
    pairs = [pair_in(word, where) for word in words]
    return [row for row, _ in pairs], [copy for _, copy in pairs]


def pair_in(word: str, where: str) -> Tuple[int, int]:
    """A row number and the copy number behind it."""
    row, point, copy = word.partition(POINT)
    return number_in(row, "a row number" + where), number_in(copy, "a copy number" + where) if point else 0


def pair_text(row: int, copy: int) -> str:
    """A row number and a copy number, as they are shown and typed."""
    return "%d%s%d" % (row, POINT, copy)


# ---- columns
class Column(NamedTuple):
    """A column: its title, how many places it takes, and whether it holds numbers, which stand at its right."""

    title: str
    width: int
    right: bool

    def cell(self, text: str) -> str:
        """A text as it stands in the column."""
        blanks = " " * (self.width - width_of(text))
        return blanks + text if self.right else text + blanks


def column(title: str, texts: Sequence[str], right: bool = True) -> Column:
    """A column that is as wide as its title and these texts."""
    shown = in_column(title)
    return Column(shown, max(map(width_of, [shown, *texts])), right)


def text_of(shown: object) -> str:
    """A value as a column shows it: a number, a text, or nothing if it was not recorded."""
    return "" if shown is None else in_column(str(shown))


class Layout:
    """The columns of a page: the number of a result, its values and, if they are wanted, its row numbers, with copy
    numbers where rows have copies. They are as wide as what the tables hold, so that they stand at the same places on
    every page."""

    def __init__(self, tables: Tables, file: File, names: Names) -> None:
        self.names, self.attributes = names, plans.width(file.tables)
        self.number = column("n", [str(max(tables.size.results - 1, 0))])
        self.values = [self.column_of(attribute, file) for attribute in self.attributes]
        self.counted = [table.counted for table in file.tables]
        self.rows = [Column(BAR, 1, True), *(self.column_of_rows(t, file) for t in range(len(file.tables)))]

    def column_of(self, attribute: int, file: File) -> Column:
        """The column of an attribute. The first table that has it holds all that results can have in it."""
        table = next(table for table in file.tables if attribute in table.attributes)
        values = file.values(table, list(table.attributes).index(attribute))
        texts = set(map(text_of, shown_values(values, attribute, self.names)))
        return column(self.names.attribute(attribute), list(texts), attribute not in self.names.texts)

    def column_of_rows(self, number: int, file: File) -> Column:
        """The column of a table's row numbers, and of the copy numbers behind them if its rows have copies."""
        table, name = file.tables[number], self.names.table(number)
        if not table.counted:
            return column(name, [str(max(table.rows - 1, 0))])
        texts = [pair_text(row, copies - 1) for row, copies in enumerate(file.copies(table))]
        return column(in_column(name, WIDEST - len(COPY_TITLE)) + COPY_TITLE, texts)

    def header(self, with_rows: bool) -> List[str]:
        """The titles, each as it stands in its column."""
        columns = [self.number, *self.values, *(self.rows if with_rows else [])]
        return [column.cell(column.title) for column in columns]

    def cells(self, result: ResultRow, with_rows: bool) -> List[str]:
        """The cells of a result, each as it stands in its column."""
        cells = [self.number.cell(str(result.n))]
        for place, attribute in enumerate(self.attributes):
            shown = shown_values([result.values[place]], attribute, self.names)[0]
            cells.append(self.values[place].cell(text_of(shown)))
        if with_rows:
            texts = [BAR, *self.row_texts(result)]
            cells += [column.cell(text) for column, text in zip(self.rows, texts)]
        return cells

    def row_texts(self, result: ResultRow) -> List[str]:
        """The row number of a result in each table, with the copy number where rows have copies."""
        pairs = zip(result.rows, result.copies, self.counted)
        return [pair_text(row, copy) if counted else str(row) for row, copy, counted in pairs]


def line_of(cells: Sequence[str], left_out: int = 0) -> str:
    """A line of cells, of which so many behind the first are left out."""
    return BETWEEN.join([cells[0], *cells[1 + left_out :]]).rstrip()


def page(tables: Tables, layout: Layout, numbers: range, with_rows: bool) -> Iterator[str]:
    """A page as text: a line of titles, and one for each result with these numbers; in parts if it is long."""
    lines = [line_of(layout.header(with_rows))]
    for n in numbers:
        lines.append(line_of(layout.cells(tables.result(n), with_rows)))
        if len(lines) == LINES_AT_ONCE:
            yield "\n".join(lines) + "\n"
            lines = []
    if lines:
        yield "\n".join(lines) + "\n"


# ---- the viewer
class Picture(NamedTuple):
    """What stands on a screen: a header, if there is room for one, lines of results, and below them lines that say
    something. `asking` says whether the last one is a question, and the cursor stands behind it."""

    header: Optional[str]
    results: List[str]
    told: List[str]
    asking: bool


class Question(NamedTuple):
    """A question of the viewer: its text, what has been typed, and what is done with it at the end."""

    text: str
    typed: str
    answered: Callable[[str], None]


class View:
    """A viewer: which results are shown, and what each key does. It reads the results that it shows and no others,
    and those that it showed last not again.

    Keys are letters, and the names in `keys` of those that have no letter."""

    def __init__(self, tables: Tables, layout: Layout, size: int, first: int, with_rows: bool) -> None:
        self.tables, self.layout, self.size = tables, layout, size
        self.results = tables.size.results
        self.top, self.left_out, self.with_rows = first, 0, with_rows
        self.titles, self.room, self.page = 1, size, size
        self.message = ""
        self.question: Optional[Question] = None
        self.ended = False
        self.read: Dict[int, ResultRow] = {}
        self.keys: Dict[str, Callable[[], None]] = {
            "q": self.end,
            "?": self.help,
            "r": self.switch_rows,
            ":": self.ask_number,
            "/": self.ask_rows,
        }
        for key in (" ", "f", "page down"):
            self.keys[key] = lambda: self.move(self.page)
        for key in ("b", "page up"):
            self.keys[key] = lambda: self.move(-self.page)
        for key in ("j", "enter", "down"):
            self.keys[key] = lambda: self.move(1)
        for key in ("k", "up"):
            self.keys[key] = lambda: self.move(-1)
        for key in ("g", "home"):
            self.keys[key] = lambda: self.show(0)
        for key in ("G", "end"):
            self.keys[key] = lambda: self.show(self.last_top())
        self.keys["right"] = lambda: self.shift(1)
        self.keys["left"] = lambda: self.shift(-1)

    # ---- what is shown
    def fit(self, height: int) -> None:
        """Fits the page to a screen of this many lines: one of titles if there is room, and one below the results."""
        self.titles = 1 if height > 2 else 0
        self.room = max(height - self.titles - 1, 0)
        self.page = max(min(self.size, self.room), 1)

    def picture(self, height: int, width: int) -> Picture:
        """What stands on a screen of this many lines and places."""
        self.fit(height)
        numbers = range(self.top, min(self.top + min(self.page, self.room), self.results))
        self.read = {n: self.read.get(n) or self.tables.result(n) for n in numbers}
        lines = [line_of(self.layout.cells(result, self.with_rows), self.left_out) for result in self.read.values()]
        header = line_of(self.layout.header(self.with_rows), self.left_out)
        wide = self.left_out > 0 or width_of(header) > width
        told = self.told(numbers, wide, width)[: self.room + 1]
        shown = [cut(line, width) for line in lines[: self.room + 1 - len(told)]]
        return Picture(cut(header, width) if self.titles else None, shown, told, self.question is not None)

    def told(self, numbers: range, wide: bool, width: int) -> List[str]:
        """The lines below the results: the question that is asked, what is to be said, or which results are shown."""
        if self.question:
            return [last_of(self.question.text + self.question.typed, width)]
        if self.message:
            return textwrap.wrap(printable(self.message), max(width, 1))
        more = ", left and right: more columns" if wide else ""
        return [cut(self.where(numbers, width) + ", q: quit, ?: help" + more, width)]

    def where(self, numbers: range, width: int) -> str:
        """Which results are shown. If the line is too short for both ends, and long enough for one, from which on."""
        if not numbers:
            return count(self.results, "result") if self.results else "no results"
        of = " of {:,}".format(self.results)
        first = "result {:,}".format(numbers[0]) + of
        if len(numbers) == 1:
            return first
        both = "results {:,} to {:,}".format(numbers[0], numbers[-1]) + of
        return "from " + first if len(both) > width >= len("from " + first) else both

    # ---- what keys do
    def press(self, key: str) -> None:
        """Does what a key does."""
        self.message = ""
        if self.question:
            self.take(self.question, key)
        elif key in self.keys:
            self.keys[key]()
        elif key in "0123456789" and len(key) == 1:
            self.ask_number(key)

    def take(self, question: Question, key: str) -> None:
        """Takes a key into what is typed, or ends the question."""
        if key == "enter":
            self.question = None
            question.answered(question.typed)
        elif key == "escape" or key == "backspace" and not question.typed:
            self.question = None
        elif key == "backspace":
            self.question = question._replace(typed=question.typed[:-1])
        elif len(key) == 1 and key.isprintable():
            self.question = question._replace(typed=question.typed + key)

    def last_top(self) -> int:
        """The first result of the last page."""
        return max(self.results - self.page, 0)

    def show(self, n: int) -> None:
        """Shows results from this one on."""
        self.top = n

    def move(self, by: int) -> None:
        """Goes on or back by so many results. The last page stays full, unless a result on it was asked for."""
        most = max(self.last_top(), self.top)
        self.top = max(min(self.top + by, most), 0)

    def shift(self, by: int) -> None:
        """Leaves out one column more at the left, or one less. The last one stays."""
        columns = len(self.layout.header(self.with_rows)) - 1
        self.left_out = max(min(self.left_out + by, columns - 1), 0)

    def switch_rows(self) -> None:
        """Shows row numbers, or no longer."""
        self.with_rows = not self.with_rows
        self.shift(0)

    def end(self) -> None:
        """Ends the viewer."""
        self.ended = True

    def help(self) -> None:
        """Tells what the keys do."""
        self.message = HELP + (HELP_OF_COPIES if any(self.layout.counted) else "")

    # ---- questions
    def ask_number(self, typed: str = "") -> None:
        """Asks for the number of a result, to go there."""
        self.question = Question("go to result: ", typed, self.answered_by(self.number_given))

    def ask_rows(self) -> None:
        """Asks for row numbers, to go to the result that is made of these rows."""
        tables = ", ".join(column.title for column in self.layout.rows[1:])
        self.question = Question("rows of %s: " % tables, "", self.answered_by(self.rows_given))

    def answered_by(self, done: Callable[[str], int]) -> Callable[[str], None]:
        """What is done with an answer: the result that it names is shown, or why there is none is told."""

        def answered(typed: str) -> None:
            """Shows the result, or tells why there is none. Where nothing was typed, nothing is done."""
            if not typed.strip():
                return
            try:
                self.show(done(typed))
            except Refused as refused:
                self.message = refused.why
            except InputError as error:
                self.message = str(error)

        return answered

    def number_given(self, typed: str) -> int:
        """The number of a result that was typed; Refused if there is none."""
        return self.tables.result(number_in(typed, "the number of a result")).n

    def rows_given(self, typed: str) -> int:
        """The number of the result with the rows that were typed; Refused if there is none."""
        return self.tables.number_of(*pairs_in(typed))
