"""The readable dump of a file, bad ones too. A line has an offset, the bytes from there on, and what they are."""
from typing import Callable, List, Optional, Tuple

from . import fileformat, finding, mending, plans
from .answers import IN_FILE, MEANINGS, NOT_A_RESULT, ROW_SHORT, TOO_MANY_CHOICES, Kind
from .fileformat import File
from .limits import MOST_ATTRIBUTES, MOST_CHOICES, MOST_ROWS, PROGRAM_BYTES
from .messages import count, listed
from .names import Names
from .values import NOT_RECORDED

PER_LINE = 16
FIRST_LINES = 3  # of a long column, this many lines and the last one are shown

Describe = Callable[[int, int], str]  # what the bytes from one offset to another are


class Dump:
    """The lines of a dump, as they are made. `mark` is the offset to mark, `label` what is written there."""

    def __init__(
        self, file: File, names: Names, everything: bool = False, mark: Optional[int] = None, label: str = ""
    ) -> None:
        self.file, self.names, self.everything = file, names, everything
        self.mark, self.label = mark, label
        self.lines: List[str] = []

    # ---- lines
    def field(self, start: int, end: int, describe: Describe, per_line: int = PER_LINE, whole: bool = False) -> None:
        """The bytes from start to end, or to the file's end. Long fields are shortened unless they are to be whole."""
        end = min(end, len(self.file.data))
        starts = range(start, end, per_line)
        marked = (self.mark - start) // per_line if self.mark is not None and start <= self.mark < end else None
        before = -1
        for i in range(len(starts)) if whole or self.everything else shortened(len(starts), marked):
            if i > before + 1:
                self.lines.append("          ..  %s left out" % count(starts[i] - starts[before + 1], "byte"))
            before, stop = i, min(starts[i] + per_line, end)
            octets = " ".join("%02x" % b for b in self.file.data[starts[i] : stop])
            self.lines.append("%8d  %-47s  %s" % (starts[i], octets, describe(starts[i], stop)))
            if i == marked and self.mark is not None:
                self.point(3 * (self.mark - starts[i]))

    def point(self, shift: int = 0) -> None:
        """The mark and its label, below the line before."""
        self.lines.append(" " * (10 + shift) + "^^ " + self.label)

    def title(self, at: int, text: str) -> None:
        """The first line of what begins at an offset."""
        self.lines += ["", "offset %d: %s" % (at, text)]

    def rest(self, at: int, what: str) -> None:
        """Bytes that were not read, with their letters."""
        if at < len(self.file.data):
            self.title(at, what)
            self.field(
                at,
                len(self.file.data),
                lambda a, b: "".join(chr(c) if 32 <= c < 127 else "." for c in self.file.data[a:b]),
            )

    # ---- records
    def attribute(self, number: int) -> str:
        """An attribute's number, and its name if it has one."""
        name = self.names.attributes.get(number)
        return "%d %s" % (number, name) if name else str(number)

    def table(self, at: int, title: str) -> int:
        """A table record as far as it is there; where what was read of it ends."""
        data = self.file.data
        counted = data[at : at + 2] == fileformat.COUNTED_MARK
        self.title(at, title)
        self.field(at, at + 2, lambda a, b: "mark of a table with copies" if counted else "mark of a table")
        mask, rows = fileformat.number_at(data, at + 2), fileformat.number_at(data, at + 6)
        attributes = fileformat.attributes_of(mask)
        named = "attributes " + ", ".join(map(self.attribute, attributes)) if attributes else "no attributes"
        self.field(at + 2, at + 6, lambda a, b: "cut" if b < at + 6 else "mask %d: %s" % (mask, named))
        self.field(at + 6, at + 10, lambda a, b: "cut" if b < at + 10 else count(rows, "row"))
        if len(data) < at + 10 or not 1 <= len(attributes) <= MOST_ATTRIBUTES or rows > MOST_ROWS:
            return at + 10
        table = fileformat.Table(at, attributes, rows, counted=counted)
        self.column(table.copies_at, "copies of ", str)
        for place, attribute in enumerate(attributes):
            self.column(table.column(place), self.names.attribute(attribute) + ", ", word_in_words)
        return table.end()

    def column(self, between: Tuple[int, int], called: str, in_words: Callable[[int], str]) -> None:
        """The column between two offsets, with what it is called before its rows, and what each of its words says."""
        start, end = between

        def describe(a: int, b: int) -> str:
            values = [in_words(fileformat.number_at(self.file.data, i)) for i in range(a, b - 3, 4)]
            first = (a - start) // 4
            last = first + len(values) - 1
            where = "row %d" % first if first >= last else "rows %d to %d" % (first, last)
            cut = ["cut"] if (b - a) % 4 else []
            return "%s%s: %s" % (called, where, " ".join(values + cut))

        self.field(start, end, describe)

    def plan(self, at: int) -> int:
        """The plan record as far as it is there; where it ends."""
        data, first = self.file.data, at + fileformat.PLAN_HEAD
        self.title(at, "plan")
        self.field(at, at + 2, lambda a, b: "mark of the plan")
        found = ": the library is to find a plan" if self.file.found else ""
        self.field(at + 2, first, lambda a, b: count(data[a], "byte") + found)
        end = first + data[at + 2] if first <= len(data) else first
        says = plan_in_words(data[first:end], self.file, self.names)
        self.field(first, end, lambda a, b: "index %-3d %s" % (a - first, says[a - first]), per_line=1, whole=True)
        return end

    def record_at_fault(self, at: int) -> None:
        """The record at an offset, which is at fault, as far as it can be read."""
        mark = self.file.data[at : at + 2]
        is_table = mark in (fileformat.TABLE_MARK, fileformat.COUNTED_MARK)
        if is_table and self.file.fault and self.file.fault.number != 5:
            self.rest(self.table(at, "table %d, not taken" % len(self.file.tables)), "not read")
        elif mark == fileformat.PLAN_MARK:
            self.plan(at)
        else:
            self.rest(at, "not read")

    def whole(self) -> List[str]:
        """The lines for all bytes of the file."""
        file = self.file
        for number, table in enumerate(file.tables):
            name = self.names.tables.get(number)
            copies = ", " + count(table.pairs, "copy") if table.counted else ""
            self.table(table.at, "table %d%s%s" % (number, name and " " + name or "", copies))
        at = file.tables[-1].end() if file.tables else 0
        if file.plan_at is not None:
            self.rest(self.plan(at), "behind the plan")
        else:
            self.record_at_fault(at)
        self.lines += ["", "%8d  end of the file" % len(file.data)]
        if self.mark == len(file.data):
            self.point()
        return self.lines


def shortened(lines: int, marked: Optional[int]) -> List[int]:
    """Which lines of a field are shown: the first ones, the marked one and the last one, or all if they are few."""
    here = range(lines)
    if lines <= FIRST_LINES + 2:
        return list(here)
    return sorted({*here[:FIRST_LINES], here[-1]} | ({marked} if marked is not None else set()))


def word_in_words(word: int) -> str:
    """What a word of a column says."""
    return "(not recorded)" if word == NOT_RECORDED else str(word)


def plan_in_words(code: bytes, file: File, names: Names) -> List[str]:
    """What each byte of a plan says, shifted by its depth; as far as the plan is spelled right."""
    wrong = plans.misspelled(code)
    joins = {join.index: join for join in plans.joins_of(file.plan)} if file.plan else {}
    owed, says = [0], []  # the depths of the plans that are still owed
    for index, byte in enumerate(code):
        if wrong and index >= wrong[0]:
            says.append("not read" if index > wrong[0] else "cannot stand here")
            continue
        depth = owed.pop()
        if byte == plans.JOIN:
            owed += [depth + 1] * 2
        says.append("  " * depth + byte_in_words(byte, joins.get(index), file, names))
    return says


def byte_in_words(byte: int, join: Optional[plans.Join], file: File, names: Names) -> str:
    """What a byte of a plan says: a table, or a join, with its key if it is known."""
    if byte != plans.JOIN:
        return "table %d%s" % (byte, " " + names.tables[byte] if byte in names.tables else "")
    if join is None:
        return "join"
    says = "join on " + (names.list(plans.key(join, file.tables)) or "nothing: every pair matches")
    if plans.without_holder(join, file.tables):
        return says + "; " + plans.no_holder(join, file.tables)
    return says + "; not well-behaved" if plans.lacking(join, file.tables) else says


def summary(path: str, file: File, names: Names) -> List[str]:
    """The first lines of a dump: the file, its answer as far as 9, 14 and 19, and the plan that a join follows."""
    first = "%s: %s, %s, %s" % (
        path,
        count(len(file.data), "byte"),
        count(len(file.tables), "table"),
        count(file.row_count(), "row"),
    )
    if file.is_counted():
        first += ", " + count(file.pair_count(), "copy")
    if file.plan:
        first += ", plan " + plans.to_text(file.plan, names.table)
    elif file.found:
        first += ", plan of length 0" + (": the library finds one" if file.found.plan else "")
    lines = [first]
    if file.fault:
        lines.append(str(file.fault))
    elif file.mended:
        lines += followed_in_words(file, file.mended, names)
    if len(file.data) > PROGRAM_BYTES:
        lines.append("the program says 13: it takes files of at most 65,536 bytes")
    if not file.fault and plans.choices(file.tables) > MOST_CHOICES:
        choices = plans.choices_in_words(file.tables)
        lines.append("the slow engine says 15: {}, and it goes through {:,} at most".format(choices, MOST_CHOICES))
    return lines


def followed_in_words(file: File, mended: mending.Mended, names: Names) -> List[str]:
    """That no refusal is due as far as the reader goes, and which plan a join follows if it is not the file's own."""
    others = ["14"] * bool(file.found) + ["19"] * file.is_counted()
    first = "within the rules: none of the answers %s is due; the scratch needed is %s, a result has %s" % (
        listed(["1 to 7" if file.found else "1 to 9", *others]),
        count(plans.words_needed(mended.plan, file.tables), "word"),
        count(len(plans.width(file.tables)), "value"),
    )
    if file.found:
        return [first, *finding.in_words(file.found, names)]
    return [first, *(mending.in_words(file.plan, mended, names) if file.plan and mended.plan != file.plan else [])]


def doubt(file: File, number: int, detail: int) -> Optional[str]:
    """Why an answer cannot be this file's, or None."""
    fault = file.fault
    if number == 13:
        return "this file has no more than 65,536 bytes" if len(file.data) <= PROGRAM_BYTES else None
    if fault and (number, detail) != (fault.number, fault.detail):
        return "this file is refused with %d %d" % (fault.number, fault.detail)
    if not fault and MEANINGS[number].kind in IN_FILE:
        return "this file is within the rules"
    if number == 10 and file.mended and detail != plans.words_needed(file.mended.plan, file.tables):
        return "this file needs %s" % count(plans.words_needed(file.mended.plan, file.tables), "word")
    if number == TOO_MANY_CHOICES and plans.choices(file.tables) <= MOST_CHOICES:
        return "this file has %s" % plans.choices_in_words(file.tables)
    if number in (TOO_MANY_CHOICES, NOT_A_RESULT) and detail:
        return "the detail of %d is 0" % number
    if number == ROW_SHORT and detail != len(plans.width(file.tables)):
        return "a result of this file has %s" % count(len(plans.width(file.tables)), "value")
    return None


def dump(
    path: str, file: File, names: Names, everything: bool = False, answer: Optional[Tuple[int, int]] = None
) -> List[str]:
    """The lines of a dump. The byte that the answer points at is marked; without one, that of the file's own fault."""
    lines = summary(path, file, names)
    if answer is None:
        answer = (file.fault.number, file.fault.detail) if file.fault else (0, 0)
    else:
        wrong = doubt(file, *answer)
        lines.append("answer %d %d: %s%s" % (*answer, MEANINGS[answer[0]].means, wrong and "; but " + wrong or ""))
    number, detail = answer
    mark = fileformat.offset_of(file, number, detail)
    if mark is None and MEANINGS[number].kind is Kind.PLAN_INDEX:
        lines.append("nothing is marked: the file has no whole plan record")
    elif mark is None and MEANINGS[number].kind is Kind.TABLE:
        lines.append("nothing is marked: the file has no table %d" % detail)
    elif mark is not None and mark > len(file.data):
        lines.append("nothing is marked: offset %d is behind the file's end" % mark)
    label = "answer %d, detail %d: %s" % (number, detail, MEANINGS[number].means)
    if file.fault and answer == (file.fault.number, file.fault.detail):
        label += ": " + file.fault.why
    return lines + Dump(file, names, everything, mark, label).whole()
