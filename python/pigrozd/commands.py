"""The commands: what each does with its arguments. commandline.py reads these and tells errors."""
import argparse
import os
import re
import shlex
from typing import List, NamedTuple, Optional, Sequence, Tuple, Union

from . import csvfiles, dumps, fileformat, files, folding, messages, plans, screens, viewing
from .access import PAGE, Tables
from .answers import BEHIND_PLAN, MEANINGS, NO_HOLDER, NO_SUCH_RESULT, NONE_FOUND, NOT_A_RESULT, ROW_SHORT
from .answers import TOO_MANY_CHOICES, TOO_MANY_RESULTS, Kind, Refused
from .drawing import Drawing, DrawingOfStuck, drawing_without_plan
from .folding import OtherPlan, other_plan
from .joining import count_bytes, join_bytes
from .library import engine_named
from .limits import MOST_OUTPUT, PROGRAM_BYTES, PROGRAM_WORDS
from .messages import InputError
from .names import NAMES_ENDING, Names, digest, digest_in, fault_of_table_name, load_beside, names_beside, names_text
from .streams import standard_input, tell, write_out
from .values import values_of, word_of_text

DONE, REFUSED, UNUSABLE = 0, 1, 2  # how a command ends

Arguments = argparse.Namespace
Drawn = Union[Drawing, DrawingOfStuck]


class Inputs(NamedTuple):
    """What is joined: the bytes of a file, its names, and the CSV files that it is packed out of, if it is."""

    data: bytes
    names: Names
    sheets: Sequence[csvfiles.Sheet] = ()


# ---- what is joined
def load_packed(path: str) -> Tuple[bytes, Names]:
    """The bytes of a packed file, and the names beside it."""
    data = files.load(path)
    return data, names_beside(path, data, warn)


def warn(text: str) -> None:
    """Tells what does not end a command."""
    tell("warning: " + text)


def is_packed(paths: Sequence[str]) -> bool:
    """Whether a packed file is given: one file alone, whose name does not end in .csv."""
    return len(paths) == 1 and not paths[0].lower().endswith(csvfiles.ENDING)


def refused_file(path: str, refused: Refused, plan: Optional[str] = None) -> int:
    """Tells that a packed file is refused, and which command shows where it is at fault; the status."""
    hint = ""
    if refused.number in (1, 2) and refused.detail == 0:  # no record of document 01 is there
        hint = "; a CSV file's name ends in .csv"
        if path.lower().endswith(csvfiles.ENDING):
            hint = "; a packed file is wanted here, and pigrozd pack makes one of CSV files"
    elif refused.kind is Kind.OFFSET or refused.kind is Kind.PLAN_INDEX and plan is None:
        hint = "; %s shows it" % command_text("dump", operand(path))
    elif refused.number == NO_HOLDER and plan is not None:
        hint = "; %s shows it" % command_text("plan", operand(path), *option("--plan", plan))
    elif refused.number == NONE_FOUND:
        hint = "; %s shows it" % command_text("plan", operand(path))
    tell("%s: %s%s" % (path, refused, hint))
    return REFUSED


def refused_inputs(a: Arguments, refused: Refused) -> int:
    """Tells that what the arguments name is refused, and which command shows why; the status."""
    if is_packed(a.files):
        return refused_file(a.files[0], refused, a.plan)
    hint = "; %s shows it" % command_for_tables(a.files, a.copies) if refused.number == NONE_FOUND else ""
    tell("%s%s" % (refused, hint))
    return REFUSED


def command_text(*words: str) -> str:
    """A command of pigrozd as a shell takes it."""
    return " ".join(map(shlex.quote, ["pigrozd", *words]))


def option(name: str, value: str) -> List[str]:
    """An option of a command. A value that begins with a dash is tied to the name, or it would be an option itself."""
    return [name + "=" + value] if value.startswith("-") else [name, value]


def operand(path: str) -> str:
    """A file's name in a command. One that begins with a dash gets its folder, or it would be an option."""
    return os.path.join(os.curdir, path) if path.startswith("-") else path


def command_for_tables(paths: Sequence[str], copies: Optional[str]) -> str:
    """The command that draws the plan that is found for CSV files, or what remains of them. A file's name with = in it
    gets its folder, or it would be a table to come."""
    words = [os.path.join(os.curdir, path) if GIVEN_TABLE.fullmatch(path) else operand(path) for path in paths]
    options = [] if copies is None else option("--copies", copies)
    return command_text("plan", *options, "--tables", *words)


def load_inputs(a: Arguments) -> Inputs:
    """The file to join: packed out of CSV files, or given packed, then with another plan if one is given."""
    if not is_packed(a.files):
        return pack_inputs(a)
    if a.attributes is not None or a.text is not None:
        raise InputError("--attributes and --text go with CSV files, and %s is taken as a packed file" % a.files[0])
    if a.copies is not None or a.fold:
        raise InputError("--copies and --fold go with CSV files, and %s is taken as a packed file" % a.files[0])
    data, names = load_packed(a.files[0])
    if a.plan is not None:
        file = fileformat.read(data, names)
        if file.fault and file.fault.kind is Kind.OFFSET:
            raise file.fault
        data = data[: file.plan_at] + fileformat.plan_record(plans.code_of(a.plan, table_names(file, names)))
    return Inputs(data, names)


def pack_inputs(a: Arguments) -> Inputs:
    """The file that is packed out of CSV files."""
    sheets = csvfiles.read_all(a.files, csvfiles.reading_of(a.copies, a.text, a.fold))
    return Inputs(*csvfiles.pack(sheets, a.plan, a.attributes, a.text), sheets)


def plan_for_folded(file: fileformat.File, names: Names, sheets: Sequence[csvfiles.Sheet]) -> Optional[OtherPlan]:
    """What is followed in place of the plan of a file that is packed out of folded CSV files, if that is not what is
    followed where they are not folded."""
    if not file.plan:
        return None
    before = [plans.Shape(table.attributes, sheet.folding.taken) for table, sheet in zip(file.tables, sheets)]
    return other_plan(file.plan, before, file.tables, names)


def table_names(file: fileformat.File, names: Names) -> List[str]:
    """The names of a file's tables, in the order of their numbers."""
    return [names.table(number) for number in range(len(file.tables))]


# ---- join
def join(a: Arguments) -> int:
    """Joins CSV files or a packed file, and writes the rows as CSV."""
    try:
        return join_and_write(a)
    except Refused as refused:
        if is_packed(a.files):
            return refused_file(a.files[0], refused, a.plan)
        hints = {
            NO_HOLDER: "; --explain draws the plan",
            NONE_FOUND: "; %s shows it" % command_for_tables(a.files, a.copies),
        }
        tell("%s%s" % (refused, "" if a.explain else hints.get(refused.number, "")))
        return REFUSED


def join_and_write(a: Arguments) -> int:
    """Joins what the arguments name, and writes the rows."""
    engine = engine_named(a.engine, "--engine")
    if a.output != "-":
        files.refuse_target(a.output, a.files + [path + NAMES_ENDING for path in a.files])
    data, names, sheets = load_inputs(a)
    file = fileformat.read(data, names)
    if a.fold:
        refuse_another_order(plan_for_folded(file, names, sheets))
    drawing = drawing_of(file, names) if a.explain else None
    if drawing:
        tell("\n".join(drawing.tree(followed_alone=True)), prefix="")
    result = join_bytes(data, names, engine=engine)
    if isinstance(drawing, Drawing):
        tell("\n".join([""] + drawing.work(result)), prefix="")
    text = csvfiles.columns_text([(int(attribute), values) for attribute, values in result.columns.items()], names)
    if a.output == "-":
        write_out(text)
    else:
        files.save([(a.output, text.encode("utf-8"))])
    return DONE


def refuse_another_order(other: Optional[OtherPlan]) -> None:
    """Refuses to fold where the rows would stand in another order than without it."""
    if other:
        raise InputError("--fold: %s; %s keeps the order" % (other, plan_option(other.before)))


def plan_option(plan: str) -> str:
    """The option for a plan, as a shell takes it."""
    return " ".join(map(shlex.quote, option("--plan", plan)))


def drawing_of(file: fileformat.File, names: Names) -> Optional[Drawn]:
    """The drawing of a file's own plan, or of the one that is found; None if it has a plan that cannot be drawn."""
    if file.found:
        return drawing_without_plan(file.tables, names)
    return Drawing(file.plan, file.tables, names) if file.plan else None


# ---- view
def view(a: Arguments) -> int:
    """Shows results of a join by their numbers, a page at a time, without writing out the others."""
    try:
        return view_results(a)
    except Refused as refused:
        return refused_inputs(a, refused)


def view_results(a: Arguments) -> int:
    """Shows what the arguments name: on a terminal for as long as the user likes, else one page as text."""
    at = None if a.at is None else viewing.number_in(a.at, "--at")
    pairs = None if a.find is None else viewing.pairs_in(a.find, " of --find")
    size = PAGE if a.rows is None else viewing.number_in(a.rows, "--rows")
    if size == 0:
        raise InputError("--rows is at least 1")
    if at is not None and pairs is not None:
        raise InputError("--at and --find both say with which result to begin; give one of them")
    data, names, _ = load_inputs(a)
    tables, first = Tables(data, names), 0
    if pairs is not None:
        first = tables.number_of(*pairs)
    elif at is not None:
        first = tables.result(at).n
    layout = viewing.Layout(tables, fileformat.read(data, names), names)
    if screens.is_there():
        screens.run(viewing.View(tables, layout, size, first, a.row_numbers))
        return DONE
    for text in viewing.page(tables, layout, tables[first : first + size].numbers, a.row_numbers):
        write_out(text)
    return DONE


# ---- count
def count(a: Arguments) -> int:
    """Counts the results of a join and the bytes that they take, without writing them."""
    try:
        size = count_bytes(*load_inputs(a)[:2])
    except Refused as refused:
        return refused_inputs(a, refused)
    least = "at least " if size.at_least else ""
    write_out("results %s%d\nbytes %s%d\n" % (least, size.results, least, size.bytes))
    return DONE


# ---- pack
def pack(a: Arguments) -> int:
    """Packs CSV files into a file of document 01, with its names beside it."""
    named = a.out + NAMES_ENDING
    for path in (a.out, named):
        files.refuse_target(path, a.files)
    if not a.force:
        refuse_foreign(a.out)
    data, names, sheets = pack_inputs(a)
    file = fileformat.read(data, names)
    if file.fault and not a.anyway:
        draws = command_for_tables(a.files, a.copies) if file.found else "pigrozd plan"
        tell("%s; nothing is written (--anyway writes it, %s draws it)" % (file.fault, draws))
        return REFUSED
    files.save([(a.out, data), (named, names_text(names, data).encode("utf-8"))])
    write_out("%s: %s%s\n" % (a.out, sizes_in_words(file), ", no plan" if file.found else ""))
    if a.fold:
        tell_folded(file, names, sheets)
    note = program_refuses(file)
    if note:
        tell("note: " + note)
    return DONE


def sizes_in_words(file: fileformat.File) -> str:
    """How many bytes, tables and rows a file has, and how many copies, if some rows are counted."""
    sizes = {"byte": len(file.data), "table": len(file.tables), "row": file.row_count()}
    if file.is_counted():
        sizes["copy"] = file.pair_count()
    return ", ".join(messages.count(number, thing) for thing, number in sizes.items())


def tell_folded(file: fileformat.File, names: Names, sheets: Sequence[csvfiles.Sheet]) -> None:
    """Tells what folding saved; and if a plan is mended in another way for it, what is followed."""
    for line in folding.in_words([sheet.folded for sheet in sheets]):
        write_out(line + "\n")
    other = plan_for_folded(file, names, sheets)
    if other:
        tell("note: %s; %s keeps the order" % (other, plan_option(other.before)))


def refuse_foreign(out: str) -> None:
    """Refuses to replace what pack did not write. It wrote OUT and OUT.names if the digest in OUT.names is OUT's."""
    named = load_beside(out)
    if named is None:
        if os.path.exists(out) and os.path.getsize(out) > 0:
            raise InputError("%s is there and was not packed here; it is left as it is (--force replaces it)" % out)
        return
    written = digest(files.load(out)) if os.path.exists(out) else ""
    if digest_in(named.decode("utf-8", "replace")) != written:
        raise InputError(
            "%s%s is there and was not packed with %s; it is left as it is (--force replaces it)"
            % (out, NAMES_ENDING, out)
        )


def program_refuses(file: fileformat.File) -> Optional[str]:
    """Why the program, which lends fixed buffers, refuses a file that was packed; None if it does not."""
    if file.fault:
        return str(file.fault)
    if len(file.data) > PROGRAM_BYTES:
        return "the program says 13 to a file of more than 65,536 bytes; pigrozd join takes it"
    need = plans.words_needed(file.mended.plan, file.tables) if file.mended else 0
    if need > PROGRAM_WORDS:
        told = "the program says 10, it lends 16,384 words of scratch; pigrozd join takes the file with {:,}"
        return told.format(need)
    return None


# ---- unpack
def unpack(a: Arguments) -> int:
    """Writes the tables of a packed file as CSV files, and prints the command that packs them again."""
    data, names = load_packed(a.file)
    file = fileformat.read(data, names)
    if file.fault and file.fault.kind is Kind.OFFSET and file.fault.number != BEHIND_PLAN:
        return refused_file(a.file, file.fault)
    paths = [os.path.join(a.dir, name + csvfiles.ENDING) for name in table_names(file, names)]
    texts = [csvfiles.table_text(file, table, names) for table in file.tables]
    for path in paths:
        files.refuse_target(path, [a.file, a.file + NAMES_ENDING])
        if os.path.exists(path) and not a.force:
            raise InputError("%s is there already (--force replaces it)" % path)
    os.makedirs(a.dir, exist_ok=True)
    files.save([(path, text.encode("utf-8")) for path, text in zip(paths, texts)])
    if file.fault:
        bad = "" if file.found else "the plan is bad: "
        tell("%s: the tables are written, but %s%s" % (a.file, bad, file.fault))
        return REFUSED
    write_out(command_to_pack(a.file, file, names, paths) + "\n")
    return DONE


def command_to_pack(out: str, file: fileformat.File, names: Names, paths: Sequence[str]) -> str:
    """The command that makes the same file of the CSV files. It names no plan if the file has none."""
    used = plans.width(file.tables)
    attributes = csvfiles.csv_line(
        [names.attribute(n) if n in used else "" for n in range(max(used, default=-1) + 1)]
    )
    options = option("--plan", plans.to_text(file.plan, names.table)) if file.plan else []
    options += option("--attributes", attributes)
    if file.is_counted():
        options += option("--copies", names.copies_column())
    texts = [names.attribute(n) for n in used if n in names.texts]
    if texts:
        options += option("--text", csvfiles.csv_line(texts))
    return command_text("pack", operand(out), *options, *map(operand, paths))


# ---- rows
def rows(a: Arguments) -> int:
    """Writes what the program printed for a file as CSV with the names of the attributes."""
    data, names = load_packed(a.file)
    file = fileformat.read(data, names)
    where = a.print or "standard input"
    try:
        found = printed_rows(files.load(a.print) if a.print else standard_input(), where)
    except Refused as refused:
        tell("%s: %s; %s" % (where, refused, what_helps(a.file, refused, len(plans.width(file.tables)))))
        return REFUSED
    if file.fault:
        raise InputError("%s: %s; so it is not the file of this print" % (a.file, file.fault))
    attributes = plans.width(file.tables)
    for at, row in enumerate(found, 2):
        if len(row) != len(attributes):
            raise InputError(
                "%s, line %d: %s, but a result of %s has %d"
                % (where, at, messages.count(len(row), "value"), a.file, len(attributes))
            )
    columns = [(n, values_of(row[place] for row in found)) for place, n in enumerate(attributes)]
    write_out(csvfiles.columns_text(columns, names))
    return DONE


def what_helps(path: str, refused: Refused, values: int) -> str:
    """What to do about a refusal that the program printed for a file whose results have so many values."""
    if refused.kind in (Kind.OFFSET, Kind.PLAN_INDEX):
        answer = (str(refused.number), str(refused.detail))
        return "%s shows the place" % command_text("dump", operand(path), "--answer", *answer)
    if refused.number == NONE_FOUND:
        return "%s shows why" % command_text("plan", operand(path))
    if refused.number == TOO_MANY_CHOICES:
        return "it is the slow engine's answer, and this program never gives it"
    if refused.number in (NO_SUCH_RESULT, NOT_A_RESULT, ROW_SHORT):
        return "it is an answer of calls for one result, and this program never gives it"
    if refused.number == TOO_MANY_RESULTS and refused.detail * values > MOST_OUTPUT:
        return "no output fits them, and %s says how many bytes they take" % command_text("count", operand(path))
    return "%s has more room" % command_text("join", operand(path))


def printed_rows(text: bytes, where: str) -> List[List[int]]:
    """The rows of words in what the program printed, if it is whole."""
    lines = text.decode("ascii", "replace").splitlines() or [""]
    if text and not text.endswith(b"\n"):
        raise InputError("%s: the last line has no end, so the print is not whole" % where)
    refused = re.fullmatch("refused ([0-9]{1,2}) ([0-9]{1,20})", lines[0])
    if refused and int(refused[1]) in MEANINGS and int(refused[1]) != 0:
        if len(lines) > 1:
            raise InputError("%s, line 2: a refusal is one line, found %r" % (where, lines[1][:80]))
        raise Refused(int(refused[1]), int(refused[2]))
    head = re.fullmatch("rows ([0-9]{1,7})", lines[0])
    if not head:
        raise InputError("%s, line 1: expected rows N or refused NUMBER DETAIL, found %r" % (where, lines[0][:80]))
    out = int(head[1])
    body, tail = lines[1 : 1 + out], lines[1 + out :]
    for at, line in enumerate(body, 2):
        if not re.fullmatch("[0-9]+( [0-9]+)*", line) or None in map(word_of_text, line.split()):
            raise InputError("%s, line %d: expected a row, found %r" % (where, at, line[:80]))
    if len(tail) != 1 or not re.fullmatch("steps( [0-9]+){4}", tail[0]):
        raise InputError(
            "%s: %s and then steps expected behind line 1, found %s"
            % (where, messages.count(out, "row"), messages.count(len(lines) - 1, "line"))
        )
    return [list(map(int, line.split())) for line in body]


# ---- dump
def dump(a: Arguments) -> int:
    """Shows a packed file, whole or bad, record by record."""
    if a.answer and not (a.answer[0] in MEANINGS and a.answer[1] >= 0):
        raise InputError("--answer %d %d: there is no such answer (docs/answers/README.md)" % tuple(a.answer))
    data = files.load(a.file)
    try:
        names = names_beside(a.file, data, warn)
    except InputError as error:  # the file is shown all the same
        warn("%s; names are left out" % error)
        names = Names()
    file = fileformat.read(data, names)
    answer = (a.answer[0], a.answer[1]) if a.answer else None
    write_out("\n".join(dumps.dump(a.file, file, names, a.all, answer)) + "\n")
    return DONE


# ---- plan
GIVEN_TABLE = re.compile("([^=/]+)=(.+)", re.DOTALL)  # a table of --tables that is no CSV file: NAME=ATTRIBUTE,..


def plan(a: Arguments) -> int:
    """Draws a plan, and the plan that the join follows in its place; or the plan that is found. The status is 1 if it
    is refused, or none can be found."""
    if a.tables and a.plan is not None:
        raise InputError("--plan goes with a FILE, --tables with a PLAN")
    if not a.tables and a.copies is not None:
        raise InputError("--copies goes with --tables")
    if not a.tables and a.what is None:
        raise InputError("a packed FILE is wanted, or --tables, with a PLAN before it or without one")
    if not a.tables and a.what.startswith("("):
        raise InputError("a PLAN needs --tables")
    try:
        drawing = drawing_of_tables(a.what, a.tables, a.copies) if a.tables else drawing_of_file(a.what, a.plan)
    except Refused as refused:
        if a.tables:
            raise
        return refused_file(a.what, refused, a.plan)
    write_out("\n".join(drawing.dot() if a.dot else drawing.tree()) + "\n")
    return REFUSED if drawing.refused else DONE


def drawing_of_file(path: str, text: Optional[str]) -> Drawn:
    """The drawing of a packed file's plan, or of the one that is found for it, or of another plan for its tables."""
    data, names = load_packed(path)
    file = fileformat.read(data, names)
    drawing = drawing_of(file, names) if text is None else None
    if file.fault and not drawing and (text is None or file.fault.kind is Kind.OFFSET):
        raise file.fault
    return drawing or checked_drawing(text or "", file.tables, names)


def drawing_of_tables(text: Optional[str], given: Sequence[str], copies: Optional[str]) -> Drawn:
    """The drawing of a plan for CSV files, or for tables given as NAME=ATTRIBUTE,ATTRIBUTE; without a plan, of the one
    that is found for them. The copies of rows stand in the column of this name."""
    reading = csvfiles.reading_of(copies, None)
    sheets = [given_table(table, reading) for table in given]
    csvfiles.check_copies(sheets, reading)
    names = csvfiles.names_of(sheets)
    shapes = [shape_of(sheet, names) for sheet in sheets]
    return drawing_without_plan(shapes, names) if text is None else checked_drawing(text, shapes, names)


def shape_of(sheet: csvfiles.Sheet, names: Names) -> plans.Shape:
    """What a plan is checked against of a table. The rows of one that is no CSV file are not known."""
    attributes, copies = csvfiles.attributes_of(sheet, names), sheet.folding.copies
    if GIVEN_TABLE.fullmatch(sheet.path):
        return plans.Shape(attributes, None)
    return plans.Shape(attributes, len(copies), counted=sheet.counted, pairs=sum(copies))


def given_table(text: str, reading: csvfiles.Reading) -> csvfiles.Sheet:
    """A table of --tables: a CSV file, or NAME=ATTRIBUTE,.. whose rows are not known."""
    found = GIVEN_TABLE.fullmatch(text)
    if not found:
        if text.startswith("(") and not os.path.exists(text):
            raise InputError("%s is no file; a PLAN stands before --tables" % text)
        return csvfiles.read(text, reading)
    sheet = csvfiles.Sheet(text, reading)
    sheet.name = found[1]
    fault = fault_of_table_name(sheet.name)
    if fault:
        raise InputError("--tables %s: %s" % (text, fault))
    csvfiles.read_header(sheet, 1, csvfiles.name_list(found[2], "--tables"))
    return sheet


def checked_drawing(text: str, tables: Sequence[plans.Shape], names: Names) -> Drawing:
    """The drawing of a plan given as text. A plan that does not name each table once is refused."""
    code = plans.code_of(text, [names.table(number) for number in range(len(tables))])
    fault = plans.check(code, tables, names)
    if fault and fault.number != NO_HOLDER:
        raise fault
    return Drawing(plans.from_bytes(code), tables, names)
