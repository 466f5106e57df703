"""The command line: its arguments, its errors in words, its exit status.

0: joined, or done. 1: refused, also a plan that is drawn. 2: wrong usage, or a file that cannot be read or written.
130: interrupted.
"""
import argparse
import functools
import sys
from typing import Any, List, NoReturn, Optional, Sequence

from . import __version__, commands
from .access import PAGE
from .answers import Refused
from .commands import REFUSED, UNUSABLE
from .limits import HIGHEST_COUNT, MOST_CHOICES, MOST_COPIES
from .messages import InputError
from .streams import PROGRAM, tell, write_out
from .values import LARGEST

ABOUT = """Joins tables. `pigrozd join a.csv b.csv c.csv` joins CSV files by a plan that is found for them, or by the
one that --plan gives, `pigrozd view` shows results of such a join a page at a time, and `pigrozd count` says how many
there are; the other commands are for packed files, which are tables in one file, with a plan or without one, as
document 01 says, and for plans. `pigrozd COMMAND --help` says more of each, docs/TOOLS.md has examples."""


def main(arguments: Optional[Sequence[str]] = None) -> int:
    """Runs a command; its exit status. Whatever a user can do ends with one, and with a message if it is not 0."""
    try:
        return run(arguments)
    except SystemExit as end:  # of argparse: help, version, or wrong usage that was told
        return end.code if isinstance(end.code, int) else UNUSABLE
    except Refused as refused:
        tell(str(refused))
        return REFUSED
    except InputError as error:
        tell(str(error))
    except BrokenPipeError:  # the reader wants no more, and need not be told
        pass
    except OSError as error:
        tell("%s: %s" % (error.filename or "''", error.strerror) if error.filename is not None else str(error))
    except MemoryError:
        tell("there is not enough memory")
    return UNUSABLE


def run(arguments: Optional[Sequence[str]]) -> int:
    """Reads the arguments and runs their command."""
    parser = parser_of_all()
    found, unread = parser.parse_known_args(arguments)
    take_files(parser, found, unread)
    status: int = found.run(found)
    return status


def take_files(parser: argparse.ArgumentParser, found: argparse.Namespace, unread: List[str]) -> None:
    """Takes files that stand behind an option to those before it. argparse reads one group of them only."""
    if unread and (not hasattr(found, "files") or any(word.startswith("-") for word in unread)):
        parser.error("unrecognized arguments: " + " ".join(unread))
    if unread:
        found.files += unread


# ---- arguments
class Parser(argparse.ArgumentParser):
    """argparse's parser, which writes as the commands write: help to standard output, where an error of the stream is
    one; wrong usage to standard error, also where that is closed."""

    def error(self, message: str) -> NoReturn:
        """Tells wrong usage, and ends."""
        tell("%s%s: error: %s" % (self.format_usage(), self.prog, message), prefix="")
        sys.exit(UNUSABLE)

    def print_help(self, file: Any = None) -> None:
        """Writes the help to standard output."""
        write_out(self.format_help())


class ShowVersion(argparse.Action):
    """Writes the version and ends."""

    def __call__(self, parser: argparse.ArgumentParser, *_: Any) -> None:
        write_out("%s %s\n" % (PROGRAM, __version__))
        parser.exit()


@functools.lru_cache(maxsize=None)
def parser_of_all() -> argparse.ArgumentParser:
    """The parser of all commands."""
    parser = Parser(prog=PROGRAM, description=ABOUT, allow_abbrev=False)
    parser.add_argument("--version", action=ShowVersion, nargs=0, help="show the version and end")
    subparsers = parser.add_subparsers(title="commands", metavar="COMMAND", dest="command", required=True)
    for add in (add_join, add_view, add_count, add_pack, add_unpack, add_rows, add_dump, add_plan):
        add(subparsers)
    return parser


def add_command(subparsers: Any, function: Any, about: str) -> argparse.ArgumentParser:
    """The parser of one command, which is called as the function that runs it."""
    help_line = (function.__doc__ or "").split(". ")[0].rstrip(".")
    parser: argparse.ArgumentParser = subparsers.add_parser(
        function.__name__, help=help_line, description=about, allow_abbrev=False
    )
    parser.set_defaults(run=function)
    return parser


def add_csv_options(parser: argparse.ArgumentParser) -> None:
    """The options of how CSV files are read."""
    parser.add_argument(
        "--attributes",
        metavar="NAME,NAME,..",
        help="attributes in the order of their numbers, from 0 on; an "
        "empty name leaves its number free (without this: in order of first appearance)",
    )
    parser.add_argument("--text", metavar="NAME,..", help="these attributes hold texts and not numbers")
    add_copies_option(parser)
    parser.set_defaults(fold=False)


def add_copies_option(parser: argparse.ArgumentParser) -> None:
    """The option for the column of copies of CSV files."""
    parser.add_argument(
        "--copies",
        metavar="NAME",
        help="a column of this name is no attribute: it says how often each row stands there, 1 to {:,} times".format(
            MOST_COPIES
        ),
    )


def add_fold_option(parser: argparse.ArgumentParser, gives: str) -> None:
    """The option to fold CSV files; what it gives."""
    parser.add_argument(
        "--fold",
        action="store_true",
        help="make rows that stand next to each other and are equal one row with copies, so that a CSV file may have "
        "more than 4,096 rows; " + gives,
    )


def add_join(subparsers: Any) -> None:
    """pigrozd join"""
    p = add_command(
        subparsers,
        commands.join,
        "Joins CSV files, or one packed file, and writes the rows as CSV. The first line "
        "of a CSV file has the names of its attributes; attributes with one name are joined. A table is called as "
        "its file, without folder and ending. Values are 0 to %d; an empty cell is a value that was not recorded, and "
        "matches nothing. One file whose name does not end in .csv is a packed file. Without --plan the library finds "
        "a plan, if there is one, for CSV files and for a packed file that has none." % LARGEST,
    )
    p.add_argument(
        "files", metavar="FILE", nargs="+", help="CSV files, up to 16 of up to 4,096 rows; or a packed file"
    )
    p.add_argument(
        "--plan",
        help="join by this plan, such as '(frames (exposures readings))' (without this: by the one that is found, or "
        "that a packed file has)",
    )
    p.add_argument(
        "-o", "--output", metavar="OUT", default="-", help="the file to write (without this, or -: standard output)"
    )
    p.add_argument(
        "--explain",
        action="store_true",
        help="draw the plan that the join follows on standard error, with the work that was done",
    )
    p.add_argument(
        "--engine",
        metavar="ENGINE",
        default="join",
        help="join; or slow, for acceptance days: the slow engine goes through every choice of rows, {:,} at most, "
        "and gives the same rows, without counts (without this: join)".format(MOST_CHOICES),
    )
    add_csv_options(p)
    add_fold_option(p, "the rows of the join are the same, in the same order")


def add_view(subparsers: Any) -> None:
    """pigrozd view"""
    p = add_command(
        subparsers,
        commands.view,
        "Shows results of a join by their numbers, which count from 0 in the order of `pigrozd join`. On a terminal "
        "it shows a page of them and goes to any other result at once; `?` tells the keys. Else it prints one page. "
        "Only results that are shown are read. A join with {:,} results or more is refused. Files are given as to "
        "`pigrozd join`.".format(HIGHEST_COUNT),
    )
    p.add_argument("files", metavar="FILE", nargs="+", help="a packed file; or CSV files")
    p.add_argument("--at", metavar="N", help="begin with result number N (without this: with the first one, 0)")
    p.add_argument(
        "--find",
        metavar="ROW,ROW,..",
        help="begin with the result that is made of these rows: one row number, from 0, for each table in turn; 12.3 "
        "is copy 3 of row 12, from 0, where a table has copies",
    )
    p.add_argument("--rows", metavar="COUNT", help="so many results make a page (without this: %d)" % PAGE)
    p.add_argument(
        "--row-numbers", action="store_true", help="show the row numbers that a result is made of beside its values"
    )
    p.add_argument("--plan", help="join by this plan, as `pigrozd join --plan` does")
    add_csv_options(p)


def add_count(subparsers: Any) -> None:
    """pigrozd count"""
    p = add_command(
        subparsers,
        commands.count,
        "Prints how many results a join has, and how many bytes they take as the library writes them, 4 for each "
        "value. No result is written, so there may be more than `pigrozd join` can write. Where there are {:,} or "
        "more it prints that number, with `at least` before it. Files are given as to `pigrozd join`.".format(
            HIGHEST_COUNT
        ),
    )
    p.add_argument("files", metavar="FILE", nargs="+", help="a packed file; or CSV files")
    p.add_argument("--plan", help="join by this plan, as `pigrozd join --plan` does")
    add_csv_options(p)
    add_fold_option(p, "the results are the same")


def add_pack(subparsers: Any) -> None:
    """pigrozd pack"""
    p = add_command(
        subparsers,
        commands.pack,
        "Packs CSV files, read as `pigrozd join` reads them, into the file OUT, with a plan or without one; "
        "the names are kept in OUT.names. What was packed before is replaced, other files are not.",
    )
    p.add_argument("out", metavar="OUT", help="the file to write; OUT.names gets the names")
    p.add_argument("files", metavar="CSV", nargs="+", help="the tables, in the order of their numbers")
    p.add_argument(
        "--plan",
        help="the plan of the file, such as '(frames (exposures readings))' (without this: the file has a plan of "
        "length 0, and the library finds one)",
    )
    add_csv_options(p)
    add_fold_option(p, "tells what it saved")
    p.add_argument("--anyway", action="store_true", help="write the file though it will be refused")
    p.add_argument(
        "--force", action="store_true", help="replace OUT and OUT.names whatever they are; never one of the CSV files"
    )


def add_unpack(subparsers: Any) -> None:
    """pigrozd unpack"""
    p = add_command(
        subparsers,
        commands.unpack,
        "Writes the tables of a packed file as CSV files, and prints the command that packs them again. The first "
        "column of a table with copies says how often each row stands there; the command names it with --copies.",
    )
    p.add_argument("file", metavar="FILE")
    p.add_argument("dir", metavar="DIR", help="the folder for the CSV files; made if it is not there")
    p.add_argument("--force", action="store_true", help="replace CSV files that are there")


def add_rows(subparsers: Any) -> None:
    """pigrozd rows"""
    p = add_command(
        subparsers,
        commands.rows,
        "Writes what the program target/bin/pigrozd printed for FILE as CSV with the names " "of the attributes.",
    )
    p.add_argument("file", metavar="FILE", help="the packed file that was joined")
    p.add_argument("print", metavar="PRINT", nargs="?", help="the program's print (without this: standard input)")


def add_dump(subparsers: Any) -> None:
    """pigrozd dump"""
    p = add_command(
        subparsers,
        commands.dump,
        "Shows any file: records with offsets, masks, columns, plan. The byte that an "
        "answer's detail points at is marked: the answer given, or else the first one of 1 to 9, 14 and 19 that is "
        "due.",
    )
    p.add_argument("file", metavar="FILE")
    p.add_argument("--answer", metavar=("NUMBER", "DETAIL"), nargs=2, type=int, help="as in: refused NUMBER DETAIL")
    p.add_argument("--all", action="store_true", help="leave nothing of a long column out")


def add_plan(subparsers: Any) -> None:
    """pigrozd plan"""
    p = add_command(
        subparsers,
        commands.plan,
        "Draws a plan: each join with its key, the tables that are compared and their "
        "rows. A plan that is not well-behaved is drawn as sent, with what is chosen at each join, and as mended, "
        "which is how the join follows it. Where there is no plan the one that is found is drawn, with which table "
        "hangs under which; or the tables that remain and what they share, if none can be found. The status is 1 if "
        "the plan is refused or none can be found. FILE alone: its own plan, or the one that is found; with "
        "--plan another one for its tables. --tables: CSV files, or tables to come, whose rows are not known, so that "
        "a mended plan cannot be drawn; with PLAN before it a plan for them, without PLAN the one that is found.",
    )
    p.add_argument(
        "what",
        metavar="FILE|PLAN",
        nargs="?",
        help="a packed file; with --tables a plan, such as '(a (b c))' (without this: the one that is found)",
    )
    p.add_argument("--plan", help="draw this plan in place of the file's own")
    p.add_argument("--tables", metavar="TABLE", nargs="+", help="CSV files, or NAME=ATTRIBUTE,ATTRIBUTE,..")
    add_copies_option(p)
    p.add_argument(
        "--dot", action="store_true", help="as Graphviz DOT: pigrozd plan FILE --dot | dot -Tsvg > plan.svg"
    )
