"""Joins tables with the Pigrozd library.

    import pigrozd

    tables = {
        "frames": {"frame": [10, 11, 12, 13], "exposure": [1, 2, 2, 4]},
        "exposures": {"exposure": [1, 2, 2, 3], "reading": [7, 8, 9, 7]},
        "readings": {"reading": [7, 7, 9], "centikelvin": [29510, 29510, 29530]},
    }
    result = pigrozd.join(tables)
    result.names                # ('frame', 'exposure', 'reading', 'centikelvin')
    list(result)[0]             # (10, 1, 7, 29510)
    result.columns["frame"]     # array('I', [10, 10, 11, 12])
    result.plan                 # '(readings (exposures frames))'

Columns with one name, in different tables, are joined. None is a value that was not recorded: it matches nothing, and
comes back where its column is in one table only. The library finds a plan, or takes the one that is given, as in
join(tables, "(frames (exposures readings))"), and mends it if it is not well-behaved; result.plan is the plan that was
followed. What cannot be joined raises Refused, TypeError or ValueError. join(tables, engine="slow") has the slow
engine, for acceptance days, go through every choice of rows; it gives the same result, without counts.

    pigrozd.count(tables).results   # 4
    pigrozd.count(tables).bytes     # 64

Results are counted without being written, so there may be more than join can give.

    opened = pigrozd.open_tables(tables)
    len(opened)                     # 4
    opened[2]                       # (11, 2, 9, 29530)
    opened.result(2).rows           # (1, 2, 2)
    opened.number_of((1, 2, 2))     # 2

Opened tables give any result by its number, without the others: its values, and the row number of each table. From
such row numbers they give the number.

    often = pigrozd.counted({"reading": [7, 9], "centikelvin": [29510, 29530], "times": [900, 1]}, "times")
    opened = pigrozd.open_tables({**tables, "readings": often})
    len(opened)                                 # 902
    opened.result(899).rows                     # (0, 0, 0)
    opened.result(899).copies                   # (0, 0, 899)
    opened.number_of((0, 0, 0), (0, 0, 899))    # 899

A table may send a row once, with a column that says how often it stands there; `fold` makes such a table of equal
rows. A result is then made of rows and of copies of them. docs/PYTHON.md says more; `python3 -m pigrozd --help` joins
CSV files.
"""
from .access import ResultRow, ResultSlice, Tables, open_file, open_tables
from .answers import MEANINGS, Kind, NoSuchResult, Refused
from .folding import fold
from .joining import count, count_file, join, join_file, make_file
from .library import Answer, Engine, LibraryError, NumberAnswer, ResultAnswer, SlowAnswer
from .library import call, call_number_of, call_result_at, call_slow
from .messages import InputError
from .results import Counts, Result
from .sizes import Size
from .tables import Counted, counted
from .values import NOT_RECORDED

__version__ = "0.1.0"
__all__ = [
    "join",
    "join_file",
    "make_file",
    "count",
    "count_file",
    "open_tables",
    "open_file",
    "counted",
    "fold",
    "call",
    "call_slow",
    "call_result_at",
    "call_number_of",
    "Answer",
    "SlowAnswer",
    "ResultAnswer",
    "NumberAnswer",
    "Engine",
    "Counts",
    "Result",
    "Size",
    "Counted",
    "ResultRow",
    "ResultSlice",
    "Tables",
    "Refused",
    "NoSuchResult",
    "InputError",
    "LibraryError",
    "MEANINGS",
    "Kind",
    "NOT_RECORDED",
    "__version__",
]
