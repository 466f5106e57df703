"""The shared library: found, loaded, and called through ctypes. include/pigrozd.h declares its four functions: the
join, the slow engine, one result by its number, and the number of a result by its rows and copies."""
import array
import ctypes
import functools
import operator
import os
from typing import Any, Dict, Iterable, Literal, NamedTuple, Optional, Tuple, Union, cast

from .fileformat import COUNTED_MARK, read
from .limits import MOST_OUTPUT, MOST_TABLES
from .messages import InputError
from .plans import width

VARIABLE = "PIGROZD_LIBRARY"
FILE_NAME = "libpigrozd.so"
FIRST_OUTPUT = 16384  # words of output lent at first
HIGHEST_NUMBER = 2**64 - 1  # the highest n that can be given
HIGHEST_WORD = 2**32 - 1  # the highest row number that can be given, and the highest copy

BytesLike = Union[bytes, bytearray, memoryview]
Engine = Literal["join", "slow"]


class LibraryError(OSError):
    """The shared library is not there, or what is there is not Pigrozd's."""


class Answer(NamedTuple):
    """What the library answers: the seven numbers of struct pigrozd_answer."""

    number: int
    detail: int
    rows: int
    entries: int
    lookups: int
    comparisons: int
    visits: int


class SlowAnswer(NamedTuple):
    """What the slow engine answers: the three numbers of struct pigrozd_slow_answer."""

    number: int
    detail: int
    rows: int


class ResultAnswer(NamedTuple):
    """What the library answers of one result: the numbers of struct pigrozd_result_answer. `rows` has 16 row numbers,
    by table number, and `copies` says which copy of each of these rows it is, from 0; those past the last table are 0,
    and all of them are after a refusal."""

    number: int
    detail: int
    rows: Tuple[int, ...]
    copies: Tuple[int, ...]


class NumberAnswer(NamedTuple):
    """What the library answers of the way back: the three numbers of struct pigrozd_number_answer."""

    number: int
    detail: int
    n: int


class AnswerStruct(ctypes.Structure):
    """struct pigrozd_answer of include/pigrozd.h."""

    _fields_ = [(name, ctypes.c_uint64) for name in Answer._fields]


class SlowAnswerStruct(ctypes.Structure):
    """struct pigrozd_slow_answer of include/pigrozd.h."""

    _fields_ = [(name, ctypes.c_uint64) for name in SlowAnswer._fields]


class ResultAnswerStruct(ctypes.Structure):
    """struct pigrozd_result_answer of include/pigrozd.h."""

    _fields_ = [
        ("number", ctypes.c_uint64),
        ("detail", ctypes.c_uint64),
        ("rows", ctypes.c_uint32 * MOST_TABLES),
        ("copies", ctypes.c_uint32 * MOST_TABLES),
    ]


class NumberAnswerStruct(ctypes.Structure):
    """struct pigrozd_number_answer of include/pigrozd.h."""

    _fields_ = [(name, ctypes.c_uint64) for name in NumberAnswer._fields]


WORDS = [ctypes.POINTER(ctypes.c_uint32), ctypes.c_size_t]  # a buffer, and how many words it has
FILE = [ctypes.c_char_p, ctypes.c_size_t]
JOIN, SLOW = "pigrozd_join", "pigrozd_slow_join"
RESULT_AT, NUMBER_OF = "pigrozd_result_at", "pigrozd_number_of"
FUNCTIONS: Dict[str, Tuple[Any, Any]] = {  # what each takes, and what it gives
    JOIN: (FILE + WORDS + WORDS, AnswerStruct),
    SLOW: (FILE + WORDS, SlowAnswerStruct),
    RESULT_AT: (FILE + WORDS + [ctypes.c_uint64] + WORDS, ResultAnswerStruct),
    NUMBER_OF: (FILE + WORDS + WORDS + WORDS, NumberAnswerStruct),
}


def engine_named(given: Any, where: str) -> Engine:
    """The engine that is given by its name; an error if there is no such engine."""
    if not isinstance(given, str) or given not in ("join", "slow"):
        raise InputError("%s is join or slow, not %.60r" % (where, given))
    return cast(Engine, given)


# ---- loading
def place() -> str:
    """Where the library is: where PIGROZD_LIBRARY says; else in this package, in the repository, or on the system."""
    named = os.environ.get(VARIABLE)
    if named:
        return named
    package = os.path.dirname(os.path.abspath(__file__))
    repository = os.path.dirname(os.path.dirname(package))
    for path in (os.path.join(package, FILE_NAME), os.path.join(repository, "target", "lib", FILE_NAME)):
        if os.path.exists(path):
            return path
    return FILE_NAME


@functools.lru_cache(maxsize=None)
def library() -> Any:
    """The loaded library."""
    try:
        return ctypes.CDLL(place())
    except OSError as error:
        raise LibraryError(
            "the library cannot be loaded (make lib builds it, %s may name it): %s" % (VARIABLE, error)
        ) from None


@functools.lru_cache(maxsize=None)
def function(name: str) -> Any:
    """A function of the loaded library, which has it and knows tables with copies."""
    loaded = library()
    if not hasattr(loaded, name):
        raise unusable("it has no function " + name, older=hasattr(loaded, JOIN))
    found = getattr(loaded, name)
    found.argtypes, found.restype = FUNCTIONS[name]
    if name != JOIN:
        function(JOIN)
    elif not knows_copies(found):
        raise unusable("it knows no tables with copies", older=True)
    return found


def knows_copies(join: Any) -> bool:
    """Whether the library with this join knows tables with copies. It answers 1 to a file that ends behind their mark,
    and an older one answers 2. Functions of an older one take and give something else under the same names."""
    no_words = lent(zeros(0))
    return bool(join(COUNTED_MARK, len(COUNTED_MARK), *no_words, *no_words).number == 1)


def unusable(why: str, older: bool) -> LibraryError:
    """The error that the loaded library cannot be used."""
    what = "an older library of Pigrozd's" if older else "not Pigrozd's library"
    return LibraryError("%s is %s: %s (%s names the library)" % (place(), what, why, VARIABLE))


# ---- calling
def bytes_of(file: BytesLike) -> bytes:
    """The bytes of a bytes-like object, of which bytes themselves are not copied; TypeError for anything else."""
    try:
        return file if isinstance(file, bytes) else memoryview(file).tobytes()
    except TypeError:
        raise TypeError("the bytes of a file are wanted, not a %s" % type(file).__name__) from None


def lent(buffer: Any) -> Tuple[Any, int]:
    """A writable buffer as the words at its address, and how many there are."""
    view = memoryview(buffer)
    if view.itemsize != 4:
        raise TypeError("what is lent is a buffer of 32-bit words")
    count = view.nbytes // 4
    if count == 0:
        return (ctypes.c_uint32 * 1)(), 0  # an address all the same
    words = (ctypes.c_uint32 * count).from_buffer(buffer)
    if ctypes.addressof(words) % 4:
        raise ValueError("what is lent is aligned to 4 bytes")
    return words, count


def lent_apart(scratch: Any, other: Any, called: str) -> Tuple[Any, int, Any, int]:
    """The scratch and another buffer as they are lent; an error if they overlap."""
    scratch_words, scratch_count = lent(scratch)
    other_words, other_count = lent(other)
    first, second = ctypes.addressof(scratch_words), ctypes.addressof(other_words)
    if first < second + 4 * other_count and second < first + 4 * scratch_count:
        raise ValueError("scratch and %s overlap" % called)
    return scratch_words, scratch_count, other_words, other_count


def whole_number(value: Any, called: str) -> int:
    """A whole number, of any size; TypeError for anything else."""
    if not isinstance(value, bool):
        try:
            return operator.index(value)
        except TypeError:
            pass
    raise TypeError("%s is a whole number, not %.60r" % (called, value))


def number_up_to(highest: int, value: Any, called: str) -> int:
    """A whole number from 0 to the highest; an error for anything else."""
    number = whole_number(value, called)
    if not 0 <= number <= highest:
        told = str(number) if number.bit_length() <= 128 else "a longer number"
        raise InputError("%s is 0 to %d, not %s" % (called, highest, told))
    return number


def call(file: BytesLike, scratch: Any, output: Any) -> Answer:
    """One call of the library: its Answer, refusals too.

    It is given the bytes of a file and two writable buffers of 32-bit words, such as array.array('I')."""
    data = bytes_of(file)
    given = function(JOIN)(data, len(data), *lent_apart(scratch, output, "output"))
    return Answer(*(getattr(given, name) for name in Answer._fields))


def call_slow(file: BytesLike, output: Any) -> SlowAnswer:
    """One call of the slow engine, which needs no scratch and gives no counts: its SlowAnswer, refusals too.

    It is given the bytes of a file and a writable buffer of 32-bit words, such as array.array('I')."""
    data = bytes_of(file)
    given = function(SLOW)(data, len(data), *lent(output))
    return SlowAnswer(*(getattr(given, name) for name in SlowAnswer._fields))


def call_result_at(file: BytesLike, scratch: Any, n: int, row: Any) -> ResultAnswer:
    """One call for result number n, from 0, without the others: its ResultAnswer, refusals too.

    It is given the bytes of a file, n, which is at most 2**64 - 1, and two writable buffers of 32-bit words, such as
    array.array('I'). The scratch is needed as by `call`. After answer 0 the row buffer begins with the values of the
    result, one for each attribute, attributes rising; the words behind them are as they were."""
    data = bytes_of(file)
    number = number_up_to(HIGHEST_NUMBER, n, "the number of a result")
    scratch_words, scratch_count, *row_lent = lent_apart(scratch, row, "row")
    given = function(RESULT_AT)(data, len(data), scratch_words, scratch_count, number, *row_lent)
    return ResultAnswer(given.number, given.detail, tuple(given.rows), tuple(given.copies))


def call_number_of(
    file: BytesLike, scratch: Any, rows: Iterable[int], copies: Optional[Iterable[int]] = None
) -> NumberAnswer:
    """One call for the number of the result that is made of these rows: its NumberAnswer, refusals too.

    It is given the bytes of a file, a writable buffer of 32-bit words, which is needed as scratch as by `call`, the
    row number of each table, by table number, and which copy of that row is meant: numbers from 0 to 2**32 - 1,
    however many. Without copies the first one of each row is meant, copy 0."""
    data = bytes_of(file)
    row_words, rows_there = given_words(rows, "a row number")
    copy_words, copies_there = given_words([0] * rows_there if copies is None else copies, "a copy number")
    given = function(NUMBER_OF)(data, len(data), *lent(scratch), row_words, rows_there, copy_words, copies_there)
    return NumberAnswer(given.number, given.detail, given.n)


def given_words(numbers: Iterable[int], called: str) -> Tuple[Any, int]:
    """Numbers as the words at an address, also where there are none; and how many there are."""
    taken = [number_up_to(HIGHEST_WORD, number, called) for number in numbers]
    return (ctypes.c_uint32 * max(len(taken), 1))(*taken), len(taken)


def zeros(count: int) -> "array.array[int]":
    """So many words of memory, all zero."""
    return array.array("I", bytes(4 * count))


def call_with_scratch(data: bytes, output: "array.array[int]") -> Tuple[Answer, "array.array[int]"]:
    """The answer to a file with this output, and the scratch, which is as long as the answer 10 says that it must be.

    With an output of no words the answer is 11 if there are any results, and says how many."""
    scratch = zeros(0)
    answer = call(data, scratch, output)
    if answer.number == 10:
        scratch = zeros(answer.detail)
        answer = call(data, scratch, output)
    return answer, scratch


def call_with_enough(data: bytes) -> Tuple[Answer, "array.array[int]"]:
    """The answer to a file, and the output, with buffers as long as the answers 10 and 11 say that they must be.

    The answer is 11 only if the results do not fit the longest output that the library uses."""
    output = zeros(FIRST_OUTPUT)
    answer, scratch = call_with_scratch(data, output)
    longer = longer_output(data, answer)
    return (call(data, scratch, longer), longer) if longer else (answer, output)


def call_slow_with_enough(data: bytes) -> Tuple[SlowAnswer, "array.array[int]"]:
    """The slow engine's answer to a file, and the output, which is as long as the answer 11 says that it must be."""
    output = zeros(FIRST_OUTPUT)
    answer = call_slow(data, output)
    longer = longer_output(data, answer)
    return (call_slow(data, longer), longer) if longer else (answer, output)


def longer_output(data: bytes, answer: Union[Answer, SlowAnswer]) -> Optional["array.array[int]"]:
    """An output that is long enough, if this answer says that another one was too short and there is one."""
    if answer.number != 11:
        return None
    need = answer.detail * len(width(read(data).tables))
    return zeros(need) if need <= MOST_OUTPUT else None
