"""A plan as bytes, as text, as nested pairs and as a tree; the check of a plan (answers 7 to 9); each join's key.
finding.py has the plan that a join follows where it is given none.

The text of a plan is the name of a table, or (LEFT RIGHT) with two plans in it: (frames (exposures readings)). A table
may also be given by its number, and a name with blanks or brackets stands in double quotes.
"""
import math
import operator
import re
from dataclasses import dataclass
from typing import Any, Callable, Dict, Iterator, List, Mapping, NamedTuple, Optional, Sequence, Tuple, Union

from .answers import Refused
from .limits import MOST_PLAN_BYTES, MOST_TABLES, ROW_WORDS
from .names import Names
from .messages import InputError, count, listed, shortened

JOIN = 255  # the byte of a join; a left plan and a right plan follow
HINT = "name tables that share attributes next to each other"  # what to do about answer 9


@dataclass(frozen=True)
class Leaf:
    """A table in a plan. `index` is that of its byte."""

    index: int
    table: int


@dataclass(frozen=True)
class Join:
    """A join in a plan. `index` is that of its byte."""

    index: int
    left: "Plan"
    right: "Plan"


Plan = Union[Leaf, Join]
GivenPlan = Union[str, int, bytes, bytearray, Sequence[Any]]  # a text, a table's number, bytes, or a pair of plans


class Shape:
    """What a plan is checked against: a table's attributes, rising, and its number of rows (None: not known).

    `counted` tells whether its rows have copies. `pairs` is the number of its pairs, each a row and a copy of it: that
    of its rows unless it is given."""

    def __init__(
        self, attributes: Sequence[int], rows: Optional[int], *, counted: bool = False, pairs: Optional[int] = None
    ) -> None:
        self.attributes, self.rows, self.counted = attributes, rows, counted
        self.pairs = rows if pairs is None else pairs


# ---- bytes and trees
def from_bytes(code: bytes) -> Plan:
    """The tree of a plan that is spelled right."""
    stack: List[Plan] = []
    for index in reversed(range(len(code))):
        if code[index] == JOIN:
            stack.append(Join(index, stack.pop(), stack.pop()))
        else:
            stack.append(Leaf(index, code[index]))
    return stack[0]


def tables_of(plan: Plan) -> List[int]:
    """The tables that the plan names, in its order. The first is its leftmost one."""
    return [plan.table] if isinstance(plan, Leaf) else tables_of(plan.left) + tables_of(plan.right)


def joins_of(plan: Plan) -> List[Join]:
    """The joins, in the order of their bytes."""
    return [] if isinstance(plan, Leaf) else [plan] + joins_of(plan.left) + joins_of(plan.right)


def code_of_tree(table: int, children: Mapping[int, Sequence[int]]) -> bytes:
    """The bytes of the plan of this table and what hangs under it: it is joined with its children's plans in turn."""
    below = children[table]
    return bytes([JOIN] * len(below) + [table]) + b"".join(code_of_tree(child, children) for child in below)


# ---- text and pairs
TOKEN = re.compile(r'\s*(?:(?P<bracket>[()])|"(?P<quoted>[^"]*)"|(?P<word>[^\s()"]+))')


def code_of(plan: GivenPlan, names: Sequence[str]) -> bytes:
    """The bytes of a plan given as bytes, as text, or as a table or a pair of plans. `names` are the tables' names, in
    the order of their numbers."""
    if isinstance(plan, (bytes, bytearray)):
        code = bytes(plan)
    elif isinstance(plan, str):
        code = code_of_text(plan, names)
    else:
        code = code_of_pairs(plan, names)
    if len(code) > MOST_PLAN_BYTES:
        raise InputError("a plan has at most %d bytes, one for each table and each join" % MOST_PLAN_BYTES)
    return code


def code_of_pairs(plan: Any, names: Sequence[str]) -> bytes:
    """The bytes of a table's name or number, or of a pair of plans."""
    code, rest = bytearray(), [plan]
    while rest and len(code) <= MOST_PLAN_BYTES:
        top = rest.pop()
        if isinstance(top, (tuple, list)):
            if len(top) != 2:
                raise InputError("a plan is a table's name or number, or a pair of plans, not %d of them" % len(top))
            code.append(JOIN)
            rest += reversed(top)
        else:
            code.append(table_number(top, names))
    return bytes(code)


def table_number(table: Any, names: Sequence[str]) -> int:
    """The number of a table that nested pairs give by name or number."""
    if isinstance(table, str):
        if table not in names:
            raise InputError("the plan names a table %.60r; there are %s" % (table, listed(names) or "no tables"))
        return names.index(table)
    try:
        number = operator.index(table)
    except TypeError:
        number = None
    if number is None or isinstance(table, bool):
        raise TypeError("a plan is a table's name or number, or a pair of plans, not %.60r" % (table,))
    if not 0 <= number < MOST_TABLES:
        raise InputError("table numbers are 0 to %d, and the plan has %.60r" % (MOST_TABLES - 1, number))
    return number


class Token(NamedTuple):
    """A bracket of a plan's text, or the word between brackets, and the place of its first character."""

    place: int
    bracket: str
    word: str
    quoted: bool


def code_of_text(text: str, names: Sequence[str]) -> bytes:
    """The bytes of a plan given as text."""
    if text in names:
        return bytes([names.index(text)])
    code = bytearray()
    sides: List[int] = []  # for each bracket that is open, how many plans stand in it
    for token in tokens(text):
        if token.bracket == ")":
            if not sides:
                raise misplaced(text, token.place, "a bracket too many is closed")
            if sides.pop() != 2:
                raise misplaced(text, token.place, "a join has two sides: (LEFT RIGHT)")
            continue
        if sides and sides[-1] == 2:
            raise misplaced(text, token.place, "a third side of a join; write ((A B) C) or (A (B C))")
        if code and not sides:
            raise misplaced(text, token.place, "the plan is whole before this")
        if sides:
            sides[-1] += 1
        if token.bracket == "(":
            sides.append(0)
        code.append(JOIN if token.bracket else named_table(text, token, names))
    if sides:
        verb = "bracket is" if len(sides) == 1 else "brackets are"
        raise misplaced(text, len(text), "%d %s not closed" % (len(sides), verb))
    if not code:
        raise misplaced(text, 0, "the plan is empty; leave it out, and one is found")
    return bytes(code)


def tokens(text: str) -> Iterator[Token]:
    """The brackets and words of a plan's text."""
    at, end = 0, len(text.rstrip())
    while at < end:
        found = TOKEN.match(text, at)
        if not found:
            raise misplaced(text, at, "a double quote is not closed")
        group, at = str(found.lastgroup), found.end()
        word = "" if group == "bracket" else found[group]
        yield Token(found.start(group), found["bracket"] or "", word, group == "quoted")


def named_table(text: str, token: Token, names: Sequence[str]) -> int:
    """The number of the table that a word of a plan's text names."""
    if token.word in names:
        return names.index(token.word)
    if not token.quoted and re.fullmatch("[0-9]{1,2}", token.word) and int(token.word) < len(names):
        return int(token.word)
    known = listed(names) or "no tables"
    raise misplaced(text, token.place, "no table is called %s; there are %s" % (token.word, known))


def misplaced(text: str, place: int, what: str) -> InputError:
    """The error at a character of a plan's text, counted from 1."""
    return InputError("plan %s: at character %d: %s" % (shortened(text), place + 1, what))


def to_text(plan: Plan, called: Callable[[int], str]) -> str:
    """The text of a plan, in which each table is called as `called` says."""
    if isinstance(plan, Join):
        return "(%s %s)" % (to_text(plan.left, called), to_text(plan.right, called))
    name = called(plan.table)
    return '"%s"' % name if re.search(r"[\s()]", name) else name


# ---- the check: answers 7 to 9
def check(code: bytes, tables: Sequence[Shape], names: Names) -> Optional[Refused]:
    """The first refusal from 7 to 9 that is due for a plan's bytes, or None. A plan of no bytes is found if there are
    tables, and is no plan only if there are none: then it is checked here."""
    for number, found in ((7, misspelled(code)), (8, misnamed(code, tables, names))):
        if found:
            return Refused(number, *found)
    for join in joins_of(from_bytes(code)):
        if without_holder(join, tables):
            return Refused(9, join.index, why_refused(join, tables, names))
    return None


def misspelled(code: bytes) -> Optional[Tuple[int, str]]:
    """The index of the first byte that cannot stand there (the length if the plan ends early) and why, or None."""
    if not code:
        return 0, "it has no bytes, and there is no table for which one can be found"
    owed = 1
    for index, byte in enumerate(code):
        if owed == 0:
            return index, "the plan is whole before the byte at index %d" % index
        if byte != JOIN and byte >= MOST_TABLES:
            return index, "byte %02x at index %d is neither a table number (00 to 0f) nor a join (ff)" % (byte, index)
        owed += 1 if byte == JOIN else -1
    if owed:
        return len(code), "the plan ends early: %d more owed" % owed
    return None


def misnamed(code: bytes, tables: Sequence[Shape], names: Names) -> Optional[Tuple[int, str]]:
    """The index of the first byte that names a wrong table (the length if one is left out) and why, or None."""
    seen: Dict[int, int] = {}
    for index, byte in enumerate(code):
        if byte == JOIN:
            continue
        if byte >= len(tables):
            return index, "it names table %d, and the tables are numbered %s" % (byte, numbered(len(tables)))
        if byte in seen:
            return index, "it names %s a second time" % names.table(byte)
        seen[byte] = index
    left_out = [names.table(t) for t in range(len(tables)) if t not in seen]
    return (len(code), "it leaves out " + listed(left_out)) if left_out else None


def numbered(tables: int) -> str:
    """The numbers of so many tables, in words."""
    return ("0 to %d" % (tables - 1)) if tables > 1 else "0 alone" if tables else "from 0, but there are none"


# ---- joins
def named_sides(join: Join) -> List[Tuple[str, Plan]]:
    """The two sides of a join, each with its name."""
    return [("left", join.left), ("right", join.right)]


def sides_of(join: Join, names: Names) -> str:
    """The tables on both sides of a join, in words."""
    left, right = (listed([names.table(t) for t in tables_of(side)]) for side in (join.left, join.right))
    return "%s with %s" % (left, right)


def key(join: Join, tables: Sequence[Shape]) -> List[int]:
    """The join attributes: those found both in some table on the left and in some table on the right."""
    left, right = ({a for t in tables_of(side) for a in tables[t].attributes} for side in (join.left, join.right))
    return sorted(left & right)


def has_all(table: Shape, attributes: Sequence[int]) -> bool:
    """Whether a table has all of these attributes."""
    return set(attributes) <= set(table.attributes)


def holders(side: Plan, attributes: Sequence[int], tables: Sequence[Shape]) -> List[int]:
    """The tables of a side of a join that have all of these attributes, in its order."""
    return [t for t in tables_of(side) if has_all(tables[t], attributes)]


def without_holder(join: Join, tables: Sequence[Shape]) -> List[str]:
    """The sides of a join where no table has all its join attributes."""
    attributes = key(join, tables)
    return [name for name, side in named_sides(join) if not holders(side, attributes, tables)]


def no_holder(join: Join, tables: Sequence[Shape]) -> str:
    """On which sides no table has all join attributes, in words."""
    return "no table on the %s has them all" % " and none on the ".join(without_holder(join, tables))


def why_refused(join: Join, tables: Sequence[Shape], names: Names) -> str:
    """Why a plan is refused at a join where a side has no holder, and what to do, in words."""
    return "the join of %s, byte %d of the plan, is on %s, but %s; %s" % (
        sides_of(join, names),
        join.index,
        listed([names.attribute(a) for a in key(join, tables)]),
        no_holder(join, tables),
        HINT,
    )


def lacking(join: Join, tables: Sequence[Shape]) -> List[Tuple[str, int, List[int]]]:
    """What is not well-behaved at a join: a side, its leftmost table, the join attributes that this table lacks."""
    found = []
    for name, side in named_sides(join):
        leftmost = tables_of(side)[0]
        lacks = [a for a in key(join, tables) if a not in tables[leftmost].attributes]
        if lacks:
            found.append((name, leftmost, lacks))
    return found


def what_lacks(join: Join, tables: Sequence[Shape], names: Names) -> str:
    """Which leftmost table lacks which join attribute, in words."""
    return "; ".join(
        "%s, the leftmost table on the %s, has no %s"
        % (names.table(t), side, " and no ".join(map(names.attribute, lacks)))
        for side, t, lacks in lacking(join, tables)
    )


# ---- figures
def width(tables: Sequence[Shape]) -> List[int]:
    """The attributes of a result, rising."""
    return sorted({a for table in tables for a in table.attributes})


def words_needed(plan: Plan, tables: Sequence[Shape]) -> int:
    """The words of scratch that a join by this plan, which is well-behaved, needs. The tables' rows are known."""
    rows = [table.rows or 0 for table in tables]
    return ROW_WORDS * sum(rows) + sum(rows[tables_of(join.left)[0]] for join in joins_of(plan))


def choices(tables: Sequence[Shape]) -> int:
    """In how many ways one row of each table, and one copy of it, can be chosen. The tables' pairs are known."""
    return math.prod(table.pairs or 0 for table in tables)


def choices_in_words(tables: Sequence[Shape]) -> str:
    """That number, and how it comes about where there are several tables: 4 * 4 * 3 = 48 choices."""
    pairs = " * ".join("{:,}".format(table.pairs or 0) for table in tables)
    return (pairs + " = " if len(tables) > 1 else "") + count(choices(tables), "choice")


def work_bound(plan: Plan, tables: Sequence[Shape], out: int) -> Tuple[int, str]:
    """The bound of demand 3 on the work of a join by this plan with so many results, and how it comes about."""
    a = max((len(key(join, tables)) for join in joins_of(plan)), default=0)
    k, rows, w = len(tables), sum(table.rows or 0 for table in tables), len(width(tables))
    bound = (32 * a + 2) * k * rows + (k + w) * out
    return bound, "(32 * %d + 2) * %d * %d + (%d + %d) * %d" % (a, k, rows, k, w, out)
