"""Plans found: the plan that a join follows where a file has tables and a plan of length 0 (request U4).

The library finds it by itself and tells nothing of it. This module works out the same once more, so that a user can be
told: which table was hung under which, in turn, and the plan that comes of it; or, where that ends early, which tables
remain and what they share, which is answer 14.
"""
from dataclasses import dataclass
from typing import Dict, List, Optional, Sequence, Tuple

from . import plans
from .answers import NONE_FOUND, Refused
from .messages import listed
from .names import Names

# what to do about answer 14
HINT = "join two of them that share attributes first and make the result a table of a second file, or leave one out"


@dataclass(frozen=True)
class Hung:
    """A table that was hung under another one, and the attributes that it shared with the tables that remained."""

    table: int
    under: int
    shared: Tuple[int, ...]


@dataclass(frozen=True)
class Held:
    """Attributes that a table shares with others that remain, and the others that have them."""

    attributes: Tuple[int, ...]
    others: Tuple[int, ...]


@dataclass(frozen=True)
class Stuck:
    """A table that remains and cannot be hung: what it shares, by the tables that have it. None of them has it all."""

    table: int
    shares: Tuple[Held, ...]

    @property
    def shared(self) -> List[int]:
        """All attributes that it shares, rising."""
        return sorted(a for held in self.shares for a in held.attributes)


@dataclass(frozen=True)
class Found:
    """What was found: the tables that were hung, in turn, and the plan, as a tree and as bytes. Where no plan can be
    found it has no tree and no bytes, and `stuck` are the tables that remain, rising; else there are none of these."""

    hung: Tuple[Hung, ...]
    plan: Optional[plans.Plan]
    code: bytes
    stuck: Tuple[Stuck, ...]


def find(tables: Sequence[plans.Shape]) -> Found:
    """The plan that a join of these tables follows where it is given none. There is at least one table. Only their
    attributes decide: their rows need not be known."""
    hung: List[Hung] = []
    remaining = list(range(len(tables)))
    while len(remaining) > 1:
        step = next_hung(remaining, tables)
        if step is None:
            return Found(tuple(hung), None, b"", tuple(stuck_table(t, remaining, tables) for t in remaining))
        hung.append(step)
        remaining.remove(step.table)
    children: Dict[int, List[int]] = {t: [] for t in range(len(tables))}
    for step in sorted(hung, key=lambda step: step.table):
        children[step.under].append(step.table)
    code = plans.code_of_tree(remaining[0], children)
    return Found(tuple(hung), plans.from_bytes(code), code, ())


def next_hung(remaining: Sequence[int], tables: Sequence[plans.Shape]) -> Optional[Hung]:
    """The lowest table that can be hung, under the lowest one that has all that it shares; None if none can be."""
    for table in remaining:
        shared = shared_by(table, remaining, tables)
        for other in remaining:
            if other != table and plans.has_all(tables[other], shared):
                return Hung(table, other, tuple(shared))
    return None


def shared_by(table: int, remaining: Sequence[int], tables: Sequence[plans.Shape]) -> List[int]:
    """The attributes of a table that some other one of those that remain has, rising."""
    others = {a for other in remaining if other != table for a in tables[other].attributes}
    return [a for a in tables[table].attributes if a in others]


def stuck_table(table: int, remaining: Sequence[int], tables: Sequence[plans.Shape]) -> Stuck:
    """A table that cannot be hung, with what it shares. Attributes that the same tables have stand together."""
    by_others: Dict[Tuple[int, ...], List[int]] = {}
    for a in shared_by(table, remaining, tables):
        others = tuple(t for t in remaining if t != table and a in tables[t].attributes)
        by_others.setdefault(others, []).append(a)
    return Stuck(table, tuple(Held(tuple(attributes), others) for others, attributes in by_others.items()))


def refusal(found: Found, names: Names) -> Optional[Refused]:
    """Answer 14 if no plan was found, or None."""
    return None if found.plan else Refused(NONE_FOUND, found.stuck[0].table, why_refused(found, names))


# ---- in words
def attributes_in_words(attributes: Sequence[int], names: Names) -> str:
    """The names of attributes in a sentence."""
    return listed([names.attribute(a) for a in attributes])


def tables_in_words(tables: Sequence[int], names: Names) -> str:
    """The names of tables in a sentence."""
    return listed([names.table(t) for t in tables])


def in_words(found: Found, names: Names) -> List[str]:
    """Which plan the join follows, and which table was hung under which so that it came about."""
    if not found.plan:
        return []
    text = plans.to_text(found.plan, names.table)
    first = "no plan was sent, and the join follows the one that is found: %s, bytes %s" % (text, found.code.hex(" "))
    return [first, *hung_in_words(found, names), "%s is the root" % names.table(plans.tables_of(found.plan)[0])]


def hung_in_words(found: Found, names: Names) -> List[str]:
    """Which table was hung under which, in turn, and why."""
    lines = []
    for step in found.hung:
        table, under = names.table(step.table), names.table(step.under)
        shared = attributes_in_words(step.shared, names)
        why = "which has all that %s still shares: %s" % (table, shared)
        lines.append("%s hangs under %s, %s" % (table, under, why if shared else "as it shares nothing"))
    return lines


def stuck_in_words(stuck: Stuck, names: Names) -> str:
    """What a table that remains shares with which others, and that no one of these has it all."""
    shares = ", ".join(
        "%s with %s" % (attributes_in_words(held.attributes, names), tables_in_words(held.others, names))
        for held in stuck.shares
    )
    return "shares %s; no one of these has %s" % (shares, attributes_in_words(stuck.shared, names))


def why_refused(found: Found, names: Names) -> str:
    """Why no plan can be found: which tables remain and what each of them shares; and what to do."""
    shares = ["%s shares %s" % (names.table(s.table), attributes_in_words(s.shared, names)) for s in found.stuck]
    remaining = tables_in_words([stuck.table for stuck in found.stuck], names)
    why = "%s remain, and what each of them shares is not all in one of the others" % remaining
    return "%s: %s; %s" % (why, "; ".join(shares), HINT)
