"""Plans mended: the plan that a join follows in place of one that is not well-behaved (request U2).

The library mends by itself and tells nothing of it. This module works out the same once more, so that a user can be
told: the plan that is followed, its penalty, and what was chosen at each join of the plan as it was sent.
"""
from dataclasses import dataclass
from typing import Dict, List, Optional, Sequence, Tuple

from . import plans
from .messages import count
from .names import Names


@dataclass(frozen=True)
class Choice:
    """What was chosen at a join of the plan as sent. `root` is the root of all its tables, and lies on `side`. `other`
    is the root of the other side: it hangs below the table `below` and adds so many rows to the penalty."""

    join: plans.Join
    side: str
    root: int
    other: int
    below: int
    added: int


@dataclass(frozen=True)
class Mended:
    """The plan that a join follows, as a tree and as bytes; its penalty; the choices, one for each join of the plan as
    sent, in the order of their bytes. A well-behaved plan is followed as it is, and its penalty is 0."""

    plan: plans.Plan
    code: bytes
    penalty: int
    choices: Tuple[Choice, ...]


def mend(plan: plans.Plan, tables: Sequence[plans.Shape]) -> Optional[Mended]:
    """What a join of this plan follows. None if a side of a join has no holder, which is answer 9; and if the plan is
    not well-behaved and the rows of some table are not known, since rows decide what is chosen."""
    joins = plans.joins_of(plan)
    if any(plans.without_holder(join, tables) for join in joins):
        return None
    if any(table.rows is None for table in tables) and any(plans.lacking(join, tables) for join in joins):
        return None
    return Mending(tables).mended(plan)


class Mending:
    """Mends a plan of these tables: the cheapest roots are found from the tables up, then the tree is built from its
    root down. Rows that are not known count as none: a well-behaved plan comes out the same with any."""

    def __init__(self, tables: Sequence[plans.Shape]) -> None:
        self.tables = tables
        self.rows = [table.rows or 0 for table in tables]
        self.cheapest: Dict[int, Dict[str, int]] = {}  # by a join's index: each side's root if the other has the root
        self.children: Dict[int, List[int]] = {}  # of the tree, by table
        self.choices: List[Choice] = []

    def mended(self, plan: plans.Plan) -> Mended:
        """The plan mended."""
        penalties = self.penalties(plan)
        root = first_cheapest(penalties)
        self.build(plan, root)
        code = plans.code_of_tree(root, self.children)
        choices = sorted(self.choices, key=lambda choice: choice.join.index)
        return Mended(plans.from_bytes(code), code, penalties[root], tuple(choices))

    def penalties(self, plan: plans.Plan) -> Dict[int, int]:
        """The least penalty of a plan for each of its tables as the root, in the order of the plan."""
        if isinstance(plan, plans.Leaf):
            return {plan.table: 0}
        key = plans.key(plan, self.tables)
        left, right = self.penalties(plan.left), self.penalties(plan.right)
        to_right = {t: left[t] + self.rows[t] for t in plans.holders(plan.left, key, self.tables)}
        to_left = {t: right[t] for t in plans.holders(plan.right, key, self.tables)}
        self.cheapest[plan.index] = {"left": first_cheapest(to_right), "right": first_cheapest(to_left)}
        found = {t: penalty + min(to_left.values()) for t, penalty in left.items()}
        found.update((t, penalty + min(to_right.values())) for t, penalty in right.items())
        return found

    def build(self, plan: plans.Plan, root: int) -> None:
        """Builds the tree of a plan below this root."""
        if isinstance(plan, plans.Leaf):
            self.children[root] = []
            return
        on_left = root in plans.tables_of(plan.left)
        side, other_side = ("left", "right") if on_left else ("right", "left")
        other = self.cheapest[plan.index][other_side]
        self.build(plan.left if on_left else plan.right, root)
        self.build(plan.right if on_left else plan.left, other)
        below = self.topmost(root, plans.key(plan, self.tables))
        self.children[below].append(other)
        self.choices.append(Choice(plan, side, root, other, below, 0 if on_left else self.rows[other]))

    def topmost(self, root: int, key: Sequence[int]) -> int:
        """The table nearest to the root, in the tree below it, that has all attributes of a key. There is one."""
        level = [root]
        while True:
            for table in level:
                if plans.has_all(self.tables[table], key):
                    return table
            level = [child for table in level for child in self.children[table]]


def first_cheapest(penalties: Dict[int, int]) -> int:
    """The table with the least penalty; of several the first."""
    return min(penalties, key=lambda table: penalties[table])


# ---- in words
def in_words(sent: plans.Plan, mended: Mended, names: Names) -> List[str]:
    """Which plan the join follows; and if it is not the one that was sent, its penalty."""
    if mended.plan == sent:
        return ["the plan is well-behaved, and the join follows it as it is"]
    texts = (plans.to_text(plan, names.table) for plan in (sent, mended.plan))
    return [
        "the plan as sent, %s, is not well-behaved: the join follows %s, bytes %s" % (*texts, mended.code.hex(" ")),
        penalty_in_words(mended, names),
    ]


def penalty_in_words(mended: Mended, names: Names) -> str:
    """The penalty, and which tables add to it at which joins of the plan as sent."""
    adding = [choice for choice in mended.choices if choice.side == "right"]
    terms = ["%d (%s, at byte %d as sent)" % (c.added, names.table(c.other), c.join.index) for c in adding]
    return "penalty: " + count(mended.penalty, "row") + (" = " + " + ".join(terms) if terms else "")


def choice_in_words(choice: Choice, names: Names) -> str:
    """What was chosen at a join of the plan as sent."""
    return "root on the %s: %s; %s, chosen on the %s, is joined to %s%s" % (
        choice.side,
        names.table(choice.root),
        names.table(choice.other),
        "right" if choice.side == "left" else "left",
        names.table(choice.below),
        " and adds " + count(choice.added, "row") if choice.side == "right" else "",
    )
