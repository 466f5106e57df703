"""A plan drawn, as it was sent, or found, and as the join follows it: as a text tree, and as Graphviz DOT. So are
tables for which no plan can be found. And the work of a join beside its bound, or of the slow engine."""
from typing import Callable, List, Optional, Sequence, Tuple, Union

from . import finding, mending, plans
from .answers import MEANINGS, NONE_FOUND
from .limits import MOST_CHOICES
from .messages import count
from .names import Names
from .results import Counts, Result

Describe = Callable[[plans.Join], List[str]]  # the lines that a join has in a drawing
Part = Tuple[str, plans.Plan, Describe]  # a plan that is drawn, with its title, which is empty if it is the only one
DOT_HEAD = ["digraph plan {", "    graph [ordering=out];", "    node [shape=box, fontname=monospace];"]


class DrawnTables:
    """The tables of a drawing, in words."""

    def __init__(self, tables: Sequence[plans.Shape], names: Names) -> None:
        self.tables, self.names = tables, names

    def rows(self, table: int) -> str:
        """A table's number of rows, in words."""
        rows = self.tables[table].rows
        return "rows not known" if rows is None else count(rows, "row")

    def rows_and_copies(self, table: int) -> str:
        """A table's number of rows, and that of their copies if it is counted, in words."""
        rows, shape = self.rows(table), self.tables[table]
        if not shape.counted or shape.pairs is None:
            return rows
        return "%s, %s" % (rows, count(shape.pairs, "copy"))

    def table(self, table: int) -> List[str]:
        """A table in words: its name, its number of rows, its attributes."""
        return [self.names.table(table), self.rows_and_copies(table), self.names.list(self.tables[table].attributes)]


class Drawing(DrawnTables):
    """A plan with the tables that it joins. `found` is there if none was sent, and this one was found. `refused` are
    the joins with a side that has no holder; `mended` has the plan that the join follows, if there are none and it can
    be told."""

    def __init__(
        self,
        plan: plans.Plan,
        tables: Sequence[plans.Shape],
        names: Names,
        found: Optional[finding.Found] = None,
    ) -> None:
        super().__init__(tables, names)
        self.plan, self.found = plan, found
        self.refused = [join for join in plans.joins_of(plan) if plans.without_holder(join, tables)]
        self.mended = mending.mend(plan, tables)
        choices = self.mended.choices if self.mended else ()
        self.choices = {choice.join.index: choice for choice in choices}

    # ---- words
    def head(self, join: plans.Join) -> str:
        """The first line of a join: its key, and the place of its byte."""
        key = self.names.list(plans.key(join, self.tables)) or "nothing (every pair matches)"
        return "join on %s, byte %d of the plan" % (key, join.index)

    def behaviour(self, join: plans.Join, both: str) -> str:
        """Whether a join is well-behaved, and why. `both` are its leftmost tables, in words."""
        lacks = plans.what_lacks(join, self.tables, self.names)
        if lacks:
            return "NOT well-behaved: " + lacks
        key = self.names.list(plans.key(join, self.tables))
        return "well-behaved: " + ("%s have %s" % (both, key) if key else "no attribute is on both sides")

    def followed_join(self, join: plans.Join) -> List[str]:
        """A join of the plan that is followed: its key, the two tables that are compared, why it is well-behaved."""
        leftmost = (plans.tables_of(side)[0] for side in (join.left, join.right))
        looked_up = " looked up in ".join("%s (%s)" % (self.names.table(t), self.rows(t)) for t in leftmost)
        return [self.head(join), looked_up, self.behaviour(join, "both")]

    def sent_join(self, join: plans.Join) -> List[str]:
        """A join of a plan that is not followed as it is: its key; why it is refused, or whether it is well-behaved;
        and what mending chose there."""
        if plans.without_holder(join, self.tables):
            return [self.head(join), "REFUSED: " + plans.no_holder(join, self.tables)]
        both = " and ".join(self.names.table(plans.tables_of(side)[0]) for side in (join.left, join.right))
        lines = [self.head(join), self.behaviour(join, both)]
        if join.index in self.choices:
            lines.append(mending.choice_in_words(self.choices[join.index], self.names))
        return lines

    def verdict(self) -> List[str]:
        """Which plan the join follows, what scratch it needs, what a result is; or why the plan is refused."""
        if self.refused:
            such = "%s, at %s" % (MEANINGS[9].means, count(len(self.refused), "join"))
            return ["answer 9, detail %d: %s" % (self.refused[0].index, such), plans.HINT]
        if self.mended is None:
            lines = ["the plan is not well-behaved: it is mended by the tables' rows, which are not all known here"]
        else:
            lines = self.followed_in_words(self.mended)
            if all(table.rows is not None for table in self.tables):
                lines.append("scratch needed: " + count(plans.words_needed(self.mended.plan, self.tables), "word"))
        return lines + ["a result: " + self.names.list(plans.width(self.tables))]

    def followed_in_words(self, mended: mending.Mended) -> List[str]:
        """Which plan the join follows, and how it was found or mended."""
        if self.found:
            return finding.in_words(self.found, self.names)
        return mending.in_words(self.plan, mended, self.names)

    # ---- plans
    def parts(self, followed_alone: bool) -> List[Part]:
        """What is drawn: the plan as sent and as mended; or the one plan that there is, or is asked for."""
        if self.mended is None:
            return [("", self.plan, self.sent_join)]
        if self.mended.plan == self.plan or followed_alone:
            return [("", self.mended.plan, self.followed_join)]
        return [("as sent:", self.plan, self.sent_join), ("as mended:", self.mended.plan, self.followed_join)]

    # ---- text
    def tree(self, followed_alone: bool = False) -> List[str]:
        """The lines of text trees, of the plan as sent and as mended, or of the plan that is followed alone."""
        lines: List[str] = []
        for title, plan, describe in self.parts(followed_alone):
            if title:
                lines.append(title)
            self.draw_text(plan, describe, "", "", lines)
            lines.append("")
        return lines + self.verdict()

    def draw_text(self, plan: plans.Plan, describe: Describe, first: str, others: str, lines: List[str]) -> None:
        """Draws a plan. `first` stands before its first line, `others` before all lines below it."""
        if isinstance(plan, plans.Leaf):
            lines.append("%s%s: %s (%s)" % (first, *self.table(plan.table)))
            return
        head, *below = describe(plan)
        lines.append(first + head)
        lines.extend("%s|     %s" % (others, line) for line in below)
        self.draw_text(plan.left, describe, others + "|-- ", others + "|   ", lines)
        self.draw_text(plan.right, describe, others + "`-- ", others + "    ", lines)

    # ---- DOT
    def dot(self) -> List[str]:
        """The lines of a Graphviz file."""
        lines = DOT_HEAD[:]
        for letter, (title, plan, describe) in zip("nm", self.parts(followed_alone=False)):
            if title:
                lines += ["    subgraph cluster_%s {" % letter, "    label=%s;" % quoted([title])]
            self.draw_dot(plan, describe, letter, lines)
            if title:
                lines.append("    }")
        return lines + ["    label=%s;" % quoted(self.verdict()), "}"]

    def draw_dot(self, plan: plans.Plan, describe: Describe, letter: str, lines: List[str]) -> str:
        """Draws a plan; the name of its node, which begins with this letter."""
        node = "%s%d" % (letter, plan.index)
        if isinstance(plan, plans.Leaf):
            lines.append("    %s [label=%s];" % (node, quoted(self.table(plan.table))))
            return node
        lines.append("    %s [label=%s, style=rounded%s];" % (node, quoted(describe(plan)), self.color(plan)))
        for side, child in plans.named_sides(plan):
            lines.append('    %s -> %s [label="%s"];' % (node, self.draw_dot(child, describe, letter, lines), side))
        return node

    def color(self, join: plans.Join) -> str:
        """The color of a join in DOT: red if it is refused, orange if it is not well-behaved."""
        if plans.without_holder(join, self.tables):
            return ", color=red, fontcolor=red"
        return ", color=orange" if plans.lacking(join, self.tables) else ""

    # ---- work
    def work(self, result: Result) -> List[str]:
        """The work that was done to join by this plan."""
        rows = [
            ("rows of the tables (IN)", sum(table.rows or 0 for table in self.tables)),
            ("rows of the result (OUT)", result.rows),
        ]
        written = ("values written", result.rows * len(result.columns))
        if result.counts:
            return in_columns(rows) + self.counted(result.counts, written, result.rows)
        choices = ("choices that the slow engine tried", plans.choices(self.tables))
        limits = ("the most that it goes through", MOST_CHOICES)
        return in_columns(rows + [choices, limits, written])

    def counted(self, counts: Counts, written: Tuple[str, int], out: int) -> List[str]:
        """The work of a join, count by count, and the bound on it."""
        counted = [
            ("entries: rows put into a dictionary", counts.entries),
            ("lookups: rows looked up in one", counts.lookups),
            ("comparisons of two keys", counts.comparisons),
            ("visits of tables for results", counts.visits),
            written,
        ]
        followed = self.mended.plan if self.mended else self.plan
        bound, reason = plans.work_bound(followed, self.tables, out)
        counted.append(("work: entries to values written", sum(number for _, number in counted)))
        counted.append(("bound: (32a + 2) k IN + (k + w) OUT", bound))
        return in_columns(counted) + ["       = " + reason]


def in_columns(lines: Sequence[Tuple[str, int]]) -> List[str]:
    """Numbers below each other, each with what it is before it."""
    return ["{:36} {:>13,}".format(*line) for line in lines]


# ---- without a plan
class DrawingOfStuck(DrawnTables):
    """Tables for which no plan can be found: those that remain, which are its `refused`, with what they share."""

    def __init__(self, found: finding.Found, tables: Sequence[plans.Shape], names: Names) -> None:
        super().__init__(tables, names)
        self.found, self.refused = found, found.stuck

    def verdict(self) -> List[str]:
        """The answer, which tables were hung before it, and what to do."""
        answer = "answer %d, detail %d: %s" % (NONE_FOUND, self.refused[0].table, MEANINGS[NONE_FOUND].means)
        remaining = "%d of %d tables remain" % (len(self.refused), len(self.tables))
        return ["%s: %s" % (answer, remaining), *finding.hung_in_words(self.found, self.names), finding.HINT]

    def tree(self, followed_alone: bool = False) -> List[str]:
        """The lines of text: each table that remains, and what it shares with which others. No plan is followed."""
        lines: List[str] = []
        for stuck in self.refused:
            lines.append("%s: %s (%s)" % tuple(self.table(stuck.table)))
            lines.append("      " + finding.stuck_in_words(stuck, self.names))
        return lines + [""] + self.verdict()

    def dot(self) -> List[str]:
        """The lines of a Graphviz file: the tables that remain are red, with lines between those that share
        attributes; the others have an arrow to the table that they were hung under."""
        stuck = [table.table for table in self.refused]
        lines = DOT_HEAD[:]
        for t in range(len(self.tables)):
            red = ", color=red, fontcolor=red" if t in stuck else ""
            lines.append("    t%d [label=%s%s];" % (t, quoted(self.table(t)), red))
        edges = [(step.table, step.under, list(step.shared), "") for step in self.found.hung]
        for place, t in enumerate(stuck):
            for other in stuck[place + 1 :]:
                shared = finding.shared_by(t, (t, other), self.tables)
                edges += [(t, other, shared, ", dir=none, color=red")] if shared else []
        for t, other, shared, style in edges:
            lines.append("    t%d -> t%d [label=%s%s];" % (t, other, quoted([self.names.list(shared)]), style))
        return lines + ["    label=%s;" % quoted(self.verdict()), "}"]


def drawing_without_plan(tables: Sequence[plans.Shape], names: Names) -> Union[Drawing, DrawingOfStuck]:
    """The drawing of the plan that is found for tables; or of what remains of them where none can be found."""
    found = finding.find(tables)
    return Drawing(found.plan, tables, names, found) if found.plan else DrawingOfStuck(found, tables, names)


def quoted(lines: Sequence[str]) -> str:
    """A label of several lines as a DOT string."""
    return '"%s"' % "\\n".join(line.replace("\\", "\\\\").replace('"', '\\"') for line in lines)
