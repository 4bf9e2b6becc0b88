"""Where an elimination of rows comes to a number of more than 127 bits, in words, by the evidence E1 of a rule."""

import json
import re

import evidence
from evidence_rows import both_signs, echelon, enlarging

LINE = re.compile(r"evidence \S+(?: @\S+)? E1 (\{.*\})")

# How many entries the rows may have that are eliminated here once more: these take a second or two.
MOST_ENTRIES = 20_000


def shown_in(lines):
    """What the first line of this evidence shows, or None where no line shows any."""
    found = next(filter(None, map(LINE.fullmatch, lines)), None)
    if found is None:
        return None
    shown = json.loads(found[1])
    part = tuple(int(it) for it in shown["part"])
    return dict(shown, basis=evidence.rows_of(shown["basis"]), part=part)


def eliminated(values, sources):
    """The lists of rows that a rule with these sources may eliminate: of a description, and of its double list."""
    for first, second, lines, others in values.parts():
        is_few = len(lines + others) * values.cols <= MOST_ENTRIES
        if first in sources and second in sources and is_few:
            double = both_signs(echelon(lines)[0]) + others
            yield first, second, lines + others
            yield first, second, double
            yield first, second, [row for row, is_new in zip(double, enlarging(double)) if is_new]


class Description:
    """A list of rows that is eliminated, and the two properties that it has the rows of."""

    def __init__(self, values, first, second, rows, names):
        self.values, self.first, self.second = values, first, second
        self.rows, self.names = rows, names

    def told(self):
        """The properties whose rows are there."""
        if not self.values.rows(self.first):
            return self.names(self.second)
        return f"{self.names(self.first)} and {self.names(self.second)}"

    def row(self, row):
        """A row by its place in the property that has it, or in words."""
        for name in (self.second, self.first):
            if row in self.values.rows(name):
                return f"row {self.values.rows(name).index(row)} of {self.names(name)}"
        return "the row x0 >= 0" if self.second == "INEQUALITIES" else f"a row of the span of {self.names(self.first)}"

    def without(self, kind):
        """What is left out of the list that is eliminated."""
        place = None if isinstance(kind, str) else next(iter(kind.values()))
        return "" if place is None else f" without {self.row(self.rows[place])}"

    def step(self, shown):
        """Where the step stands that the evidence shows, or None where it is of other rows."""
        kind, front = shown["list"], shown["front"]
        found = evidence.named_list(kind, self.rows, self.values.cols)
        if found is None or not evidence.holds_in_list(found[0], shown):
            return None
        what = f"{self.told()}{self.without(kind)} are eliminated one after another, counted from 0"
        if kind == "rows" or "without" in kind:
            return f"at {self.row(tuple(found[0][front]))} in column {shown['column']}, as the rows of {what}"
        return f"at column {front}, as the columns of {what}"


def told(values, sources, lines, names=lambda it: it):
    """At which row a number is too wide, and which rows are eliminated; None where the evidence does not tell."""
    shown = shown_in(lines)
    if shown is None:
        return None
    steps = (Description(values, *it, names).step(shown) for it in eliminated(values, sources))
    return next(filter(None, steps), None)
