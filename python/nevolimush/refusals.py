"""What the program refuses, as exceptions: one class for each number of docs/manual.md."""

import json
import re
from dataclasses import dataclass

from . import faults
from .table import REFUSALS

# What each kind of evidence shows; docs/evidence.md says it in full.
EVIDENCE = {
    "E1": "the elimination of its rows leads to a number of more than 127 bits",
    "E2": "two rays that double description combines lead to a number of more than 127 bits",
    "E3": "a pivot of a linear program over its rows leads to a number of more than 127 bits",
    "E4": "the product of two of its rows has more than 127 bits",
    "E5": "more than 2,048 rays, facets or cells come up, or more than 65,536 faces",
}

# What is said of a wide rule that failed by its numbers too: its evidence is that of the standard rule.
STILL_TOO_WIDE = (
    "it calculates with 512 bits, and these are not enough, or a number that it has to keep has more than 127 bits"
)

# What is said after all rules, and where rows or faces are too many.
TOO_WIDE = (
    "if the wide rules fail too, mostly the answer itself has a number of more than 127 bits: "
    "no rule and no other order of the rows gives it then, and only smaller numbers help"
)
TOO_MANY = (
    "to try: a smaller object, or what needs no faces; where the answer itself has more than 2,048 rows no order "
    "of the given rows helps, and where it has fewer another order may"
)

# The kinds that say that 127 bits are left.
OF_NUMBERS = {"E1", "E2", "E3", "E4"}


@dataclass(frozen=True)
class Evidence:
    """Why a rule failed: its label, the linear program in which it did or None, the kind, and what it shows.

    `shown` is a dict with the keys of docs/evidence.md, or None where the number alone is known: the
    mark came with a file. `line` is the line that bridge/check-evidence reads.
    """

    label: str
    program: str | None
    kind: str
    shown: dict | None
    line: str


PUT_ASIDE = {"disabled": "it was disabled", "no-client": "its client was let go, or the program has none"}


@dataclass(frozen=True)
class Failure:
    """A rule that is not tried: it `failed` by evidence, a condition that it has is `false`, or it was put aside.

    Put aside is one that is `disabled`, or that has `no-client`; then `what` is "".
    """

    label: str
    how: str
    what: str
    program: str | None = None
    evidence: tuple = ()

    def __str__(self):
        place = f" for the program {self.program}" if self.program else ""
        if self.how == "false":
            return f"{self.label} was not tried: {self.what} is not as it asks"
        if self.how in PUT_ASIDE:
            return f"{self.label} was not tried: {PUT_ASIDE[self.how]}"
        shown = EVIDENCE.get(self.what, "it cannot go on")
        if self.what in OF_NUMBERS and self.label.endswith("_wide"):
            shown = STILL_TOO_WIDE
        return f"{self.label} failed{place} by {self.what}: {shown}"


def printable(text):
    """A text in which each mark that a terminal would obey stands as JSON writes it."""
    return "".join(it if it.isprintable() else json.dumps(it)[1:-1] for it in text)


class Refused(Exception):
    """The program refused a command, and the object goes on as it was.

    `number` and `name` are those of docs/manual.md, `reason` is what stands behind them, or "". `when`
    says when it comes; where a reason stands there, it says the one condition that does not hold.
    """

    number = 0
    when = ""

    def __init__(self, reply):
        _, number, self.name, *reason = reply.split(" ", 3)
        self.number = int(number)
        self.reason = reason[0] if reason else ""
        self.when = faults.reason(self.number, self.reason) or self.when
        self.lines = [reply]
        super().__init__(reply)

    def __str__(self):
        reason = f" {self.reason}" if self.reason else ""
        return printable(f"{self.number} {self.name}{reason}: {self.when}")


def subclass(number):
    """The class of a number."""
    name, when = REFUSALS[number]
    told = {"__doc__": f"Refusal {number}: {when}.", "__module__": __name__, "number": number, "when": when}
    return type(name, (Refused,), told)


class NoChain(Refused):
    """Refusal 10: no chain of rules that are not barred leads there.

    `failures` are the rules that failed in rounds, each with its evidence, or that were not tried there;
    `barred` are the other rules that are held back, as `explain` tells them: by a condition that is held
    as false, or since they were put aside; `held` has each property that is held all the same with its
    origin; `advice` are lines on what to do; `lines` is the reply.
    """

    number = 10
    when = REFUSALS[10][1]

    def __init__(self, reply):
        super().__init__(reply)
        self.asked = ""
        self.failures, self.barred, self.held, self.advice = [], [], {}, []

    def __str__(self):
        computed = [name for name, origin in self.held.items() if origin != "given"]
        told = [f"{super().__str__()}: {self.asked}".removesuffix(": ")]
        told += [str(it) for it in [*self.failures, *self.barred]]
        if computed:
            told.append(f"found all the same: {', '.join(computed)}")
        return "\n".join(told + self.advice)


class BadValue(Refused):
    """Refusal 6: the value cannot be taken.

    `property` is the name of the property, `row` and `column` are the places from 0 where the fault is,
    or None where it has none, `told` is what is wrong there, and `expected` what may stand there.
    """

    number = 6
    when = REFUSALS[6][1]

    def __init__(self, reply):
        super().__init__(reply)
        self.property, self.row, self.column = None, None, None
        self.told, self.expected = self.when, ""

    def place(self, name, fault):
        """Says where the value of a property has its fault."""
        self.property, self.row, self.column = name, fault.row, fault.column
        self.told, self.expected = fault.told, fault.expected
        self.when = f"{place_of(name, fault.row, fault.column)}: {fault.told}; expected: {fault.expected}"

    def without_first_column(self):
        """Says where the fault is in rows to which the first column was added."""
        column = None if self.column is None else self.column - 1
        self.place(self.property, faults.Fault(self.told, self.expected, self.row, column))


def place_of(name, row, column):
    """The property, and the row and the column where they are known."""
    places = [("row", row), ("column" if row is not None else "place", column)]
    return ", ".join([name, *(f"{what} {at}" for what, at in places if at is not None)])


CLASSES = {number: subclass(number) for number in REFUSALS if number not in (6, 10)}
CLASSES |= {6: BadValue, 10: NoChain}
globals().update({it.__name__: it for it in CLASSES.values()})


def refusal_of(lines, given=None):
    """The exception of a reply that is a refusal; of a value that was given, with the place of its fault."""
    number = int(lines[0].split(" ")[1])
    found = CLASSES.get(number, Refused)(lines[0])
    found.lines = list(lines)
    if given is not None and isinstance(found, BadValue):
        found.place(given.name, faults.of_value(given, found.reason))
    return found


def is_refused(lines):
    return bool(lines) and lines[0].startswith("no ")


def is_tried(lines):
    """Whether a refusal comes after chains were tried, which the object holds in mind."""
    return is_refused(lines) and lines[0].split(" ")[1] in ("10", "11")


RULE = re.compile(r"(\S+) : rule (.*?) : (.*?) \{ \S+ \} weight [0-9.]+;(?: precondition : (.*);)?")


def useful(lines, names):
    """The labels of the rules of a book that find one of these names, or something that such a rule reads."""
    rules = [it.groups() for it in map(RULE.fullmatch, lines) if it]
    listed = lambda text: {it.lstrip("! ") for it in (text or "").split(", ") if it}
    needed, found = set(names), set()
    while more := {it[0] for it in rules if needed & listed(it[1])} - found:
        found |= more
        for it in rules:
            if it[0] in more:
                needed |= listed(it[2]) | listed(it[3])
    return found


def advice(failures, barred, held, is_wide):
    """What to do, by the kinds of evidence, by what is held, and by whether the rules are the wide ones."""
    kinds = {it.what for it in failures if it.how == "failed"}
    if not failures and not barred:
        known = ", ".join(held) or "nothing"
        yield f"no rule failed: nothing leads there from {known}; give a description, as points or inequalities"
    if kinds & OF_NUMBERS and not is_wide:
        yield "to try: the wide rules, which are those of Session(): they work by numbers of 512 bits on the way"
    elif any(it.what in OF_NUMBERS and it.label.endswith("_wide") for it in failures):
        yield TOO_WIDE
    if kinds & OF_NUMBERS:
        yield "to try: smaller numbers: move it to the origin, round to fewer places, scale denominators away"
    if "E2" in kinds:
        yield "to try: the same rows in another order, sorted for instance"
    if "E5" in kinds:
        yield TOO_MANY
