"""Values as the program writes them, and as Python has them."""

import json
import math
from fractions import Fraction


class Matrix(list):
    """A list of rows, each a list of fractions, that is shown by rows.

    It is a list and equal to one: `p.FACETS == [[0, 1], [1, -1]]`.
    """

    def __repr__(self):
        if not self:
            return "[]"
        texts = [[str(it) for it in row] for row in self]
        widths = [max(map(len, column)) for column in zip(*texts)]
        return "\n".join(
            "[" + " ".join(text.rjust(width) for text, width in zip(row, widths)) + "]" for row in texts
        )

    def _repr_html_(self):
        rows = ("".join(f"<td>{it}</td>" for it in row) for row in self)
        return "<table>" + "".join(f"<tr>{row}</tr>" for row in rows) + "</table>"


# What Python has, from the program.


def fraction_of(text):
    """A fraction, or one of both infinities."""
    return {"inf": math.inf, "-inf": -math.inf}.get(text) or Fraction(text)


def without_columns(rows):
    """Rows without the column count that may stand behind them."""
    return rows[:-1] if rows and isinstance(rows[-1], dict) else rows


READ = {
    "matrix": lambda value: Matrix([Fraction(it) for it in row] for row in without_columns(value)),
    "row": lambda value: [Fraction(it) for it in value],
    "extended number": fraction_of,
    "sets": without_columns,
    "edges": without_columns,
}


def read(kind, text):
    """The value of a kind that a reply shows."""
    value = json.loads(text)
    return READ[kind](value) if kind in READ else value


def copied(value):
    """A value of its own for each who asks."""
    return type(value)(copied(it) for it in value) if isinstance(value, list) else value


# What the program reads, from Python.


class BadEntry(TypeError):
    """What is given is no value of a property, by its type.

    `property` is the name of the property, `row` and `column` are the places from 0 where they are known.
    """

    def __init__(self, told, name="", row=None, column=None):
        places = [("row", row), ("column" if row is not None else "place", column)]
        where = ", ".join(it for it in [name, *(f"{what} {at}" for what, at in places if at is not None)] if it)
        super().__init__(f"{where}: {told}" if where else told)
        self.property, self.row, self.column, self.told = name, row, column, told


def part_of(number, name):
    """The numerator or denominator of a number, where it is an attribute or, as in Sage, a method."""
    part = getattr(number, name)
    return int(part() if callable(part) else part)


def entry_of(number):
    """A number as the program reads it: a text p or p/q."""
    if isinstance(number, str):
        return number
    if isinstance(number, bool):
        raise TypeError(f"{number} is a truth value, where a number is wanted")
    if isinstance(number, float):
        told = f"{number} is a float, which is seldom the number that is meant"
        if not math.isfinite(number):
            raise TypeError(told)
        exact = str(Fraction(str(number)))
        raise TypeError(f"{told}: give a Fraction, as Fraction({str(number)!r}), or a text, as {exact!r}")
    if not hasattr(number, "numerator") or not hasattr(number, "denominator"):
        raise TypeError(f"{number!r} is no number that is taken: give int, Fraction, or a text as '1/2'")
    top, bottom = part_of(number, "numerator"), part_of(number, "denominator")
    return str(top) if bottom == 1 else f"{top}/{bottom}"


def row_of(row, name="", at=None):
    """A row of numbers, of this property and at this place."""
    if isinstance(row, (str, bytes)) or not hasattr(row, "__iter__"):
        raise BadEntry(f"{row!r} is no row of numbers: a list of int, Fraction or texts is expected", name, at)
    found = []
    for column, entry in enumerate(row):
        try:
            found.append(entry_of(entry))
        except (TypeError, ValueError) as fault:
            raise BadEntry(str(fault), name, at, column) from None
    return found


def rows_of(rows, name=""):
    """A matrix; one without rows may be told its columns, as [{"cols": 3}]."""
    if isinstance(rows, (str, bytes)) or not hasattr(rows, "__iter__"):
        raise BadEntry(f"{rows!r} is no list of rows: a list of lists is expected", name)
    return [it if isinstance(it, dict) else row_of(it, name, at) for at, it in enumerate(rows)]


def plain(value, name="", at=()):
    """Lists of whole numbers, whatever they come as: tuples, sets, ranges, numbers of other packages; in any order."""
    if isinstance(value, (bool, dict)):
        return value
    if hasattr(value, "__iter__") and not isinstance(value, (str, bytes)):
        return [plain(it, name, (*at, place)) for place, it in enumerate(value)]
    if isinstance(value, float):
        row, column = (at if len(at) > 1 else (None, *at, None))[:2]
        raise BadEntry(f"{value} is a float, where a whole number is wanted", name, row, column)
    return int(value) if hasattr(value, "__index__") else value


def written(kind, value, name=""):
    """A value of a kind as the text that `take` has; the property is named where the value is none."""
    if kind == "matrix":
        value = rows_of(value, name)
    elif kind == "row":
        value = row_of(value, name)
    elif kind != "extended number":
        value = plain(value, name)
    try:
        return json.dumps(value, separators=(",", ":"))
    except (TypeError, ValueError) as fault:
        raise BadEntry(str(fault), name) from None
