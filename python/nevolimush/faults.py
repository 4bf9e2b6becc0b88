"""Why a value or a command was refused: where a value has its fault, from 0, and the condition that does not hold."""

import json
import math
import re
from dataclasses import dataclass
from fractions import Fraction

MOST = 2**127 - 1
MOST_ROWS, MOST_COLUMNS = 2048, 33

# How many digits a number may have here before it is surely too wide, and how much of a text is shown.
MOST_DIGITS, MOST_SHOWN = 100, 30

NUMBER = re.compile(r"(-?[0-9]+)(?:/([0-9]+))?", re.ASCII)
OTHERWISE = re.compile(r"[-+]?(?:[0-9]+\.?[0-9]*|\.[0-9]+)(?:[eE][-+]?[0-9]{1,3})?", re.ASCII)

# What each kind of value is.
EXPECTED = {
    "matrix": "a list of rows of one length",
    "row": "one list of numbers",
    "sets": "a list of sets of places, which count from 0",
    "list of numbers": "a list of whole numbers",
    "whole number": "a whole number",
    "truth value": "True or False",
    "edges": "for each node the list of its neighbours",
    "lattice": "for each rank the list of its faces",
}
A_NUMBER = "int, Fraction, or a text p or p/q, with numbers of at most 127 bits"

# The matrices in which no row is zero, those whose rows begin with no negative number, and those that begin with 0.
WITHOUT_ZERO = ("VERTICES", "FACETS")
OF_POINTS = ("POINTS", "VERTICES")
OF_LINES = ("INPUT_LINEALITY", "LINEALITY_SPACE")

# What the reason of a refusal says, by its number.
REASONS = {
    6: {
        "json": "it is no JSON",
        "shape": "it has another form",
        "number": "a number is out of bounds, or no fraction",
        "index": "a place is negative, or not below the column count",
        "limit": "a count is beyond its limit",
        "computed": "a linear program takes its LINEAR_OBJECTIVE alone: all else of it is computed",
        "columns": "it has other columns than the object",
        "row": "a row fails its test",
    },
    13: {
        "Limit": "the file has more than 8,388,608 bytes",
        "NotJson": "the file is no JSON",
        "NoType": "the file has no text '_type'",
        "UnknownType": "its '_type' is no type that is known here",
        "BadProperty": "the value of this key has a fault",
        "BadRow": "a row of this key is refused, or has other columns than those before",
        "BadProfile": "what it says of computed values is at fault",
    },
    17: {
        "type": "it is made of objects of another type",
        "BOUNDED": "it is made of bounded polytopes only, and BOUNDED is false",
        "FULL_DIM": "it is made of polytopes of full dimension only, and FULL_DIM is false",
        "CENTERED": "it is made of polytopes with the origin in their interior only, and CENTERED is false",
        "FEASIBLE": "it is made of polytopes with a point only, and FEASIBLE is false",
        "columns": "the objects have other dimensions, or the new one has more than 32",
        "rows": "the new object has more than 2,048 rows, or given values contradict each other",
        "size": "it is larger than is taken",
    },
    18: {
        "combination": "a number on the way to the sum of two vertices has more than 127 bits",
        "E1": "two cones are not intersected, since an elimination leads to a number of more than 127 bits",
        "E2": "two cones are not intersected, since double description leads to a number of more than 127 bits",
        "E4": "two cones are not intersected, since a product of two rows has more than 127 bits",
        "E5": "two cones are not intersected, since more than 2,048 rays come up",
    },
}


@dataclass(frozen=True)
class Fault:
    """What is wrong with a value: the row and the column, from 0, where they are known, and what is expected there."""

    told: str
    expected: str
    row: int | None = None
    column: int | None = None


@dataclass(frozen=True)
class Given:
    """A value that was given: the property with its first name, the type, the kind, and the columns given before."""

    name: str
    first: str
    type_name: str
    kind: str
    value: object
    columns: dict


def reason(number, text):
    """What the reason of a refusal says, or None; of a value in a file also the reason that the value has."""
    first, *_, last = text.split(" ") if " " in text else (text, "")
    told = REASONS.get(number, {}).get(first)
    return f"{told}: {REASONS[6][last]}" if told and last in REASONS[6] else told


def cut(value):
    """A value as Python writes it, cut where it is long."""
    if isinstance(value, str):
        return repr(value if len(value) <= MOST_SHOWN else f"{value[:MOST_SHOWN]}..")
    text = repr(value)
    return text if len(text) <= MOST_SHOWN else f"{text[:MOST_SHOWN]}.."


def meant(text):
    """A hint at the fraction that a number in another writing is, as .5, 0.5, 5. and +1/2."""
    is_signed = text[:1] == "+" and number_fault(text[1:]) is None
    if len(text) <= MOST_SHOWN and (OTHERWISE.fullmatch(text) or is_signed):
        return f": write {str(Fraction(text))!r}"
    return ""


def number_fault(entry):
    """Why an entry is no number that is taken, or None."""
    text = str(entry)
    found = NUMBER.fullmatch(text)
    if not found:
        return f"{cut(text)} is no fraction{meant(text)}"
    if found[2] is not None and not found[2].strip("0"):
        return f"{cut(text)} divides by zero"
    if len(text) > MOST_DIGITS:
        return f"{cut(text)} has more than 127 bits"
    value = Fraction(int(found[1]), int(found[2] or 1))
    return f"{cut(text)} has more than 127 bits" if max(abs(value.numerator), value.denominator) > MOST else None


def whole_fault(entry):
    """Why an entry is no whole number of 64 bits, or None."""
    if isinstance(entry, bool) or not re.fullmatch(r"-?[0-9]{1,20}", str(entry)):
        return f"{cut(str(entry))} is no whole number that is taken"
    return None


def rows_in(value):
    """The rows of a value, and the column count that stands behind them, or None."""
    rows = value if isinstance(value, list) else []
    if rows and isinstance(rows[-1], dict):
        return rows[:-1], rows[-1].get("cols")
    return rows, None


def matrix_faults(given):
    """The faults of a matrix: its entries, rows of other lengths, and too many of them."""
    rows, columns = rows_in(given.value)
    wanted = columns if columns is not None else len(rows[0]) if rows and isinstance(rows[0], list) else 0
    for at, row in enumerate(rows):
        if not isinstance(row, list):
            yield Fault(f"{cut(row)} stands between rows", EXPECTED["matrix"], at)
            continue
        yield from entry_faults(row, at)
        if len(row) != wanted:
            before = "the matrix" if columns is not None else "row 0"
            yield Fault(f"{entries(len(row))}, where {before} has {wanted}", f"a row of {entries(wanted)}", at)
    yield from size_faults(rows, wanted)


def entries(count):
    return f"{count} {'entry' if count == 1 else 'entries'}"


def entry_faults(row, at=None):
    """The faults of the numbers of a row."""
    for column, entry in enumerate(row):
        told = number_fault(entry)
        if told:
            yield Fault(told, A_NUMBER, at, column)


def size_faults(rows, columns):
    if len(rows) > MOST_ROWS:
        yield Fault(f"{len(rows):,} rows", f"at most {MOST_ROWS:,} rows")
    if columns > MOST_COLUMNS:
        yield Fault(f"{columns} columns", f"at most {MOST_COLUMNS} columns")
    if rows and not columns:
        yield Fault("its rows have no entries", "rows of at least one entry")


def set_faults(given):
    """The faults of sets of places."""
    rows, columns = rows_in(given.value)
    for at, row in enumerate(rows):
        if not isinstance(row, list):
            yield Fault(f"{cut(row)} is no set", EXPECTED["sets"], at)
            continue
        yield from place_faults(row, at, columns)
    if len(rows) > MOST_ROWS:
        yield Fault(f"{len(rows):,} sets", f"at most {MOST_ROWS:,} sets")


def place_faults(row, at, columns):
    """The faults of the places of a set; the column is that in the set as it is given."""
    below = f"a place from 0 to {columns - 1}" if isinstance(columns, int) and columns > 0 else "a place from 0 on"
    for column, entry in enumerate(row):
        told = whole_fault(entry)
        if told:
            yield Fault(told, below, at, column)
        elif int(entry) < 0 or isinstance(columns, int) and int(entry) >= columns:
            yield Fault(f"{entry} is no place", below, at, column)
        elif entry in row[:column]:
            yield Fault(f"the place {entry} stands twice", "each place once", at, column)


def list_faults(given):
    """The faults of one list: of numbers, or of whole numbers."""
    rows = given.value if isinstance(given.value, list) else []
    if given.kind == "row":
        yield from entry_faults(rows)
        return
    for column, entry in enumerate(rows):
        told = whole_fault(entry)
        if told:
            yield Fault(told, "a whole number of 64 bits", None, column)
    if len(rows) > MOST_ROWS:
        yield Fault(f"{len(rows):,} numbers", f"at most {MOST_ROWS:,}")


def single_faults(given):
    """The fault of a whole number or a truth value."""
    wanted = bool if given.kind == "truth value" else int
    if not isinstance(given.value, wanted) or isinstance(given.value, bool) and wanted is int:
        yield Fault(f"{cut(given.value)} is no {given.kind}", EXPECTED[given.kind])
    elif given.first == "CONE_AMBIENT_DIM":
        yield Fault(f"{given.value} columns", f"a number of columns from 1 to {MOST_COLUMNS}")


FAULTS = {
    "matrix": matrix_faults,
    "sets": set_faults,
    "row": list_faults,
    "list of numbers": list_faults,
    "whole number": single_faults,
    "truth value": single_faults,
}


SINGLE = ("whole number", "truth value", "extended number")


def row_test(given, row):
    """Why a row fails the test of its property, with what is expected, the column where one is meant; or None."""
    is_of_polytope = given.type_name == "Polytope"
    if given.first in WITHOUT_ZERO and not any(row):
        return Fault("it is zero", "a row that is not zero")
    if given.first == "SITES" and row[0] <= 0:
        return Fault(f"it begins with {row[0]}", "a positive number before the coordinates, as 1", None, 0)
    if is_of_polytope and given.first in OF_POINTS and row[0] < 0:
        return Fault(f"it begins with {row[0]}", "(1, x) of a point x, or (0, d) of a direction d", None, 0)
    if is_of_polytope and given.first in OF_LINES and row[0] != 0:
        return Fault(f"it begins with {row[0]}", "(0, d) of a line in the direction d", None, 0)
    scale = math.lcm(*(it.denominator for it in row))
    whole = [int(it * scale) for it in row]
    if any(whole) and max(map(abs, whole)) // math.gcd(*whole) > MOST:
        told = "as whole numbers without a common divisor it has one of more than 127 bits"
        return Fault(told, "a row whose whole numbers have at most 127 bits")
    return None


def failing_row(given):
    """The first row that fails its test."""
    for at, row in enumerate(rows_in(given.value)[0]):
        found = row_test(given, [Fraction(it) for it in row])
        if found:
            return Fault(found.told, found.expected, at, found.column)
    return None


def columns_in(kind, first, value):
    """How many columns a given value says that the object has, or None."""
    if first == "CONE_AMBIENT_DIM":
        return value if isinstance(value, int) else None
    if kind != "matrix" or first == "F2_VECTOR":
        return None
    rows, columns = rows_in(value)
    return columns if columns is not None else len(rows[0]) if rows and isinstance(rows[0], list) else None


def columns_fault(given):
    """With which property the columns of a value do not agree."""
    if given.first == "SITE_HEIGHTS" and isinstance(given.value, list):
        count = given.columns.get("SITES rows")
        return Fault(f"{entries(len(given.value))}, where SITES has {count} rows", "one number for each site")
    have = len(given.value) if given.kind == "row" else columns_in(given.kind, given.first, given.value)
    name, wanted = next((it for it in given.columns.items() if it[0] != "SITES rows"), (None, None))
    if have is None or name is None:
        return None
    return Fault(f"{have} columns, where {name} has {wanted}", f"{wanted} columns")


def of_value(given, why):
    """The fault of a value that was refused for this reason."""
    if why == "columns":
        found = columns_fault(given)
    elif why == "row":
        found = failing_row(given)
    elif why == "computed":
        return Fault(reason(6, why), "LINEAR_OBJECTIVE")
    elif isinstance(given.value, list) or given.kind in SINGLE:
        found = next(FAULTS.get(given.kind, lambda _: iter(()))(given), None)
    else:
        found = Fault(f"{cut(given.value)} is no list", EXPECTED.get(given.kind, "a list"))
    return found or Fault(reason(6, why) or why, EXPECTED.get(given.kind, "another value"))


def parsed(text):
    """A value of a command, or None where it is no JSON."""
    try:
        return json.loads(text)
    except ValueError:
        return None
