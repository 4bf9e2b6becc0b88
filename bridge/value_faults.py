"""Where a value that the program did not take has its fault: the row, the entry, and what is wrong there."""

import json
import math
import re
from fractions import Fraction

from entries import hint
from json_tokens import meant_at
from properties import Kind
from refusals import Fault, shown
from values import READER, Inexact

MOST = 2**127 - 1
MOST_ROWS, MOST_COLUMNS = 2048, 33

# How many digits a number may have here before it is surely too wide.
MOST_DIGITS = 100
FRACTION = re.compile(r"(-?[0-9]+)(?:/([0-9]+))?", re.ASCII)

# The matrices in which no row is zero, and those whose rows begin with 0 or with no negative number.
WITHOUT_ZERO = ("VERTICES", "FACETS")
OF_POINTS = ("POINTS", "VERTICES")
OF_LINES = ("INPUT_LINEALITY", "LINEALITY_SPACE")

SHAPES = {
    Kind.MATRIX: "a list of rows of one length, as [[1,0],[1,1]]",
    Kind.ROW: "one list of numbers, as [0,1,1]",
    Kind.SETS: "a list of sets of places, as [[0,1],[1,2]]",
    Kind.COUNTS: "a list of whole numbers, as [4,4]",
    Kind.WHOLE: "a whole number, as 3",
    Kind.TRUTH: "true or false",
    Kind.EDGES: "for each node the list of its neighbours, as [[1],[0]]",
    Kind.LATTICE: "for each rank the list of its faces, as [[[]],[[0],[1]],[[0,1]]]",
    Kind.EXTENDED: "a number",
}


def place_at(text, at):
    """The row and the entry of a place in the text of rows, as words."""
    row, entry, depth = 0, 1, 0
    for mark in text[:at]:
        depth += (mark == "[") - (mark == "]")
        if mark == "[" and depth == 2:
            row, entry = row + 1, 1
        elif mark == "," and depth == 2:
            entry += 1
    if depth >= 2:
        return f"row {row}, entry {entry}: "
    return f"behind row {row}: " if row else ""


def json_fault(text):
    """Why a text is no JSON, and where."""
    try:
        READER.decode(text)
        return "it is no JSON"
    except json.JSONDecodeError as fault:
        at = fault.pos
    except (Fault, RecursionError) as fault:
        return f"it is no JSON: {fault}"
    told, begin = meant_at(text, at)
    if told:
        return f"{place_at(text, begin)}{told}"
    if text[at : at + 1] == ";":
        return "';' stands behind the value: each command takes a line of its own, without ';'"
    if text[at : at + 1] == "'":
        return f'{place_at(text, at)}a quote \' where JSON has "'
    if at >= len(text):
        return "the value ends before its brackets are closed"
    rest = text[at:]
    return f"{place_at(text, at)}JSON cannot go on with {shown(rest, 20)}"


def entry_fault(entry):
    """Why an entry of a matrix is no number that is taken, or None."""
    if isinstance(entry, Inexact):
        return f"{shown(entry)} is no fraction{meant(str(entry))}"
    if isinstance(entry, bool) or not isinstance(entry, (int, str)):
        return f"{shown(json.dumps(entry, default=str), 20)} is no number"
    found = FRACTION.fullmatch(str(entry))
    if not found:
        return f"{shown(entry)} is no fraction p or p/q{meant(str(entry))}"
    if len(str(entry)) > MOST_DIGITS:
        return f"{shown(entry, 20)} has more than 127 bits"
    if found[2] is not None and int(found[2]) == 0:
        return f"{shown(entry)} divides by zero"
    value = Fraction(int(found[1]), int(found[2] or 1))
    if max(abs(value.numerator), value.denominator) > MOST:
        return f"{shown(entry, 20)} has more than 127 bits"
    if isinstance(entry, int) and not -(2**63) <= entry < 2**64:
        return f'{entry} without quotes is beyond 64 bits: write "{entry}"'
    return None


def meant(text):
    """A hint at the fraction that a number in another writing is."""
    found = hint(text)
    return f': write "{found}"' if found else ""


def whole_fault(entry, is_index):
    """Why an entry is no whole number or no place, or None."""
    text = str(entry)
    if isinstance(entry, (bool, list, dict)) or entry is None or not re.fullmatch(r"-?[0-9]{1,100}", text):
        found = hint(text)
        meant = f": write {found}" if found.lstrip("-").isdigit() else ""
        return f"{shown(text)} is no whole number that is taken{meant}"
    if is_index and int(text) < 0:
        return f"{text} is below 0, and places count from 0"
    return None


def without_columns(value):
    """The rows of a list, and the column count behind them, or None."""
    if isinstance(value, list) and value and isinstance(value[-1], dict):
        return value[:-1], value[-1].get("cols")
    return value, None


def first(faults):
    return next((it for it in faults if it), None)


def row_faults(rows, fault_of_entry):
    """The faults of the entries of rows, each with its place."""
    for at, row in enumerate(rows, 1):
        if not isinstance(row, list):
            yield f"row {at} is no list"
            continue
        for place, entry in enumerate(row, 1):
            fault = fault_of_entry(entry)
            if fault:
                yield f"row {at}, entry {place}: {fault}"


def matrix_faults(value):
    """The faults of a matrix: its entries, and rows of other lengths."""
    rows, columns = without_columns(value)
    if not isinstance(rows, list):
        return
    yield from row_faults(rows, entry_fault)
    lists = [it for it in rows if isinstance(it, list)]
    wanted = columns if isinstance(columns, int) else len(lists[0]) if lists else 0
    for at, row in enumerate(lists, 1):
        if len(row) != wanted:
            yield f"row {at} has {len(row)} {'entry' if len(row) == 1 else 'entries'}, and {'the matrix' if columns else 'row 1'} has {wanted}"
    yield from size_faults(rows, wanted)


def size_faults(rows, columns):
    if len(rows) > MOST_ROWS:
        yield f"{len(rows):,} rows, of which the program takes at most {MOST_ROWS:,}"
    if columns > MOST_COLUMNS:
        yield f"{columns} columns, of which the program takes at most {MOST_COLUMNS}"


def set_faults(value):
    """The faults of sets: places that are none, that stand twice, or that are beyond the column count."""
    rows, columns = without_columns(value)
    if not isinstance(rows, list):
        return
    yield from row_faults(rows, lambda it: whole_fault(it, True))
    for at, row in enumerate(rows, 1):
        if len({str(it) for it in row}) != len(row):
            yield f"row {at}: a place stands twice"
        over = [it for it in row if isinstance(columns, int) and int(it) >= columns]
        if over:
            yield f"row {at}: {over[0]} is not below the column count {columns}"
    yield from size_faults(rows, 0)


def list_faults(value, fault_of_entry):
    """The faults of one list of entries."""
    for at, entry in enumerate(value if isinstance(value, list) else [], 1):
        fault = fault_of_entry(entry)
        if fault:
            yield f"entry {at}: {fault}"


def truth_fault(value):
    """What is meant by a text or a number in place of a truth value, or None."""
    words = {"true": "true", "false": "false", "1": "true", "0": "false"}
    told = words.get(str(value).lower())
    return f"{json.dumps(value, default=str)} is no truth value: write {told}" if told else None


def value_faults(kind, value):
    """The faults of a value of this kind that can be found by its entries."""
    if kind is Kind.MATRIX:
        yield from matrix_faults(value)
    elif kind is Kind.SETS:
        yield from set_faults(value)
    elif kind is Kind.ROW:
        yield from list_faults(value, entry_fault)
    elif kind is Kind.COUNTS:
        yield from list_faults(value, lambda it: whole_fault(it, False))
    elif kind is Kind.TRUTH:
        yield truth_fault(value)
    elif kind is Kind.WHOLE and isinstance(value, int) and value > MOST_COLUMNS:
        yield f"{value} is more than is taken"
    elif kind is Kind.WHOLE and isinstance(value, (str, Inexact)):
        yield whole_fault(value, False)


def row_test(name, type_name, row):
    """Why a row fails the test of its property, or None."""
    if name in WITHOUT_ZERO and not any(row):
        return "it is zero"
    if name == "SITES" and row[0] <= 0:
        return "its first entry is not positive"
    if type_name == "Polytope" and name in OF_POINTS and row[0] < 0:
        return "its first entry is negative: a point is (1, x), a direction (0, d)"
    if type_name == "Polytope" and name in OF_LINES and row[0] != 0:
        return "its first entry is not 0, which it is of a line (0, d)"
    scale = math.lcm(*(it.denominator for it in row))
    whole = [int(it * scale) for it in row]
    if any(whole) and max(map(abs, whole)) // math.gcd(*whole) > MOST:
        return "as a row of whole numbers without common divisor it has more than 127 bits"
    return None


def failing_row(name, type_name, value):
    """The first row that fails the test of its property."""
    rows, _ = without_columns(value)
    for at, row in enumerate(rows if isinstance(rows, list) else [], 1):
        try:
            fault = row_test(name, type_name, [Fraction(str(it)) for it in row])
        except (ValueError, ZeroDivisionError, TypeError, IndexError):
            return None
        if fault:
            return f"row {at}: {fault}"
    return None


def told(reason, item, type_name, text, columns):
    """What is wrong with a value, by the reason of the refusal."""
    if reason == "computed":
        return "a linear program takes its LINEAR_OBJECTIVE alone: all else of it is computed"
    if reason == "json":
        return json_fault(text)
    try:
        value = READER.decode(text)
    except (json.JSONDecodeError, Fault, RecursionError):
        return f"it is refused: {reason}"
    if reason == "columns":
        known = f", and what the object holds has {columns} columns" if columns else ""
        return f"it has another number of columns than what the object holds{known}"
    if reason == "row":
        return failing_row(item.polytope, type_name, value) or "a row fails its test"
    found = first(value_faults(item.kind, value))
    return found or f"{item.polytope} is {SHAPES[item.kind]}"
