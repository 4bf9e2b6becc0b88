"""Values as JSON: how this program prints them, and how files of polymake hold them."""

import json

from entries import fraction_of, row_of, whole_of
from properties import PROGRAM_PROPERTIES, Kind
from refusals import Fault, shown, told_name


class Inexact:
    """A JSON number that is not whole, by its text."""

    def __init__(self, text):
        self.text = text

    def __str__(self):
        return self.text


def no_constant(text):
    raise Fault(f"{text} is no JSON")


def whole_number(text):
    """A whole JSON number; one that is too long to be read stays a text that is refused."""
    return int(text) if len(text) <= 4000 else Inexact(text)


def distinct(pairs):
    """An object whose keys are all different."""
    found = {}
    for key, value in pairs:
        if key in found:
            raise Fault(f"the key {told_name(key)} stands twice")
        found[key] = value
    return found


READER = json.JSONDecoder(
    object_pairs_hook=distinct,
    parse_int=whole_number,
    parse_float=Inexact,
    parse_constant=no_constant,
)


def split_columns(value):
    """The rows of a matrix or of sets, and the count of a last {"cols":n}, else None."""
    if not isinstance(value, list):
        raise Fault("no list of rows")
    if not value or not isinstance(value[-1], dict) or "cols" not in value[-1]:
        return value, None
    if list(value[-1]) != ["cols"]:
        raise Fault("the object with 'cols' holds something else too", len(value) - 1)
    return value[:-1], at_least_zero(value[-1]["cols"], "cols", len(value) - 1)


def at_least_zero(value, what, row):
    if not isinstance(value, int) or isinstance(value, bool) or value < 0:
        raise Fault(f"'{what}' is no count", row)
    return value


def sparse_row(row, columns):
    """A row {"0":"1","_dim":n}, else 0; without '_dim' it is as long as the matrix has columns."""
    length = columns
    if "_dim" in row:
        length = at_least_zero(row["_dim"], "_dim", None)
    if length is None:
        raise Fault("a sparse row without '_dim' in a matrix without 'cols'")
    dense = [fraction_of(0)] * length
    for key, entry in row.items():
        if key == "_dim":
            continue
        if not key.isascii() or not key.isdigit() or str(int(key)) != key or int(key) >= length:
            raise Fault(f"{shown(key)} is no place in a row of {length}")
        dense[int(key)] = fraction_of(entry)
    return dense


def matrix_row(row, columns):
    """A dense or a sparse row."""
    if isinstance(row, dict):
        return sparse_row(row, columns)
    if not isinstance(row, list):
        raise Fault("no row")
    return row_of(row)


def read_matrix(value):
    """Rows of one length, and that length, or None where nothing tells it."""
    rows, columns = split_columns(value)
    found = []
    for at, row in enumerate(rows):
        try:
            found.append(matrix_row(row, columns))
        except Fault as fault:
            raise Fault(fault.text, at) from None
        columns = len(found[-1]) if columns is None else columns
        if len(found[-1]) != columns:
            raise Fault(f"a row of {len(found[-1])} entries in a matrix of {columns} columns", at)
    return found, columns


def read_set(row, columns):
    """Indices, each once, ascending."""
    if not isinstance(row, list):
        raise Fault("no set of indices")
    found = sorted(whole_of(it) for it in row)
    if len(set(found)) != len(found):
        raise Fault("an index stands twice")
    if found and found[0] < 0:
        raise Fault("an index below 0")
    if found and columns is not None and found[-1] >= columns:
        raise Fault(f"an index that is not below {columns}")
    return found


def read_sets(value):
    """Sets and their column count; where none stands there, it is one above the greatest index."""
    rows, columns = split_columns(value)
    found = []
    for at, row in enumerate(rows):
        try:
            found.append(read_set(row, columns))
        except Fault as fault:
            raise Fault(fault.text, at) from None
    if columns is None:
        columns = max((it[-1] + 1 for it in found if it), default=0)
    return found, columns


def read_counts(value):
    if not isinstance(value, list):
        raise Fault("no list of numbers")
    return [whole_of(it) for it in value]


def list_of(read, value):
    """A list whose elements are read so."""
    if not isinstance(value, list):
        raise Fault("no list")
    return [read(it) for it in value]


def read_edges(value):
    """For each node its neighbours, each of them another node."""
    nodes = list_of(lambda it: read_set(it, None), value)
    for node, row in enumerate(nodes):
        if any(it >= len(nodes) or it == node or node not in nodes[it] for it in row):
            raise Fault("a neighbour that is no node, the node itself, or not joined back", node)
    return nodes


def read_lattice(value):
    """For each rank its faces, as sets of indices."""
    return list_of(lambda rank: list_of(lambda it: read_set(it, None), rank), value)


def read_truth(value):
    if not isinstance(value, bool):
        raise Fault("neither true nor false")
    return value


def read_row(value):
    """A row of fractions, dense or sparse."""
    return matrix_row(value, None)


def read_extended(value):
    """A fraction, or one of both infinities, as a text."""
    return value if value in ("inf", "-inf") else str(fraction_of(value))


READ = {
    Kind.MATRIX: lambda value: read_matrix(value)[0],
    Kind.ROW: read_row,
    Kind.EXTENDED: read_extended,
    Kind.SETS: read_sets,
    Kind.COUNTS: read_counts,
    Kind.WHOLE: whole_of,
    Kind.TRUTH: read_truth,
    Kind.EDGES: read_edges,
    Kind.LATTICE: read_lattice,
}


def put_value(thing, item, value):
    """Reads a value and holds it, with the column count that a matrix tells."""
    if item.kind is not Kind.MATRIX:
        thing.values[item.polytope] = READ[item.kind](value)
        if item.polytope == "CONE_AMBIENT_DIM":
            agree(thing, thing.values[item.polytope])
        return
    rows, columns = read_matrix(value)
    is_told = columns is not None and (rows or columns)
    if is_told and item.polytope != "F2_VECTOR":
        agree(thing, columns)
    thing.values[item.polytope] = rows


def put_program_value(thing, program, name, value):
    """Reads a value of a linear program, whose rows have the columns of its polytope."""
    kind, _ = PROGRAM_PROPERTIES[name]
    found = READ[kind](value)
    if kind is Kind.ROW:
        agree(thing, len(found))
    program.values[name] = found


def agree(thing, columns):
    """All matrices have one column count."""
    if thing.columns is not None and thing.columns != columns:
        raise Fault(f"{columns} columns, where what stands before has {thing.columns}")
    thing.columns = columns


def written(kind, value, columns=None):
    """A value as JSON; the column count of a matrix without rows is written where it is told."""
    if kind is Kind.MATRIX:
        rows = [[str(it) for it in row] for row in value]
        return rows if rows or columns is None else [{"cols": columns}]
    if kind is Kind.ROW:
        return [str(it) for it in value]
    if kind is Kind.SETS:
        rows, count = value
        return [*rows, {"cols": count}]
    return value


def compact(value):
    """JSON without spaces."""
    return json.dumps(value, separators=(",", ":"))
