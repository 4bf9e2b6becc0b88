"""What Normaliz writes (.out): the cone or the polyhedron by its extreme rays, else by its support hyperplanes."""

import re
from dataclasses import dataclass, field

import command
from entries import row_of
from properties import Thing
from refusals import Fault, Refusal

# The matrices that are read, each below a line with the count of its rows.
RAYS, RECESSION, VERTICES = "extreme rays", "extreme rays of recession cone", "vertices of polyhedron"
SUBSPACE, EQUATIONS = "basis elements of maximal subspace", "equations"
HYPERPLANES, HOMOGENIZED = "support hyperplanes", "support hyperplanes of polyhedron (homogenized)"
MATRICES = (RAYS, RECESSION, VERTICES, SUBSPACE, EQUATIONS, HYPERPLANES, HOMOGENIZED)

HEAD = re.compile(r"([0-9]{1,9}) (.*):", re.ASCII)
STARS = re.compile(r"^\*{40,}$", re.M)
COUNTED = re.compile(r"^[0-9]+ (?:extreme rays|support hyperplanes|vertices of polyhedron)\b", re.M)
DIMENSION = re.compile(r"embedding dimension = ([0-9]{1,9})", re.ASCII)


@dataclass
class Results:
    """The matrices of a file by their names, with their lines, and the rows of one line that stand below a name."""

    dimension: int | None = None
    rows: dict = field(default_factory=dict)
    lines: dict = field(default_factory=dict)
    dehomogenization: list | None = None


def are_results(text):
    """Whether a text looks like what Normaliz writes."""
    return STARS.search(text) is not None and COUNTED.search(text) is not None


def row_at(line, text, number, length):
    try:
        row = row_of(text.split())
    except Fault as fault:
        raise Refusal(line, f"row {number}: {fault.text}") from None
    if length is not None and len(row) != length:
        raise Refusal(line, f"row {number}: {len(row)} entries, where the embedding dimension is {length}")
    return row


def results_of(text):
    """The matrices of a file."""
    found, lines = Results(), command.lines_of(text)
    for at, line in enumerate(lines):
        line, head = line.strip(), HEAD.fullmatch(line.strip())
        if dimension := DIMENSION.fullmatch(line):
            found.dimension = int(dimension[1])
        elif line == "dehomogenization:" and at + 1 < len(lines):
            found.dehomogenization = row_at(at + 2, lines[at + 1], 1, found.dimension)
        elif head and head[2] in MATRICES:
            put_matrix(found, head[2], at + 1, int(head[1]), lines)
    return found


def put_matrix(found, name, begin, count, lines):
    """Holds the rows below a line that counts them."""
    if name in found.rows:
        raise Refusal(begin, f"a second matrix of {name}")
    if begin + count > len(lines):
        raise Refusal(begin, f"{count} {name}, and the file ends before")
    rows = enumerate(lines[begin : begin + count], 1)
    found.rows[name] = [row_at(begin + number, it, number, found.dimension) for number, it in rows]
    found.lines[name] = begin


def last_first(row):
    return [row[-1], *row[:-1]]


def point(row, line):
    """A vertex, whose last entry is its denominator."""
    if row[-1] <= 0:
        raise Refusal(line, "the denominator of a vertex is not positive")
    return [1, *(it / row[-1] for it in row[:-1])]


def direction(row, line):
    if row[-1] != 0:
        raise Refusal(line, "a direction whose last entry is not 0")
    return [0, *row[:-1]]


def check_last(found):
    """The coordinate that is 1 of points is the last one."""
    row = found.dehomogenization
    if row is not None and (any(row[:-1]) or row[-1] != 1):
        raise Refusal(None, "the dehomogenization is not the last coordinate, which is not read here")


def columns_of(found):
    rows = [it for matrix in found.rows.values() for it in matrix]
    if found.dimension is None and not rows:
        raise Refusal(None, "nothing tells the embedding dimension")
    return found.dimension or len(rows[0])


def polyhedron_of(found):
    """A polyhedron by its vertices, or by its support hyperplanes."""
    check_last(found)
    thing, columns = Thing("Polytope"), columns_of(found)
    if VERTICES in found.rows and RECESSION in found.rows:
        if not found.rows[VERTICES]:
            raise Refusal(found.lines[VERTICES], "a polyhedron without a point")
        line = found.lines[VERTICES]
        points = [point(it, line) for it in found.rows[VERTICES]]
        far = [direction(it, found.lines[RECESSION]) for it in found.rows[RECESSION]]
        lines = [direction(it, found.lines[SUBSPACE]) for it in found.rows.get(SUBSPACE, [])]
        thing.put("POINTS", points + far, columns)
        thing.put("INPUT_LINEALITY", lines, columns)
        return thing
    thing.put("INEQUALITIES", [last_first(it) for it in found.rows[HOMOGENIZED]], columns)
    thing.put("EQUATIONS", [last_first(it) for it in found.rows.get(EQUATIONS, [])], columns)
    return thing


def cone_of(found):
    """A cone by its extreme rays, or by its support hyperplanes."""
    thing, columns = Thing("Cone"), columns_of(found)
    first, second, names = RAYS, SUBSPACE, ("POINTS", "INPUT_LINEALITY")
    if RAYS not in found.rows:
        first, second, names = HYPERPLANES, EQUATIONS, ("INEQUALITIES", "EQUATIONS")
    thing.put(names[0], found.rows[first], columns)
    thing.put(names[1], found.rows.get(second, []), columns)
    return thing


def read_results(text, notes):
    """The polyhedron or the cone that Normaliz tells of; the rest of the file is found anew."""
    found = results_of(text)
    is_polyhedron = VERTICES in found.rows and RECESSION in found.rows or HOMOGENIZED in found.rows
    if not is_polyhedron and RAYS not in found.rows and HYPERPLANES not in found.rows:
        raise Refusal(None, "neither extreme rays nor support hyperplanes are listed")
    thing = polyhedron_of(found) if is_polyhedron else cone_of(found)
    taken = "extreme rays" if thing.has("POINTS") else "support hyperplanes"
    notes.tell(1, f"results of Normaliz: its {taken} are taken, and the rest is found anew")
    return thing
