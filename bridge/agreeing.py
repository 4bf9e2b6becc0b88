"""Whether the values of a data file agree with each other: each description alone, and what it says of the others."""

from canonical import canonical
from properties import PAIRS, Kind, by_name
from replies import read_replies
from values import compact, written

# What each description is taken as: it may have rows that are redundant.
AS = {"POINTS": "POINTS", "INEQUALITIES": "INEQUALITIES", "VERTICES": "POINTS", "FACETS": "INEQUALITIES"}

# Lists whose order is that of the vertices or facets: they are compared without it.
WITHOUT_ORDER = ("VERTEX_SIZES", "FACET_SIZES", "VERTEX_DEGREES")
IN_ORDER = (Kind.SETS, Kind.EDGES, Kind.LATTICE, Kind.ROW)


class Found:
    """What one description of a file says, taken alone."""

    def __init__(self, session, thing, name):
        self.name, self.thing, self.session = name, thing, session
        self.object = f"d{name}"[:32]
        first = AS[name]
        known = {item.polytope: word for word, item in by_name(thing.type_name).items()}
        self.known = known
        session.ask(f"new {self.object} {thing.type_name}")
        session.ask(f"take {self.object} {known['CONE_AMBIENT_DIM']} {thing.columns}")
        for one, rows in ((first, thing.rows(name)), (PAIRS[first], thing.rows(PAIRS[name]))):
            session.ask(f"take {self.object} {known[one]} {compact(written(Kind.MATRIX, rows))}")

    def value(self, polytope):
        """The value of a property by its first name, or None where it is not found."""
        lines = self.session.ask(f"give {self.object} {self.known[polytope]}")
        if lines[0].startswith("no "):
            return None
        return read_replies(lines[0], self.thing.type_name).values[polytope]

    def geometry(self):
        """The vertices as primitive rows modulo the lines, with the lines; or None."""
        rows, lines = self.value("VERTICES"), self.value("LINEALITY_SPACE")
        return None if rows is None or lines is None else canonical(rows, lines)

    def facets(self):
        rows, equations = self.value("FACETS"), self.value("AFFINE_HULL")
        return None if rows is None or equations is None else canonical(rows, equations)


def whole_descriptions(thing):
    """The descriptions that are held; a second half that is left out has no rows.

    A fan has one description alone.
    """
    return [] if thing.type_name == "Fan" else [it for it in PAIRS if thing.has(it)]


def row_text(row):
    return f"({', '.join(map(str, row))})"


def between(one, other):
    """What contradicts between two descriptions, or None."""
    ours, theirs = one.geometry(), other.geometry()
    if ours is None or theirs is None or ours == theirs:
        return None
    told = f"{one.known[one.name]} and {one.known[other.name]} are of two {one.thing.type_name.lower()}s"
    if ours[1] != theirs[1]:
        return f"{told}: their lines are others"
    row = min(ours[0] ^ theirs[0])
    has, lacks = (one, other) if row in ours[0] else (other, one)
    return f"{told}: {row_text(row)} is a vertex or ray by {one.known[has.name]}, and not by {one.known[lacks.name]}"


def extra_rows(found):
    """What is wrong with VERTICES or FACETS that have other rows than vertices or facets, each once, or None."""
    is_facets = found.name == "FACETS"
    wanted = found.facets() if is_facets else found.geometry()
    if wanted is None:
        return None
    thing, word = found.thing, found.known[found.name]
    what = "facet" if is_facets else "vertex or extreme ray"
    seen = set()
    for number, row in enumerate(thing.rows(found.name), 1):
        (one,) = canonical([row], thing.rows(PAIRS[found.name]))[0]
        if one not in wanted[0] or one in seen:
            return f"row {number} of {word}, {row_text(row)}, is no {what}" + (" once more" if one in seen else "")
        seen.add(one)
    left = wanted[0] - seen
    return f"{word} lacks {row_text(min(left))}, which is a {what}" if left else None


def values_beside(found):
    """The other values that can be compared: of each its first name, and the value of the file."""
    described = (*PAIRS, *PAIRS.values(), "CONE_AMBIENT_DIM")
    for item in by_name(found.thing.type_name).values():
        if item.polytope in found.thing.values and item.polytope not in described:
            yield item, found.thing.values[item.polytope]


def is_compared(item):
    return item.kind not in IN_ORDER and item.polytope not in ("FAR_FACE", "SITES")


def other_value(found, item, value):
    """What contradicts between a value and a description, or None."""
    ours = found.value(item.polytope)
    if ours is None:
        return None
    same = sorted(ours) == sorted(value) if item.polytope in WITHOUT_ORDER else ours == value
    if same:
        return None
    shown = [compact(written(item.kind, it)) for it in (value, ours)]
    return f"{found.known[item.polytope]} is {shown[0]}, and by {found.known[found.name]} it is {shown[1]}"


def faults(session, thing):
    """What contradicts in a file, a line each, and then the names that were compared and those that were not."""
    found = [Found(session, thing, it) for it in whole_descriptions(thing)]
    lines = [fault for it in found[1:] if (fault := between(found[0], it))]
    lines += [fault for it in found if it.name in ("VERTICES", "FACETS") and (fault := extra_rows(it))]
    compared, left = [it.known[it.name] for it in found], []
    for item, value in values_beside(found[0]) if found else ():
        (compared if is_compared(item) else left).append(found[0].known[item.polytope])
        if is_compared(item) and (fault := other_value(found[0], item, value)):
            lines.append(fault)
    return lines, compared, left
