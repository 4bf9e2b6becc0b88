"""Whether the facets of a file of polymake are all there are here: of an unbounded polyhedron that
starts from INEQUALITIES, polymake's FACETS leave the far face x0 >= 0 out, and so does all that it
finds of them. Here the far face is a facet wherever it is one of the cone over the polyhedron.
"""

from fractions import Fraction

# The descriptions by both their halves: the first is taken where the facets of a file are in doubt.
DESCRIPTIONS = (
    ("POINTS", "INPUT_LINEALITY"),
    ("INEQUALITIES", "EQUATIONS"),
    ("VERTICES", "LINEALITY_SPACE"),
    ("FACETS", "AFFINE_HULL"),
)

OF_FACETS = {
    "FACETS",
    "N_FACETS",
    "VERTICES_IN_FACETS",
    "VERTEX_SIZES",
    "FACET_SIZES",
    "SIMPLE",
    "SIMPLICIAL",
    "F_VECTOR",
    "F2_VECTOR",
    "H_VECTOR",
    "COMBINATORIAL_DIM",
    "CENTERED",
}

IN_DOUBT = "the polyhedron may be unbounded, and then polymake may have left the far face out"


def reduced(row, basis):
    """The row modulo a basis: 0 in its pivot columns, one after the other."""
    for it, at in basis:
        if row[at]:
            row = [x - row[at] / it[at] * y for x, y in zip(row, it)]
    return row


def basis_of(rows, most=None):
    """A basis of the rows' span with pivot columns; no more than so many rows are looked for."""
    basis, most = [], most or len(rows and rows[0])
    for row in rows:
        if len(basis) == most:
            break
        row = reduced(row, basis)
        pivot = next((at for at, it in enumerate(row) if it), None)
        if pivot is not None:
            basis.append((row, pivot))
    return basis


def rank(rows, most=None):
    """How many of the rows are independent, up to so many."""
    return len(basis_of(rows, most))


def are_finite(rows):
    return bool(rows) and all(it[0] > 0 for it in rows)


def by_vertices(thing):
    """Whether the vertices show that it is bounded, or that the far face is no facet."""
    vertices, lines = thing.rows("VERTICES"), thing.rows("LINEALITY_SPACE")
    is_whole = thing.has("LINEALITY_SPACE") or not thing.has("INEQUALITIES")
    if not vertices or not is_whole:
        return False
    if are_finite(vertices) and not lines:
        return True
    far = [it for it in vertices if it[0] == 0]
    return rank(far + lines) < rank(vertices + lines) - 1


def by_points(thing):
    return are_finite(thing.rows("POINTS")) and not thing.rows("INPUT_LINEALITY")


def has_far_row(thing):
    """Whether the far face is among the facets, whose rows stand modulo the affine hull."""
    rows, basis = thing.rows("FACETS"), basis_of(thing.rows("AFFINE_HULL"))
    far = reduced([1, *[0] * (len(rows[0]) - 1)], basis) if rows else []
    return any(far) and any(is_multiple(reduced(it, basis), far) for it in rows)


def is_multiple(row, other):
    """Whether a row is a positive multiple of another one, which is not 0."""
    at = next(at for at, it in enumerate(other) if it)
    factor = Fraction(row[at]) / other[at]
    return factor > 0 and row == [factor * it for it in other]


def is_of_dimension_1(thing):
    """Whether a cone has the dimension 1, as is said or by its generators; None: it is not told."""
    if thing.has("CONE_DIM"):
        return thing.values["CONE_DIM"] == 1
    pair = next((it for it in DESCRIPTIONS[::2] if thing.has(it[0])), None)
    return pair and rank(thing.rows(pair[0]) + thing.rows(pair[1]), 2) == 1


def description_of(thing):
    """The first description that is held, by a half at least, or None."""
    for pair in DESCRIPTIONS:
        is_half_enough = pair[0] in ("POINTS", "INEQUALITIES")
        if thing.has(pair[0]) or is_half_enough and thing.has(pair[1]):
            return pair
    return None


def are_whole(thing):
    """Whether the facets of a file, and what was found of them, are known to be all there are."""
    if thing.type_name != "Polytope" or description_of(thing) is None:
        return True
    if thing.values.get("BOUNDED") is True:
        return True
    return by_vertices(thing) or by_points(thing) or has_far_row(thing)


def may_lack(thing):
    """Whether it holds a description, or something of the facets."""
    return description_of(thing) is not None or bool(OF_FACETS & set(thing.values))


def keep_description(thing):
    """Keeps one description alone, facets as inequalities; what was left out, and the pair."""
    pair = description_of(thing)
    kept = {*(pair or ()), "CONE_AMBIENT_DIM"}
    left = [it for it in thing.values if it not in kept]
    for name in left:
        del thing.values[name]
    if pair == ("FACETS", "AFFINE_HULL"):
        for name, meant in zip(pair, ("INEQUALITIES", "EQUATIONS")):
            thing.values[meant] = thing.values.pop(name, [])
    elif pair == ("INEQUALITIES", "EQUATIONS"):
        thing.values.setdefault("INEQUALITIES", [])
    return left, pair
