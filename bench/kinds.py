"""Examples of polytopes and cones for the check of the bridges, by what is given of each."""

import random
from dataclasses import dataclass
from fractions import Fraction
from itertools import permutations

import families
from properties import Thing


@dataclass(frozen=True)
class Example:
    """A thing by one description, and whether it is the empty polytope."""

    name: str
    thing: Thing
    is_empty: bool = False

    def is_trivial(self):
        """Whether it has no point, or is given by no row at all."""
        return self.is_empty or not any(self.thing.values.values())


def thing_of(type_name, columns, **matrices):
    """A thing by matrices of whole numbers and texts of fractions."""
    thing = Thing(type_name)
    for name, rows in matrices.items():
        thing.put(name, [[Fraction(it) for it in row] for row in rows], columns)
    return thing


def polytope(name, columns, is_empty=False, **matrices):
    return Example(name, thing_of("Polytope", columns, **matrices), is_empty)


def cone(name, columns, **matrices):
    return Example(name, thing_of("Cone", columns, **matrices))


def with_one(points):
    return [[1, *it] for it in points]


def cross_points(d):
    return [families.unit(d, it, sign) for it in range(d) for sign in (1, -1)]


def hidden_points():
    """A square with points in its edges and in its middle, in a shuffled order."""
    points = [[x, y] for x in (0, 1, 2) for y in (0, 1, 2)]
    random.Random(5).shuffle(points)
    return with_one(points)


def bounded():
    """Polytopes that are bounded and not empty."""
    yield polytope("cube 3", 4, INEQUALITIES=families.cube_rows(3))
    yield polytope("cube 4", 5, INEQUALITIES=families.cube_rows(4), EQUATIONS=[])
    yield polytope("cross polytope 3", 4, POINTS=with_one(cross_points(3)))
    yield polytope("cross polytope 4", 5, POINTS=with_one(cross_points(4)), INPUT_LINEALITY=[])
    yield polytope("simplex 4", 5, POINTS=with_one(families.simplex_points(4)))
    yield polytope("simplex 3 by rows", 4, INEQUALITIES=families.simplex_rows(3))
    halves = [[1, "1/2", "-7/3"], [1, "5/4", 0], [1, "-11/6", "22/7"], [1, 0, "1/100000000000"]]
    yield polytope("fractions", 3, POINTS=halves)
    sums = [[-1, 1, 1, 1], [3, -1, -1, -1]]
    yield polytope(
        "equation", 4, INEQUALITIES=families.cube_rows(3) + sums, EQUATIONS=[[0, 1, -1, 0]]
    )
    yield polytope("permutohedron", 4, POINTS=with_one(permutations((1, 2, 3))))
    yield polytope("point", 4, POINTS=[[1, 2, -3, "1/2"]])
    yield polytope("point by equations", 3, INEQUALITIES=[], EQUATIONS=[[-1, 1, 0], ["-2/3", 0, 1]])
    yield polytope("redundant points", 3, POINTS=hidden_points())
    rows = families.cube_rows(2) + [[2, 1, 0], [2, -1, -1], [5, 1, 1]]
    yield polytope("redundant rows", 3, INEQUALITIES=rows)


def unbounded():
    """Polyhedra with directions or lines, and the empty polytope."""
    yield polytope("quadrant", 3, INEQUALITIES=[[0, 1, 0], [0, 0, 1]])
    yield polytope("ray", 4, POINTS=[[1, 0, 1, 0], [0, 1, 1, 0]])
    yield polytope(
        "points and directions", 4, POINTS=[[1, 0, 0, 0], [1, 1, 0, 2], [1, 0, 3, 0], [0, 1, 1, 1]]
    )
    yield polytope("strip", 3, INEQUALITIES=[[1, 0, 1], [1, 0, -1]])
    yield polytope(
        "wedge with a line",
        4,
        POINTS=[[1, 1, 1, 0], [0, 1, 0, 0], [0, 0, 1, 0]],
        INPUT_LINEALITY=[[0, 1, 1, 1]],
    )
    yield polytope("line", 3, POINTS=[[1, 0, 1]], INPUT_LINEALITY=[[0, 2, 1]])
    yield polytope("plane", 3, INEQUALITIES=[], EQUATIONS=[])
    yield polytope("nothing by rows", 3, is_empty=True, INEQUALITIES=[[-1, 1, 0], [-1, -1, 0]])
    yield polytope("nothing by points", 3, is_empty=True, POINTS=[], INPUT_LINEALITY=[])


def cones():
    yield cone("orthant", 3, INEQUALITIES=[[1, 0, 0], [0, 1, 0], [0, 0, 1]])
    square = [[1, 1, 1], [1, -1, 1], [-1, 1, 1], [-1, -1, 1], [0, 0, 1]]
    yield cone("cone over a square", 3, POINTS=square)
    yield cone("cone with a line", 3, POINTS=[[1, 0, 0], [0, 1, 2]], INPUT_LINEALITY=[[0, 1, 1]])
    yield cone("cone in a plane", 3, INEQUALITIES=[[1, 0, 0], [0, 1, 0]], EQUATIONS=[[1, 1, -1]])
    yield cone("half-space", 3, INEQUALITIES=[[1, 2, "3/2"]])
    yield cone("no ray", 2, POINTS=[], INPUT_LINEALITY=[])
    yield cone("whole space", 2, INEQUALITIES=[], EQUATIONS=[])


def examples():
    return [*bounded(), *unbounded(), *cones()]
