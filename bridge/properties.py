"""The properties that `take` and `give` accept, by type, in the order of docs/properties.md."""

from dataclasses import dataclass, field
from enum import Enum


class Kind(Enum):
    """What the value of a property is."""

    MATRIX = "matrix"
    SETS = "sets"
    COUNTS = "list of numbers"
    WHOLE = "whole number"
    TRUTH = "truth value"
    EDGES = "edges"
    LATTICE = "lattice"
    ROW = "row"
    EXTENDED = "extended number"


@dataclass(frozen=True)
class Property:
    """A property: its first name, and its name for each type that has it.

    Of some properties polymake's files hold no value in this form.
    """

    polytope: str
    names: dict
    kind: Kind
    is_of_polymake: bool = True

    def name(self, type_name):
        return self.names.get(type_name)


def named(polytope, kind, cone=None, fan=None, **more):
    """A property of polytopes, and of cones and fans where they have a name for it."""
    names = {"Polytope": polytope, "Cone": cone, "Fan": fan}
    return Property(polytope, {k: it for k, it in names.items() if it}, kind, **more)


def same(name, kind):
    """A property of polytopes and cones, of one name."""
    return named(name, kind, cone=name)


def everywhere(name, kind):
    """A property of polytopes, cones and fans, of one name."""
    return named(name, kind, cone=name, fan=name)


def here(name, kind):
    """A property of one name, whose values polymake's files do not hold in this form."""
    return named(name, kind, cone=name, is_of_polymake=False)


def of_fans(name, kind, **more):
    return Property(name, {"Fan": name}, kind, **more)


PROPERTIES = (
    named("CONE_AMBIENT_DIM", Kind.WHOLE, cone="CONE_AMBIENT_DIM", fan="FAN_AMBIENT_DIM"),
    named("POINTS", Kind.MATRIX, cone="INPUT_RAYS"),
    same("INPUT_LINEALITY", Kind.MATRIX),
    same("INEQUALITIES", Kind.MATRIX),
    same("EQUATIONS", Kind.MATRIX),
    named("VERTICES", Kind.MATRIX, cone="RAYS", fan="RAYS"),
    everywhere("LINEALITY_SPACE", Kind.MATRIX),
    same("FACETS", Kind.MATRIX),
    named("AFFINE_HULL", Kind.MATRIX, cone="LINEAR_SPAN"),
    named("VERTICES_IN_FACETS", Kind.SETS, cone="RAYS_IN_FACETS"),
    same("CONE_DIM", Kind.WHOLE),
    everywhere("LINEALITY_DIM", Kind.WHOLE),
    same("COMBINATORIAL_DIM", Kind.WHOLE),
    named("N_VERTICES", Kind.WHOLE, cone="N_RAYS", fan="N_RAYS"),
    same("N_FACETS", Kind.WHOLE),
    named("FEASIBLE", Kind.TRUTH),
    named("BOUNDED", Kind.TRUTH),
    everywhere("POINTED", Kind.TRUTH),
    same("FULL_DIM", Kind.TRUTH),
    named("CENTERED", Kind.TRUTH),
    same("SIMPLE", Kind.TRUTH),
    everywhere("SIMPLICIAL", Kind.TRUTH),
    named("VERTEX_SIZES", Kind.COUNTS, cone="RAY_SIZES"),
    same("FACET_SIZES", Kind.COUNTS),
    here("HASSE_DIAGRAM", Kind.LATTICE),
    same("F_VECTOR", Kind.COUNTS),
    same("F2_VECTOR", Kind.MATRIX),
    named("H_VECTOR", Kind.COUNTS),
    here("GRAPH", Kind.EDGES),
    here("DUAL_GRAPH", Kind.EDGES),
    here("DIAMETER", Kind.WHOLE),
    here("DUAL_DIAMETER", Kind.WHOLE),
    here("N_EDGES", Kind.WHOLE),
    here("N_RIDGES", Kind.WHOLE),
    named("VERTEX_DEGREES", Kind.COUNTS, cone="RAY_DEGREES", is_of_polymake=False),
    named("FAR_FACE", Kind.COUNTS),
    of_fans("MAXIMAL_CONES", Kind.SETS),
    of_fans("N_MAXIMAL_CONES", Kind.WHOLE),
    of_fans("MAXIMAL_CONES_DIMS", Kind.COUNTS, is_of_polymake=False),
    of_fans("FAN_DIM", Kind.WHOLE),
    of_fans("PURE", Kind.TRUTH),
    here("PLACING_TRIANGULATION", Kind.SETS),
    named("SITES", Kind.MATRIX, is_of_polymake=False),
    named("SITE_HEIGHTS", Kind.ROW, is_of_polymake=False),
    named("REGULAR_CELLS", Kind.SETS, is_of_polymake=False),
    named("DELAUNAY_CELLS", Kind.SETS, is_of_polymake=False),
)

# The properties of a linear program: their kinds, and whether polymake's files hold them.
PROGRAM_PROPERTIES = {
    "LINEAR_OBJECTIVE": (Kind.ROW, True),
    "MAXIMAL_VALUE": (Kind.EXTENDED, True),
    "MINIMAL_VALUE": (Kind.EXTENDED, True),
    "MAXIMAL_FACE": (Kind.COUNTS, True),
    "MINIMAL_FACE": (Kind.COUNTS, True),
    "MAXIMAL_DUAL": (Kind.MATRIX, False),
    "MINIMAL_DUAL": (Kind.MATRIX, False),
}

# How many programs a polytope may have.
MOST_PROGRAMS = 4

# The types by their names here, with those of polymake's files.
TYPES = {
    "Polytope": "polytope::Polytope<Rational>",
    "Cone": "polytope::Cone<Rational>",
    "Fan": "fan::PolyhedralFan<Rational>",
}

# Each matrix that describes a thing, with the one that completes it; the first names of both.
PAIRS = {
    "POINTS": "INPUT_LINEALITY",
    "INEQUALITIES": "EQUATIONS",
    "VERTICES": "LINEALITY_SPACE",
    "FACETS": "AFFINE_HULL",
}


def by_name(type_name):
    """The properties of a type by their names there."""
    return {it.name(type_name): it for it in PROPERTIES if it.name(type_name)}


@dataclass
class Program:
    """A linear program of a polytope: its name, and the values of its properties by their names."""

    name: str
    values: dict = field(default_factory=dict)


@dataclass
class Thing:
    """A polytope, a cone or a fan by values: of each first name of a property its value.

    A matrix is a list of rows of fractions, sets are a pair of their rows and the column count, edges
    are for each node the list of its neighbours, a lattice is for each rank the list of its faces.
    """

    type_name: str
    values: dict = field(default_factory=dict)
    columns: int | None = None
    programs: list = field(default_factory=list)

    def has(self, *names):
        return all(it in self.values for it in names)

    def rows(self, name):
        return self.values.get(name) or []

    def put(self, name, rows, columns):
        """Holds a matrix of so many columns."""
        self.values[name] = rows
        self.columns = columns

    def is_said_empty(self):
        """Whether a value says that the polytope has no point."""
        if self.type_name != "Polytope":
            return False
        held = self.values.get
        none = any(held(it) == 0 for it in ("CONE_DIM", "N_VERTICES", "N_FACETS"))
        no_rows = held("VERTICES") == [] or held("FACETS") == []
        return none or no_rows or held("FEASIBLE") is False or held("COMBINATORIAL_DIM") == -1
