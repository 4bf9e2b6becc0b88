"""Whether evidence holds of values, by its definition, with exact numbers (docs/evidence.md). It uses nothing of the program."""

from fractions import Fraction
from math import gcd

import evidence_many as many
import evidence_programs as programs
import evidence_sites as sites
from evidence_rows import (
    are_adjacent,
    both_signs,
    dot,
    echelon,
    enlarging,
    entry,
    factors,
    in_range,
    is_canonical,
    is_extreme,
    is_wide_product,
    null_space,
    opposite,
    primitive,
    rank,
    reduced_once,
    stated_order,
    unit,
    whole,
)

# The two parts of a row list: lines and then points or rays, equations and then inequalities or facets.
PARTS = (
    ("INPUT_LINEALITY", "POINTS"),
    ("LINEALITY_SPACE", "VERTICES"),
    ("EQUATIONS", "INEQUALITIES"),
    ("AFFINE_HULL", "FACETS"),
)
# The rows of the second property tell which rows of the first lie in the lineality of their list.
TOLD = {"POINTS": "FACETS", "INEQUALITIES": "VERTICES"}
GENERATORS = ("POINTS", "INPUT_LINEALITY", "VERTICES", "LINEALITY_SPACE")
HALF_SPACES = ("INEQUALITIES", "EQUATIONS", "FACETS", "AFFINE_HULL")


# ---- what the values are
class Values:
    """The values of an object: rows by property, what it is, and how many columns its rows have."""

    def __init__(self, of, cols, values):
        self.of, self.cols, self.values = of, cols, values

    def rows(self, name):
        """The primitive whole rows of the value of the property; none where it has no value."""
        value = self.values.get(name)
        return None if value is None else [whole(row) for row in value if not isinstance(row, dict)]

    def fractions(self, name):
        """The one row of the value of the property, as fractions; none where it has no value."""
        value = self.values.get(name)
        return None if value is None else tuple(Fraction(x) for x in value)

    def parts(self):
        """Each two parts of a row list that the values have: their names, the lines and the other rows, with what is added."""
        for first, second in PARTS:
            lines, others = self.rows(first), self.rows(second)
            if lines is not None and others is not None:
                yield first, second, lines, others + self.added(second)

    def added(self, name):
        """The INEQUALITIES of a polytope have x0 >= 0 added to them."""
        return [unit(self.cols, 0)] if self.of == "Polytope" and name == "INEQUALITIES" else []

    def sets(self, second):
        """The sets of places of rows of the property that lie together, if VERTICES_IN_FACETS tells them."""
        value = self.values.get("VERTICES_IN_FACETS")
        if value is None:
            return None
        sets = [s for s in value if not isinstance(s, dict)]
        if second == "VERTICES":
            return sets
        if second == "FACETS":
            count = max((k + 1 for s in sets for k in s), default=0)
            count = next((s["cols"] for s in value if isinstance(s, dict)), count)
            return [[i for i, s in enumerate(sets) if k in s] for k in range(count)]
        return None


# ---- lists that are eliminated
def flat_rows(lines, others, told):
    """The lines, and those of the others on which each row that tells vanishes."""
    return lines + [g for g in others if all(dot(a, g) == 0 for a in told)]


def determining(values):
    """For each set of rows of one description: the rows that determine the row of the other, and the rows themselves."""
    for first, second in PARTS:
        equations, inequalities, sets = values.rows(first), values.rows(second), values.sets(second)
        if equations is None or inequalities is None or sets is None:
            continue
        _, pivots = null_space(equations + inequalities, values.cols)
        for s in sets:
            at = [inequalities[k] for k in s if k < len(inequalities)]
            yield second, inequalities, equations + at + [unit(values.cols, p) for p in pivots]


def in_cone(generators, lines, row):
    """Whether the row is a non-negative combination of the generators plus one of the lines (phase one, Bland's rule)."""
    columns = list(generators) + list(lines) + [opposite(x) for x in lines]
    rows = []
    for i, x in enumerate(row):
        sign = -1 if x < 0 else 1
        rows.append([Fraction(sign * c[i]) for c in columns] + [Fraction(int(k == i)) for k in range(len(row))] + [Fraction(sign * x)])
    n = len(columns)
    basis = list(range(n, n + len(row)))
    while True:
        cost = [sum(r[j] for r, b in zip(rows, basis) if b >= n) for j in range(n)]
        enter = next((j for j in range(n) if cost[j] > 0 and j not in basis), None)
        if enter is None:
            return all(r[-1] == 0 for r, b in zip(rows, basis) if b >= n)
        ratios = [(r[-1] / r[enter], basis[k], k) for k, r in enumerate(rows) if r[enter] > 0]
        leave = min(ratios)[2]
        pivot = rows[leave][enter]
        rows[leave] = [x / pivot for x in rows[leave]]
        for k, r in enumerate(rows):
            if k != leave and r[enter]:
                factor = r[enter]
                rows[k] = [x - factor * y for x, y in zip(r, rows[leave])]
        basis[leave] = enter


def line_rows(lines, others):
    """The lines, and those rows whose opposite is in the cone of all."""
    return lines + [g for g in others if in_cone(others, lines, opposite(g))]


def lists_of_parts(values):
    """The lists of two parts of a row list, and of the rows that span their lineality."""
    for _, second, lines, others in values.parts():
        yield lines + others
        yield lines
        groups = [line_rows(lines, others)]
        told = values.rows(TOLD[second]) if second in TOLD else None
        if told is not None:
            groups.append(flat_rows(lines, others, told))
        for group in groups:
            yield group
            basis = echelon(group)[0]
            for row in others:
                yield basis + [row]


def cone_lists(values):
    """The rows that span each maximal cone of a fan."""
    lines, rays, cones = values.rows("LINEALITY_SPACE"), values.rows("VERTICES"), values.values.get("MAXIMAL_CONES")
    if lines is not None and rays is not None and cones is not None:
        for cone in cones:
            if not isinstance(cone, dict) and all(k < len(rays) for k in cone):
                yield lines + [rays[k] for k in cone]


def lists(values):
    """Each list of rows that a client may eliminate, and the columns of its rows."""
    for rows in lists_of_parts(values):
        yield rows, values.cols
    for double, cols in double_lists(values):
        yield double, cols
        yield [x for x, m in zip(double, enlarging(double)) if m], cols
    for _, _, rows in determining(values):
        yield rows, values.cols
    for rows in cone_lists(values):
        yield rows, values.cols


# ---- E1
def named_list(kind, rows, cols):
    """The list that the evidence names, of these rows, and its columns; none where there is no such list."""
    if kind == "rows":
        return rows, cols
    if kind == "extended":
        basis = echelon(rows)[0]
        return [tuple(b[i] for b in basis) + unit(cols, i) for i in range(cols)], len(basis) + cols
    (word, place), = kind.items()
    if place >= len(rows):
        return None
    rest = rows[:place] + rows[place + 1:]
    return (rest, cols) if word == "without" else named_list("extended", rest, cols)


def is_wide_entry(p, x, q, y):
    return not (in_range(p * x) and in_range(q * y) and in_range(p * x - q * y))


def is_wide_step(part, by, pivot, column):
    """The step of the row by the other, in the pivot column, leaves the range in the column."""
    if entry(part, pivot) == 0:
        return False
    p, q = factors(part, by, pivot)
    return is_wide_entry(p, entry(part, column), q, entry(by, column))


def holds_in_list(rows, shown):
    front, by, part, column = shown["front"], shown["by"], shown["part"], shown["column"]
    if front >= len(rows):
        return False
    basis, pivots = echelon(rows[:front])
    if basis != shown["basis"]:
        return False
    if by < len(basis):
        row = tuple(rows[front])
        for other, pivot in zip(basis[:by], pivots[:by]):
            row = reduced_once(row, other, pivot)
        return row == part and is_wide_step(part, basis[by], pivots[by], column)
    row = tuple(rows[front])
    for other, pivot in zip(basis, pivots):
        row = reduced_once(row, other, pivot)
    if by != len(basis) or part not in basis or not any(row):
        return False
    new = next(i for i, x in enumerate(row) if x)
    row = primitive(row if row[new] > 0 else opposite(row))
    return is_wide_step(part, row, new, column)


def holds_e1(values, shown):
    for rows, cols in lists(values):
        named = named_list(shown["list"], rows, cols)
        if named is not None and holds_in_list(named[0], shown):
            return True
    return False


# ---- E2 and E5 of rays
def double_lists(values):
    """Each double list, and the columns of its rows."""
    for _, _, lines, others in values.parts():
        yield both_signs(echelon(lines)[0]) + others, values.cols
    for rows in sites.lifted_lists(values):
        yield rows, len(rows[-1])


def is_front(ordered, front):
    return rank(ordered) <= front <= len(ordered)


def is_wide_pair(ordered, cols, shown):
    front, r, s, column = shown["front"], shown["first"], shown["second"], shown["column"]
    if not is_front(ordered, front) or front >= len(ordered):
        return False
    cut, a = ordered[:front], ordered[front]
    if not (is_canonical(cut, r, cols) and is_canonical(cut, s, cols)):
        return False
    if column is None:
        return is_wide_product(a, r) or is_wide_product(a, s)
    up, down = dot(a, r), dot(a, s)
    if not (up > 0 > down and column < len(r) and are_adjacent(cut, r, s)):
        return False
    divisor = gcd(up, -down)
    return is_wide_entry(up // divisor, s[column], down // divisor, r[column])


def holds_e2(values, shown):
    return any(is_wide_pair(stated_order(double), cols, shown) for double, cols in double_lists(values))


def holds_rays(values, shown):
    front, rays = shown["front"], shown["rays"]
    if len(rays) <= many.MOST_ROWS:
        return False
    for double, cols in double_lists(values):
        ordered = stated_order(double)
        if is_front(ordered, front) and are_many_rays(ordered[:front], rays, cols):
            return True
    return False


def are_many_rays(cut, rays, cols):
    """All are extreme rays of the cone that the rows cut out, and no two of them alike up to a positive factor and the lineality."""
    if not all(is_extreme(cut, r, cols) for r in rays):
        return False
    return len(set(many.reduced(rays, *null_space(cut, cols)))) == len(rays)


# ---- E4
def holds_product(values, first, second):
    """The rows are a generator's and a half-space's that were read, or one that a set determines and one that was read."""
    listed = lambda names, row: any(row in (values.rows(name) or []) for name in names)
    if listed(GENERATORS, first) and listed(HALF_SPACES, second):
        return True
    for name, inequalities, rows in determining(values):
        found, cut = (first, second) if name == "FACETS" else (second, first)
        if cut in inequalities and null_space(rows, values.cols)[0] in ([found], [opposite(found)]):
            return True
    return sites.holds_product(values, first, second)


def holds_e4(values, shown):
    """Two rows whose product leaves the range; or what an objective, an optimum or a dual has there."""
    first, second = shown["first"], shown["second"]
    if is_wide_product(first, second) and holds_product(values, first, second):
        return True
    return programs.holds_e4(values, first, second)


# ---- lines
def rows_of(value):
    return [tuple(int(x) for x in row) for row in value]


def holds(values, kind, shown):
    """Whether the evidence of this kind, as its line has it, holds of the values."""
    if kind == "E1":
        step = dict(shown, basis=rows_of(shown["basis"]), part=tuple(int(x) for x in shown["part"]))
        return holds_e1(values, step)
    if kind == "E2":
        pair = dict(shown, first=tuple(int(x) for x in shown["first"]), second=tuple(int(x) for x in shown["second"]))
        return holds_e2(values, pair)
    if kind == "E3":
        return programs.holds_e3(values, shown)
    if kind == "E4":
        return holds_e4(values, {name: tuple(int(x) for x in shown[name]) for name in ("first", "second")})
    if kind == "E5" and "rays" in shown:
        return holds_rays(values, dict(shown, rays=rows_of(shown["rays"])))
    if kind == "E5" and "faces" in shown:
        return many.holds_faces(values, [tuple(face) for face in shown["faces"]])
    if kind == "E5" and "places" in shown:
        return many.holds_facets(values, shown["places"])
    if kind == "E5" and "cells" in shown:
        return many.holds_cells(values, shown["front"], shown["cells"])
    raise ValueError(f"{kind} without its keys")
