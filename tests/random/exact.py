"""Exact rows of whole numbers, and cones by brute force: facets by all sets of generators that span a hyperplane."""
from itertools import combinations
from math import gcd


def primitive(row):
    """The positive multiple of the row whose entries have no common divisor."""
    divisor = gcd(*row)
    return tuple(x // divisor for x in row) if divisor else tuple(row)


def dot(a, b):
    return sum(x * y for x, y in zip(a, b))


def cleared(row, by, column):
    """A positive multiple of the row less a multiple of the other, with 0 in the column."""
    if row[column] == 0:
        return row
    sign = 1 if by[column] > 0 else -1
    return primitive([sign * (by[column] * x - row[column] * y) for x, y in zip(row, by)])


def echelon(rows):
    """The reduced echelon basis of the span of rows: primitive rows with positive pivots; and the pivot columns."""
    basis = []
    for row in rows:
        row = primitive(row)
        for other, column in basis:
            row = cleared(row, other, column)
        if any(row):
            column = next(i for i, x in enumerate(row) if x)
            if row[column] < 0:
                row = tuple(-x for x in row)
            basis = [(cleared(other, row, column), place) for other, place in basis]
            basis.append((row, column))
    basis.sort(key=lambda entry: entry[1])
    return [row for row, _ in basis], [column for _, column in basis]


def rank(rows):
    return len(echelon(rows)[0])


def reduced(row, basis, pivots):
    """The primitive row of the same direction modulo the basis with zeros at its pivots."""
    for other, column in zip(basis, pivots):
        row = cleared(row, other, column)
    return primitive(row)


def null_space(rows, cols):
    """The reduced echelon basis of the rows on which all of these vanish."""
    basis, pivots = echelon(rows)
    found = []
    for free in range(cols):
        if free in pivots:
            continue
        scale = 1
        for row, column in zip(basis, pivots):
            scale = scale * row[column] // gcd(scale, row[column])
        vector = [0] * cols
        vector[free] = scale
        for row, column in zip(basis, pivots):
            vector[column] = -row[free] * scale // row[column]
        found.append(primitive(vector))
    return echelon(found)[0]


def facet_rows(generators, lines, cols):
    """The facet rows of the cone of generators and lines, ascending, and the rows that vanish on it, both in canonical form."""
    rows = [row for row in generators if any(row)]
    hull = null_space(rows + lines, cols)
    pivots = [next(i for i, x in enumerate(row) if x) for row in hull]
    size = cols - len(hull) - 1 - rank(lines)
    found = {}
    for chosen in combinations(rows, size) if size >= 0 else []:
        normals = null_space(list(chosen) + lines + hull, cols)
        if len(normals) != 1:
            continue
        products = [dot(normals[0], row) for row in rows]
        sign = 1 if any(x > 0 for x in products) else -1
        if all(sign * x >= 0 for x in products) and any(products):
            tight = tuple(x == 0 for x in products)
            found[tight] = reduced(tuple(sign * x for x in normals[0]), hull, pivots)
    return sorted(found.values()), hull


def extreme_rays(generators, lines, facets):
    """The extreme rays of the cone, ascending, and its lineality, both in canonical form: the rays are the rows with most facets."""
    tight = {row: frozenset(i for i, facet in enumerate(facets) if dot(facet, row) == 0) for row in map(primitive, generators) if any(row)}
    lineality, pivots = echelon(lines + [row for row, on in tight.items() if len(on) == len(facets)])
    outside = {row: on for row, on in tight.items() if len(on) < len(facets)}
    rays = {reduced(row, lineality, pivots) for row, on in outside.items() if not any(on < other for other in outside.values())}
    return sorted(rays), lineality


class Thing:
    """A cone, or the cone over a polytope: rays, lineality, facets, and the rows that vanish."""

    def __init__(self, cols, rays, lineality, facets, hull):
        self.cols, self.rays, self.lineality, self.facets, self.hull = cols, rays, lineality, facets, hull

    @staticmethod
    def generated(cols, generators, lines):
        facets, hull = facet_rows(generators, lines, cols)
        rays, lineality = extreme_rays(generators, lines, facets)
        return Thing(cols, rays, lineality, facets, hull)

    @staticmethod
    def cut_out(cols, inequalities, equations, is_polytope):
        """What inequalities and equations cut out, as the dual of what they generate."""
        first = (1,) + (0,) * (cols - 1)
        rows = inequalities + [first] if is_polytope else inequalities
        rays, lineality = facet_rows(rows, equations, cols)
        if is_polytope and not any(ray[0] > 0 for ray in rays):
            rays, lineality = [], []
        return Thing.generated(cols, rays, lineality)

    def sets(self):
        return [[i for i, ray in enumerate(self.rays) if dot(facet, ray) == 0] for facet in self.facets]


def meets(sets, count):
    """All intersections of the sets, that of none being all places, by the greatest number of strict inclusions below."""
    found = {frozenset(range(count))}
    for one in sets:
        found |= {other & frozenset(one) for other in found}
    ordered = sorted(found, key=len)
    rank_of = {}
    for face in ordered:
        rank_of[face] = max((rank_of[other] + 1 for other in rank_of if other < face), default=0)
    ranks = [[] for _ in range(max(rank_of.values()) + 1)]
    for face, place in rank_of.items():
        ranks[place].append(sorted(face))
    return [sorted(faces) for faces in ranks]


def face_counts(ranks):
    """How many faces the ranks between the least face and the whole have, and how many pairs there are of two ranks, one in the other."""
    inner = [[frozenset(face) for face in faces] for faces in ranks[1:-1]]
    pairs = [[len(one) if i == k else sum(a < b or b < a for a in one for b in two) for k, two in enumerate(inner)] for i, one in enumerate(inner)]
    return [len(faces) for faces in inner], pairs


def index_graph(sets, count):
    """Indices are neighbours where no third one is in each set that has both."""
    return [[j for j in range(count) if j != i and not any(all(k in one for one in sets if i in one and j in one) for k in range(count) if k not in (i, j))]
            for i in range(count)]


def set_graph(sets):
    """Sets are neighbours where no third one has all that they share."""
    return [[j for j, two in enumerate(sets) if j != i and not any(set(one) & set(two) <= set(other) for k, other in enumerate(sets) if k not in (i, j))]
            for i, one in enumerate(sets)]


def greatest_distance(graph):
    """The greatest number of steps that lead from a node to one that it reaches."""
    greatest = 0
    for start in range(len(graph)):
        reached, front, steps = {start}, [start], 0
        while front:
            front = sorted({k for node in front for k in graph[node]} - reached)
            reached |= set(front)
            steps += 1 if front else 0
        greatest = max(greatest, steps)
    return greatest
