"""Whole rows, their spans and cones, with exact numbers. It uses nothing of the program."""

from fractions import Fraction
from math import gcd

MOST = 2**127 - 1


class NotChecked(Exception):
    """The values do not have what is needed to check the evidence, or too many choices would have to be tried."""


def in_range(x):
    return -MOST <= x <= MOST


def primitive(row):
    """The positive multiple of the row without a common divisor; the zero row stays."""
    divisor = gcd(*row)
    return tuple(x // divisor for x in row) if divisor else tuple(row)


def whole(row):
    """The primitive whole row in the direction of a row of fractions."""
    fractions = [Fraction(x) for x in row]
    scale = 1
    for x in fractions:
        scale = scale * x.denominator // gcd(scale, x.denominator)
    return primitive([int(x * scale) for x in fractions])


def dot(a, b):
    return sum(x * y for x, y in zip(a, b))


def opposite(row):
    return tuple(-x for x in row)


def entry(row, i):
    return row[i] if i < len(row) else 0


def factors(row, by, column):
    """(p, q) with p = by_c/g and q = row_c/g, g the greatest common divisor of both; by is positive in the column."""
    divisor = gcd(abs(row[column]), by[column])
    return by[column] // divisor, row[column] // divisor


def reduced_once(row, by, column):
    if row[column] == 0:
        return tuple(row)
    p, q = factors(row, by, column)
    return primitive([p * x - q * y for x, y in zip(row, by)])


def echelon(rows):
    """The echelon basis of the span: primitive rows, positive at their pivot columns, where the others are 0."""
    basis, pivots = [], []
    for row in rows:
        row = primitive(row)
        for other, column in zip(basis, pivots):
            row = reduced_once(row, other, column)
        if any(row):
            column = next(i for i, x in enumerate(row) if x)
            row = row if row[column] > 0 else opposite(row)
            basis = [reduced_once(other, row, column) for other in basis] + [row]
            pivots.append(column)
    order = sorted(range(len(basis)), key=lambda k: pivots[k])
    return [basis[k] for k in order], [pivots[k] for k in order]


def rank(rows):
    return len(echelon(rows)[0])


def null_space(rows, cols):
    """The echelon basis of the rows on which all of these vanish."""
    basis, pivots = echelon(rows)
    found = []
    for free in range(cols):
        if free not in pivots:
            row = [Fraction(0)] * cols
            row[free] = Fraction(1)
            for other, column in zip(basis, pivots):
                row[column] = Fraction(-other[free], other[column])
            found.append(whole(row))
    return echelon(found)


def enlarging(rows):
    """One mark for each row, whether it is not in the span of those before it."""
    marks, basis, pivots = [], [], []
    for row in rows:
        rest = primitive(row)
        for other, column in zip(basis, pivots):
            rest = reduced_once(rest, other, column)
        marks.append(any(rest))
        if any(rest):
            basis, pivots = echelon(basis + [rest])
    return marks


def stated_order(rows):
    """First the rows that enlarge the span of those before them, then the others."""
    marks = enlarging(rows)
    return [x for x, m in zip(rows, marks) if m] + [x for x, m in zip(rows, marks) if not m]


def unit(cols, i):
    return tuple(1 if k == i else 0 for k in range(cols))


def both_signs(rows):
    return [signed for row in rows for signed in (row, opposite(row))]


def is_wide_product(a, b):
    total = 0
    for x, y in zip(a, b):
        total += x * y
        if not in_range(x * y) or not in_range(total):
            return True
    return False


# ---- extreme rays
def is_extreme(cut, row, cols):
    """The row is an extreme ray of the cone that the rows cut out."""
    if len(row) != cols or any(dot(a, row) < 0 for a in cut):
        return False
    tight = [a for a in cut if dot(a, row) == 0]
    return len(tight) < len(cut) and rank(tight) == rank(cut) - 1


def is_canonical(cut, row, cols):
    _, pivots = null_space(cut, cols)
    return is_extreme(cut, row, cols) and primitive(row) == tuple(row) and all(row[p] == 0 for p in pivots)


def are_adjacent(cut, r, s):
    return rank([a for a in cut if dot(a, r) == 0 and dot(a, s) == 0]) == rank(cut) - 2
