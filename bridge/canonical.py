"""Answers as sets of primitive rows, whatever order and scale a program writes them in."""

from fractions import Fraction
from math import gcd, lcm


def primitive(row):
    """The least whole row in the direction of the row."""
    row = [Fraction(it) for it in row]
    common = lcm(*[it.denominator for it in row])
    whole = [int(it * common) for it in row]
    divisor = gcd(*whole)
    return tuple(it // divisor for it in whole) if divisor else tuple(whole)


def echelon(rows):
    """The reduced echelon basis of the rows' span, each of its rows with its pivot column."""
    basis = []
    for row in rows:
        row = reduced([Fraction(it) for it in row], basis)
        pivot = next((at for at, it in enumerate(row) if it), None)
        if pivot is None:
            continue
        row = [it / row[pivot] for it in row]
        basis = [([x - it[pivot] * y for x, y in zip(it, row)], at) for it, at in basis]
        basis.append((row, pivot))
    return sorted(basis, key=lambda it: it[1])


def reduced(row, basis):
    """The row less what makes it 0 in the pivot columns."""
    for it, at in basis:
        if row[at]:
            factor = row[at]
            row = [x - factor * y for x, y in zip(row, it)]
    return row


def canonical(rows, lines):
    """The set of the primitive rows modulo the lines, and the echelon basis of the lines."""
    basis = echelon(lines)
    if basis:
        rows = [reduced([Fraction(it) for it in row], basis) for row in rows]
    found = frozenset(map(primitive, rows))
    return found, tuple(primitive(it) for it, _ in basis)
