"""Whether rows fit by their size: then no step by wide numbers leaves the range, as is proved of their minors.

The formulas are those of the laws of crates/pm_minors and crates/pm_laws_fitting: n rows of n whole entries of at most
M have minors of at most n! M^n, and of at most the root of (n M^2)^n, by Hadamard's bound; and what is made of such
rows on the way to facets and vertices is no larger than these minors.
"""

from math import factorial, gcd, isqrt, lcm

# The greatest number of the range.
GREATEST = 2**127 - 1


def minor_bound(most, count):
    """What bounds the minors of this many rows with entries of at most so much."""
    return min(factorial(count) * most**count, isqrt((count * most * most) ** count)) if count else 1


def is_size_for(columns, most):
    """Whether rows with so many columns, and entries of at most so much, fit by their size."""
    return minor_bound(most, columns) <= GREATEST


def fits(columns, most, lines):
    """Whether a description fits by its size, of which so many rows are lines or equations."""
    return is_size_for(columns, max(most, minor_bound(most, min(lines, columns))))


def largest(test):
    """The greatest number for which a test holds that holds of all smaller ones; 0 where it holds of none."""
    low, high = 0, 2**127
    while low + 1 < high:
        middle = (low + high) // 2
        low, high = (middle, high) if test(middle) else (low, middle)
    return low


def primitive(row):
    """The whole row in the direction of a row of fractions whose entries have no common divisor."""
    common = lcm(*(it.denominator for it in row))
    whole = [int(it * common) for it in row]
    divisor = gcd(*whole)
    return [it // divisor for it in whole] if divisor else whole


def most_of(rows):
    """The size of the greatest entry of the primitive whole rows, at least 1."""
    return max((abs(it) for row in rows for it in primitive(row)), default=1) or 1
