"""What a user brings: forty kinds of polytopes and linear programs by formula, each with five seeds.

They say how far 128 bits go: points with mixed denominators, with decimals, with whole entries of
several sizes and dimensions; half-spaces in a box; linear programs.
"""

from dataclasses import replace
from fractions import Fraction

from families import Instance, Seeded, by_points, by_rows, distinct, maximum_of, unit

FAMILY = "users"
BEYOND = "beyond"
SEEDS = range(1, 6)


def whole(bound):
    """Whole numbers from -bound to bound."""
    return lambda seeded: seeded.below(2 * bound + 1) - bound


def fraction(digits):
    """Fractions from -10 to 10, each with a denominator of its own of at most so many digits."""

    def entry(seeded):
        below = 1 + seeded.below(10**digits - 1)
        return Fraction(seeded.below(20 * below + 1) - 10 * below, below)

    return entry


def decimal(places):
    """Decimals from -10 to 10 with so many places."""
    return lambda seeded: Fraction(seeded.below(20 * 10**places + 1), 10**places) - 10


def points_of(kind, entry, d, n):
    """The facets of n points are asked."""
    for seed in SEEDS:
        seeded = Seeded(seed)
        points = distinct(n, lambda: [entry(seeded) for _ in range(d)])
        yield by_points(FAMILY, f"{kind}, seed {seed}", points)


def box(d, bound):
    return [[bound, *unit(d, at, sign)] for at in range(d) for sign in (1, -1)]


def half_space(seeded, entry, d):
    """A half-space around 0: its constant is positive."""
    return [1 + abs(entry(seeded)), *[entry(seeded) for _ in range(d)]]


def rows_of(kind, entry, d, n):
    """The vertices of n half-spaces in a box are asked."""
    for seed in SEEDS:
        seeded = Seeded(seed)
        rows = distinct(n, lambda: half_space(seeded, entry, d))
        yield by_rows(FAMILY, f"{kind}, seed {seed}", box(d, 10) + rows)


def programs_of(kind, entry, d, n):
    """The greatest value of an objective over n half-spaces in a box is asked."""
    for seed in SEEDS:
        seeded = Seeded(seed)
        rows = distinct(n, lambda: half_space(seeded, entry, d))
        objective = [0, *[entry(seeded) for _ in range(d)]]
        yield maximum_of(FAMILY, f"{kind}, seed {seed}", box(d, 10) + rows, objective)


def kinds_of_points():
    """Kinds, entries, dimensions and numbers of points."""
    sizes = {3: 30, 4: 24, 6: 16, 9: 14, 12: 15}
    for digits in (1, 2, 3):
        for d in (3, 4, 6):
            kind = f"{sizes[d]} points in {d} dimensions, denominators to {10**digits - 1}"
            yield kind, fraction(digits), d, sizes[d]
    for places in (3, 6):
        for d in (3, 4, 6):
            kind = f"{sizes[d]} points in {d} dimensions, {places} places"
            yield kind, decimal(places), d, sizes[d]
    for bound in (10, 100, 1000, 10000):
        for d in (3, 6, 12):
            kind = f"{sizes[d]} points in {d} dimensions, whole to {bound:,}"
            yield kind, whole(bound), d, sizes[d]


def kinds_of_rows():
    for bound in (10, 100, 1000):
        for d, n in ((3, 20), (6, 10)):
            yield f"{n} half-spaces in {d} dimensions, whole to {bound:,}", whole(bound), d, n
    yield "20 half-spaces in 3 dimensions, 3 places", decimal(3), 3, 20


def kinds_of_programs():
    for bound in (10, 100, 1000):
        kind = f"program of 30 half-spaces in 10 dimensions, whole to {bound:,}"
        yield kind, whole(bound), 10, 30
    for digits in (1, 2):
        kind = f"program of 20 half-spaces in 5 dimensions, denominators to {10**digits - 1}"
        yield kind, fraction(digits), 5, 20
    yield "program of 20 half-spaces in 5 dimensions, 3 places", decimal(3), 5, 20


def kinds_beyond():
    """Kinds whose answers have 128 bits, and whose numbers on the way have more."""
    yield points_of, "10 points in space, denominators to 999", fraction(3), 3, 10
    yield points_of, "50 points in space, denominators to 999", fraction(3), 3, 50
    yield points_of, "30 points in 4 dimensions, denominators to 99", fraction(2), 4, 30
    yield points_of, "50 points in 4 dimensions, 6 places", decimal(6), 4, 50
    yield points_of, "50 points in 5 dimensions, to 10,000", whole(10000), 5, 50
    yield points_of, "20 points in 8 dimensions, to 1,000", whole(1000), 8, 20
    yield points_of, "16 points in 10 dimensions, to 1,000", whole(1000), 10, 16
    yield programs_of, "program of 12 half-spaces in 7 dimensions, 3 places", decimal(3), 7, 12
    yield programs_of, "program of 20 half-spaces in 5 dimensions, 3 places", decimal(3), 5, 20


def beyond():
    """Nine kinds that the wide rules are for."""
    for make, *kind in kinds_beyond():
        for it in make(*kind):
            yield replace(it, family=BEYOND)


def instances():
    for make, kinds in (
        (points_of, kinds_of_points()),
        (rows_of, kinds_of_rows()),
        (programs_of, kinds_of_programs()),
    ):
        for kind in kinds:
            yield from make(*kind)


def kind_of(instance: Instance):
    """The kind of an instance, without its seed."""
    return instance.name.rpartition(", seed ")[0]
