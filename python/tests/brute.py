"""Brute force of tests/random: properties of a polytope or a cone by all sets of its rows, as Python values."""

import json
import sys
from fractions import Fraction
from pathlib import Path

TOP = Path(__file__).resolve().parents[2]
sys.path.append(str(TOP / "tests/random"))

import check_geometry
import check_programs
from exact import Thing, dot

MATRICES = ("F2_VECTOR",)


def value_of(name, text):
    """A value that brute force spells as the program does."""
    value = json.loads(str(text))
    if isinstance(value, list) and value and isinstance(value[-1], dict):
        value = value[:-1]
    return [[Fraction(it) for it in row] for row in value] if name in MATRICES else value


def values(thing, is_polytope):
    """Each property of a thing but PLACING_TRIANGULATION and sites; None where there is none to be found."""
    found = {"VERTICES": rows(check_geometry.vertex_rows(thing, is_polytope)), "FACETS": rows(thing.facets)}
    found |= {"LINEALITY_SPACE": rows(thing.lineality), "AFFINE_HULL": rows(thing.hull)}
    for name, text in check_geometry.values(thing, is_polytope).items():
        found[name] = None if text is None else value_of(name, text)
    names = {} if is_polytope else check_geometry.CONE_NAMES
    return {names.get(name, name): value for name, value in found.items()}


def rows(matrix):
    return [[Fraction(it) for it in row] for row in matrix]


def random_things(random, count):
    """Random polytopes and cones: whether it is a polytope, its columns, generators and lines, and the thing."""
    for _ in range(count):
        is_polytope = random.random() < 0.6
        cols, generators, lines = check_geometry.random_generators(random, is_polytope)
        yield is_polytope, cols, generators, lines, Thing.generated(cols, generators, lines)


def optimum(thing, objective):
    """The greatest value of an objective, a fraction or an infinity, and the places of the rays where it is attained."""
    value, text = check_programs.optimum(thing, objective)
    return float(text) if value is None else value, check_programs.face(thing, objective, value)


def is_dual(thing, objective, value, matrix):
    """Whether rows are facet rows of the thing whose sum shows that no value is greater."""
    text = json.dumps([[str(it) for it in row] for row in matrix])
    value = value if isinstance(value, Fraction) else None
    return check_programs.is_dual(thing, objective, value)(f"p MAXIMAL_DUAL {text}")


def cells(sites, heights):
    """The cells of the regular subdivision of sites in the plane: the lower faces by all triples, as sets of places."""
    found = set()
    for one in range(len(sites)):
        for two in range(one):
            for three in range(two):
                face = lower_face(sites, heights, (one, two, three))
                if face:
                    found.add(face)
    return sorted(sorted(it) for it in found)


def lower_face(sites, heights, chosen):
    """The sites on the plane through three lifted sites, if no site is below it and the three are on no line."""
    (ax, ay), (bx, by), (cx, cy) = (sites[it] for it in chosen)
    a, b, c = (heights[it] for it in chosen)
    area = (bx - ax) * (cy - ay) - (cx - ax) * (by - ay)
    if area == 0:
        return None
    slope_x = Fraction((b - a) * (cy - ay) - (c - a) * (by - ay), 1) / area
    slope_y = Fraction((c - a) * (bx - ax) - (b - a) * (cx - ax), 1) / area
    above = [height - (a + slope_x * (x - ax) + slope_y * (y - ay)) for (x, y), height in zip(sites, heights)]
    return frozenset(place for place, it in enumerate(above) if it == 0) if min(above) >= 0 else None


def determinant(matrix):
    """By the first row."""
    if not matrix:
        return Fraction(1)
    rest = lambda column: [row[:column] + row[column + 1 :] for row in matrix[1:]]
    return sum((-1) ** k * it * determinant(rest(k)) for k, it in enumerate(matrix[0]) if it)
