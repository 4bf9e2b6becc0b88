"""Evidence of linear programs, by its definition, with exact numbers (docs/evidence.md). It uses nothing of the program."""

from dataclasses import dataclass
from fractions import Fraction
from itertools import combinations
from math import comb, gcd

import evidence_rows as ev

MOST_CHOICES = 20_000
ONE = Fraction(1)


@dataclass(frozen=True)
class Program:
    """A program: its inequalities and equations, as whole rows, and its objective, as a row of fractions."""

    inequalities: list
    equations: list
    objective: tuple

    # The columns: the constant and the coordinates, a slack for each inequality, a residual for each equation, the auxiliary
    # variable, the objective, and the objective of the first phase.
    @property
    def cols(self):
        return len(self.objective)

    @property
    def first_residual(self):
        return self.cols + len(self.inequalities)

    @property
    def auxiliary(self):
        return self.first_residual + len(self.equations)

    @property
    def of_objective(self):
        return self.auxiliary + 1

    @property
    def of_phase(self):
        return self.auxiliary + 2

    @property
    def count(self):
        return len(self.inequalities) + len(self.equations) + 2

    def is_signed(self, variable):
        """Whether the variable may not be negative."""
        return self.cols <= variable < self.first_residual or variable == self.auxiliary

    def is_free(self, variable):
        return 0 < variable < self.cols

    def is_slack(self, variable):
        return self.cols <= variable < self.first_residual

    def is_residual(self, variable):
        return self.first_residual <= variable < self.auxiliary

    def equation(self, i, variable):
        """The entry of equation i for the variable: a x - slack + auxiliary = 0, b x - residual = 0, c x - objective = 0, -auxiliary - phase = 0."""
        rows = len(self.inequalities) + len(self.equations)
        if variable < self.cols:
            if i < rows:
                return Fraction((self.inequalities + self.equations)[i][variable])
            return self.objective[variable] if i == rows else Fraction(0)
        own = self.cols + i if i < rows else self.cols + i + 1
        if variable == own:
            return -ONE
        if variable == self.auxiliary:
            return ONE if i < len(self.inequalities) else -ONE if i == rows + 1 else Fraction(0)
        return Fraction(0)


def dictionary_of(program, basis, columns):
    """For each variable of the basis, its fraction for each of the columns in the dictionary of the basis; none where it is no basis."""
    if len(basis) != program.count:
        return None
    rows = [[program.equation(i, v) for v in basis] + [-program.equation(i, v) for v in columns] for i in range(program.count)]
    for k in range(len(basis)):
        found = next((i for i in range(k, len(rows)) if rows[i][k]), None)
        if found is None:
            return None
        rows[k], rows[found] = rows[found], rows[k]
        rows[k] = [x / rows[k][k] for x in rows[k]]
        for i, row in enumerate(rows):
            if i != k and row[k]:
                factor = row[k]
                rows[i] = [x - factor * y for x, y in zip(row, rows[k])]
    return [dict(zip(columns, row[len(basis):])) for row in rows]


# ---- numbers on the way
def is_wide(x):
    return not (ev.in_range(x.numerator) and ev.in_range(x.denominator))


def sum_is_wide(p, q):
    """A number on the way to p + q leaves the range: a term over the least common denominator, the sum of the terms, or the denominator."""
    g = gcd(p.denominator, q.denominator)
    first, second = p.numerator * (q.denominator // g), q.numerator * (p.denominator // g)
    h = gcd(first + second, g)
    numbers = (first, second, first + second, (p.denominator // g) * (q.denominator // h))
    return not all(ev.in_range(x) for x in numbers)


def is_wide_place(found, l, i, enter, corner, column):
    """An operation for the new fraction in row i leaves the range, in the pivot of row l with the variable that enters."""
    pivot = found[l][enter]
    if i == l:
        return is_wide(ONE / pivot if corner else found[l][column] / pivot)
    if corner:
        return is_wide(found[i][enter] / pivot)
    product = -found[i][enter] * found[l][column] / pivot
    return is_wide(product) or sum_is_wide(found[i][column], product)


# ---- which pivots are lawful
def is_feasible(program, basis, found):
    return all(row[0] >= 0 for v, row in zip(basis, found) if program.is_signed(v))


def is_least(program, basis, found, l, enter, sign):
    """No row that hinders has a lesser quotient than row l."""
    limit = found[l][0] / abs(found[l][enter])
    hindering = [row for v, row in zip(basis, found) if program.is_signed(v) and sign * row[enter] < 0]
    return all(row[0] / abs(row[enter]) >= limit for row in hindering)


def is_by_ratio_test(program, basis, found, l, enter):
    if not (is_feasible(program, basis, found) and program.is_signed(basis[l])):
        return False
    if not (program.is_free(enter) or program.is_slack(enter)):
        return False
    for variable, row in zip(basis, found):
        sign = 1 if row[enter] > 0 else -1
        if variable > program.auxiliary and row[enter] and (sign == 1 or program.is_free(enter)):
            if sign * found[l][enter] < 0 and is_least(program, basis, found, l, enter, sign):
                return True
    return False


def is_lawful(program, basis, found, l, enter):
    """A free coordinate enters, or a residual leaves, or the auxiliary variable enters what is not feasible, or it is by the ratio test."""
    if found[l][enter] == 0:
        return False
    if program.is_free(enter) or program.is_residual(basis[l]):
        return True
    if enter == program.auxiliary and not is_feasible(program, basis, found):
        return True
    return is_by_ratio_test(program, basis, found, l, enter)


def is_wide_pivot(program, shown):
    """E3: in the dictionary of the basis the pivot is lawful, and an operation for the new fraction leaves the range."""
    basis, enter, leave, row, column = (shown[key] for key in ("basis", "enter", "leave", "row", "column"))
    if not (program.of_objective in basis and program.of_phase in basis and leave in basis):
        return False
    if not (0 < enter < program.of_objective and leave < program.of_objective):
        return False
    found = dictionary_of(program, basis, sorted({0, enter, column}))
    if found is None:
        return False
    l = basis.index(leave)
    after = basis[:l] + [enter] + basis[l + 1:]
    if row not in after or not is_lawful(program, basis, found, l, enter):
        return False
    return is_wide_place(found, l, after.index(row), enter, column == leave, column)


# ---- the programs of a client
def thinning_programs(cols, rows, lines, count):
    """The programs of the rows and their opposites over some of the rows, with so many variables in a basis: whether the row is in their cone."""
    kept = count - 2 - len(lines) - 1
    if not 0 <= kept <= len(rows):
        return
    if comb(len(rows), kept) * len(rows) > MOST_CHOICES:
        raise ev.NotChecked("too many choices of rows")
    objective = tuple([Fraction(0)] * (cols + 1))
    for chosen in combinations(rows, kept):
        for row in rows:
            for sign in (1, -1):
                equations = [(0, *x) for x in lines] + [(sign, *row)]
                yield Program([(0, *x) for x in chosen], equations, objective)


def objectives(values):
    """The objective whose greatest value is asked, for either sense; none where the values have none."""
    c = values.fractions("LINEAR_OBJECTIVE")
    return [] if c is None else [c, tuple(-x for x in c)]


def programs(values, count):
    """Each program that a client may solve, with so many variables in a basis."""
    for first, second, lines, others in values.parts():
        if second in ("INEQUALITIES", "FACETS"):
            for c in objectives(values):
                yield Program(others, lines, c)
        if second == "INEQUALITIES":
            yield Program(others, lines, tuple([Fraction(0)] * values.cols))
    for first, second, lines, others in values.parts():
        yield from thinning_programs(values.cols, others, lines, count)


def holds_e3(values, shown):
    return any(is_wide_pivot(program, shown) for program in programs(values, len(shown["basis"])))


# ---- products of an objective
def value_at(c, x):
    return sum(a * b for a, b in zip(c, x))


def is_greatest(c, rays, lines, value):
    return all(value_at(c, x) <= value * x[0] for x in rays) and all(value_at(c, x) == value * x[0] for x in lines)


def holds_at_rays(values, first, second):
    """The product of the objective with a ray or a line, or the optimum at a ray in lowest terms, leaves the range."""
    rays, lines, c = values.rows("VERTICES"), values.rows("LINEALITY_SPACE"), values.fractions("LINEAR_OBJECTIVE")
    if rays is None or lines is None or c is None or first != ev.whole(c):
        return False
    if second in rays + lines and ev.is_wide_product(first, second):
        return True
    if second not in rays or second[0] <= 0:
        return False
    for objective in objectives(values):
        value = value_at(objective, second) / second[0]
        if is_wide(value) and is_greatest(objective, rays, lines, value):
            return True
    return False


def primitive_is_made(row):
    """Whether the primitive row is made within the range: the least common denominators so far, and the numerators over the last."""
    least = 1
    for x in row:
        least = least * x.denominator // gcd(least, x.denominator)
        if not ev.in_range(least):
            return False
    return all(ev.in_range(x.numerator * (least // x.denominator)) for x in row)


def optimum(values, rays, objective):
    """The greatest value of the objective: as the values have it, or at the rays."""
    for sense, name in zip(objectives(values), ("MAXIMAL_VALUE", "MINIMAL_VALUE")):
        told = values.values.get(name)
        if sense == objective and told is not None:
            return Fraction(told) * (1 if name == "MAXIMAL_VALUE" else -1)
    found = [value_at(objective, x) / x[0] for x in rays if x[0] > 0]
    return max(found, default=None)


def holds_at_face(values, first, second):
    """The row v e0 - c, which vanishes where c has its optimum v, or its product with a ray, leaves the range."""
    rays, c = values.rows("VERTICES"), values.fractions("LINEAR_OBJECTIVE")
    if rays is None or c is None:
        return False
    for objective in objectives(values):
        value = optimum(values, rays, objective)
        if value is None:
            continue
        level = (value - objective[0], *[-x for x in objective[1:]])
        if first == ev.whole(level) and second in rays and ev.is_wide_product(first, second):
            return True
        is_made = not sum_is_wide(value, -objective[0]) and primitive_is_made(level)
        if first == ev.whole(c) and second == ev.unit(len(c), 0) and not is_made:
            return True
    return False


def solved(rows, wanted):
    """The multipliers with which the rows, which are independent, add up to the wanted row; none where they do not."""
    basis = [[Fraction(row[k]) for row in rows] + [Fraction(wanted[k])] for k in range(len(wanted))]
    at = 0
    for column in range(len(rows)):
        found = next((i for i in range(at, len(basis)) if basis[i][column]), None)
        if found is None:
            return None
        basis[at], basis[found] = basis[found], basis[at]
        basis[at] = [x / basis[at][column] for x in basis[at]]
        for i, row in enumerate(basis):
            if i != at and row[column]:
                factor = row[column]
                basis[i] = [x - factor * y for x, y in zip(row, basis[at])]
        at += 1
    return None if any(row[-1] for row in basis[at:]) else [row[-1] for row in basis[:at]]


def multipliers(rows, equations, objective, value):
    """The positive multipliers of some of the rows, as {place: multiplier}, with which, and with the equations, they add up to v e0 - c."""
    level = (value - objective[0], *[-x for x in objective[1:]])
    basis = ev.echelon(equations)[0]
    most = min(len(rows), len(objective) - len(basis))
    if sum(comb(len(rows), k) for k in range(most + 1)) > MOST_CHOICES:
        raise ev.NotChecked("too many choices of rows")
    for size in range(1, most + 1):
        for chosen in combinations(range(len(rows)), size):
            found = solved([rows[k] for k in chosen] + basis, level)
            if found is not None and all(x > 0 for x in found[:size]):
                yield dict(zip(chosen, found))


def holds_of_dual(values, first, second):
    """The multiple of a facet row by its multiplier in a dual, which is (p, q), leaves the range."""
    equations, rows, rays = values.rows("AFFINE_HULL"), values.rows("FACETS"), values.rows("VERTICES")
    if equations is None or rows is None or first not in rows or len(second) != 2 or second[1] <= 0:
        return False
    by = Fraction(second[0], second[1])
    multiple = [by * x for x in first]
    if (by.numerator, by.denominator) != tuple(second) or by <= 0 or primitive_is_made(multiple) and not any(map(is_wide, multiple)):
        return False
    for objective in objectives(values):
        if rays is None:
            raise ev.NotChecked("an optimum without VERTICES")
        value = optimum(values, rays, objective)
        if value is not None and any(found.get(k) == by for found in multipliers(rows, equations, objective, value) for k, x in enumerate(rows) if x == first):
            return True
    return False


def holds_e4(values, first, second):
    if values.values.get("LINEAR_OBJECTIVE") is None:
        return False
    return holds_at_rays(values, first, second) or holds_at_face(values, first, second) or holds_of_dual(values, first, second)
