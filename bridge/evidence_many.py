"""Evidence that something is too many, by its definition, with exact numbers (docs/evidence.md). It uses nothing of the program."""

from evidence_rows import NotChecked, both_signs, dot, echelon, enlarging, null_space, opposite, primitive, rank, reduced_once

MOST_ROWS = 2048
MOST_FACES = 65_536
MOST_PLACES = 4_000_000


# ---- faces
def holds_faces(values, faces):
    """Too many different meets of sets, or too many places in them."""
    if len(faces) <= MOST_FACES and sum(map(len, faces)) <= MOST_PLACES:
        return False
    value = values.values.get("VERTICES_IN_FACETS")
    if value is None or len(set(faces)) < len(faces):
        return False
    sets = [frozenset(s) for s in value if not isinstance(s, dict)]
    count = next((s["cols"] for s in value if isinstance(s, dict)), max((k + 1 for s in sets for k in s), default=0))
    everything = frozenset(range(count))
    for face in faces:
        held = frozenset(face)
        meet = everything
        for s in sets:
            if held <= s:
                meet &= s
        if list(face) != sorted(held) or meet != held:
            return False
    return True


# ---- cells
class Placing:
    """The cells of a placing triangulation, a ray after the other, with the facets of cells that are on the boundary."""

    def __init__(self, lines, rays, cols, first):
        self.lines, self.rays, self.cols = lines, rays, cols
        self.cells = set()
        self.boundary = {}
        self.add(frozenset(first))

    def add(self, cell):
        """Adds a cell: a facet that two cells have is no longer on the boundary."""
        self.cells.add(cell)
        for place in cell:
            facet = cell - {place}
            if self.boundary.pop(facet, None) is None:
                self.boundary[facet] = self.normal(facet, place)

    def normal(self, facet, place):
        """A row that is 0 on the facet and the lines, and positive on the ray at the place."""
        rows = null_space(self.lines + [self.rays[k] for k in facet], self.cols)[0]
        found = next(row for row in rows if dot(row, self.rays[place]))
        return found if dot(found, self.rays[place]) > 0 else opposite(found)

    def join(self, place):
        """Joins a ray to the facets that it is beyond."""
        beyond = [facet for facet, normal in self.boundary.items() if dot(normal, self.rays[place]) < 0]
        for facet in beyond:
            self.add(facet | {place})


def placed_cells(lines, rays, cols, front):
    """The cells of the first rows of the stated order; none where these do not span all."""
    lines = echelon(lines)[0]
    lead = 2 * len(lines)
    marks = enlarging(both_signs(lines) + rays)
    order = [k for k, m in enumerate(marks) if m] + [k for k, m in enumerate(marks) if not m]
    start = sum(marks)
    if not start <= front <= len(order):
        return None
    placing = Placing(lines, rays, cols, [k - lead for k in order[:start] if k >= lead])
    for k in order[start:front]:
        if k >= lead:
            placing.join(k - lead)
    return sorted(sorted(cell) for cell in placing.cells)


def holds_cells(values, front, cells):
    """Too many cells, which are all that the front has, in lexicographic order."""
    if len(cells) <= MOST_ROWS:
        return False
    return any(placed_cells(lines, rays, values.cols, front) == cells for _, _, lines, rays in values.parts())


# ---- facets
def reduced(rows, basis, pivots):
    """Each row without the pivot columns of the basis, made primitive."""
    for row in rows:
        for other, pivot in zip(basis, pivots):
            row = reduced_once(row, other, pivot)
        yield primitive(row)


def is_facet_row(row, rays, lines, dim):
    """The rays on which the row vanishes span, with the lines, a space of one dimension less, and it does not vanish on all."""
    tight = [x for x in rays if dot(row, x) == 0]
    return len(tight) < len(rays) and rank(lines + tight) == dim - 1


def are_inside(rays, lines, rows, equations):
    """The rays and the lines lie in the cone that the rows and the equations cut out."""
    if any(dot(a, x) for x in lines for a in rows + equations):
        return False
    return all(dot(a, x) >= 0 for x in rays for a in rows) and all(dot(a, x) == 0 for x in rays for a in equations)


def holds_facets(values, places):
    """Too many places of INEQUALITIES at which facet rows stand, no two alike: VERTICES show it, where these span what EQUATIONS leave."""
    found = next((part for part in values.parts() if part[1] == "INEQUALITIES"), None)
    if len(places) <= MOST_ROWS or found is None:
        return False
    _, _, equations, rows = found
    if not all(0 <= k < len(rows) for k in places):
        return False
    rays, lines = values.rows("VERTICES"), values.rows("LINEALITY_SPACE")
    basis, pivots = echelon(equations)
    dim = values.cols - len(basis)
    if rays is None or lines is None or rank(lines + rays) < dim or not are_inside(rays, lines, rows, equations):
        raise NotChecked("facet rows without VERTICES that show them")
    chosen = [rows[k] for k in places]
    if len(set(reduced(chosen, basis, pivots))) < len(chosen):
        return False
    has_point = values.of != "Polytope" or any(x[0] > 0 for x in rays)
    return has_point and all(is_facet_row(row, rays, lines, dim) for row in chosen)
