"""Objects that commands make, sites, files that a script writes and reads, and wide numbers, each beside brute force in exact numbers."""
import json
from fractions import Fraction

from check_geometry import asks, generated_cases, random_row, takes, values, vertex_rows, with_cols
from exact import Thing, dot, primitive
from running import Script, fractions_spelled, sets_spelled, spelled

MOST = 2 ** 127 - 1


def random_points(random, cols, size, count):
    """So many points of a polytope, with small denominators."""
    return [(random.choice([1, 1, 2]),) + random_row(random, cols - 1, -size, size) for _ in range(count)]


def sums_of(points, others):
    """The sum of each two points, the rows that stand for them."""
    return [tuple(x * q[0] + y * p[0] if place else p[0] * q[0] for place, (x, y) in enumerate(zip(p, q))) for p in points for q in others]


def cones_at(thing):
    """The cones of the normal fan of a polytope that is bounded and of full dimension: for each vertex its facet rows without their first entries."""
    rows = [primitive(facet[1:]) for facet in thing.facets]
    return {frozenset(row for row, facet in zip(rows, thing.facets) if dot(facet, ray) == 0) for ray in thing.rays}


def is_fan(cones):
    """Whether the two replies that are told one after the other, rays and cones, are these cones in any order; a ray is told by any multiple."""
    told = []

    def rays(line):
        told[:] = [primitive(tuple(map(int, row))) for row in json.loads(line.split(' ', 2)[2]) if isinstance(row, list)]
        return sorted(told) == sorted({row for cone in cones for row in cone})

    def sets(line):
        found = [frozenset(told[i] for i in one) for one in json.loads(line.split(' ', 2)[2]) if isinstance(one, list)]
        return len(found) == len(cones) and set(found) == cones
    return rays, sets


def shows_fan(script, name, cones):
    rays, sets = is_fan(cones)
    script.says(f'lookup {name} RAYS', rays)
    script.says(f'lookup {name} MAXIMAL_CONES', sets)


def check_sums(random, runs, count):
    """Sums of two polytopes; and of two of full dimension the common refinement of their normal fans, which is the normal fan of the sum."""
    script = Script('sums and refinements')
    for _ in range(count):
        cols = random.randint(2, 4)
        points, others = [random_points(random, cols, 2, random.randint(1, 6 - cols // 2)) for _ in 'pq']
        first, second = Thing.generated(cols, points, []), Thing.generated(cols, others, [])
        whole = Thing.generated(cols, sums_of(first.rays, second.rays), [])
        for name, rows in [('p', points), ('q', others)]:
            takes(script, name, True, [('CONE_AMBIENT_DIM', cols), ('POINTS', fractions_spelled(rows)), ('INPUT_LINEALITY', '[]')])
        script.says('minkowski p q s')
        asks(script, 's', values(whole, True), True, whole)
        if not first.hull and not second.hull and cols > 1:
            for command in ('normalfan p n', 'normalfan q m', 'normalfan s k', 'refine n m r', 'refine k n l'):
                script.says(command)
            for name in 'krl':
                shows_fan(script, name, cones_at(whole))
            for name in 'nmkrl':
                script.says(f'drop {name}')
        for name in 'pqs':
            script.says(f'drop {name}')
    runs.tries(script)


def cells_of(sites, heights):
    """The sites on each facet of the cone of the lifted sites that is not upright, ascending."""
    lifted = [site + (height * site[0],) for site, height in zip(sites, heights)]
    scale = max((height.denominator for height in heights), default=1)
    for height in heights:
        scale = scale * height.denominator
    rows = [tuple(int(x * scale) for x in row) for row in lifted]
    up = (0,) * len(sites[0]) + (1,)
    thing = Thing.generated(len(up), rows + [up], [])
    return sorted([i for i, row in enumerate(rows) if dot(facet, row) == 0] for facet in thing.facets if dot(facet, up) > 0)


def check_cells(random, runs, count):
    """Cells of sites by heights, and by the squares of the distances from the origin, of sites that may be equal and may lie in a hyperplane."""
    script = Script('sites')
    for _ in range(count):
        cols = random.randint(2, 4)
        sites = [(random.choice([1, 1, 1, 2]),) + random_row(random, cols - 1, -2, 2) for _ in range(random.randint(1, 7))]
        heights = [Fraction(random.randint(-4, 4), random.choice([1, 1, 2, 3])) for _ in sites]
        squares = [Fraction(sum(x * x for x in site[1:]), site[0] ** 2) for site in sites]
        takes(script, 'p', True, [('SITES', fractions_spelled(sites)), ('SITE_HEIGHTS', spelled([f'{x}' for x in heights]).replace("'", '"'))])
        script.gives('p', 'REGULAR_CELLS', sets_spelled(cells_of(sites, heights), len(sites)))
        script.gives('p', 'DELAUNAY_CELLS', sets_spelled(cells_of(sites, squares), len(sites)))
        script.says('drop p')
    runs.tries(script)


def kept_files(script, place, named, told, thing, is_polytope, names):
    """Commands that save an object, read it under another name, save that, and ask the other for all."""
    script.says(f'save g {place}.json')
    script.says(f'load k {place}.json')
    script.says(f'save k {place}.again.json')
    for name in names:
        script.says(f'lookup k {name}', f'k {name} {named[name]}')
    asks(script, 'k', told, is_polytope, thing)
    script.says('drop g')
    script.says('drop k')


def check_kept(random, runs, count):
    """What was computed, saved and read again is held as it was; what is asked then is right; and what is saved again is the same file."""
    script = Script('files in a script')
    for place, (is_polytope, thing, rows, lines) in enumerate(generated_cases(random, count)):
        told = values(thing, is_polytope)
        ranks = {'VERTICES': fractions_spelled(vertex_rows(thing, is_polytope)), 'LINEALITY_SPACE': fractions_spelled(thing.lineality)}
        of_cones = {} if is_polytope else {'VERTICES': 'RAYS', 'N_VERTICES': 'N_RAYS', 'VERTICES_IN_FACETS': 'RAYS_IN_FACETS', 'VERTEX_SIZES': 'RAY_SIZES',
                                           'VERTEX_DEGREES': 'RAY_DEGREES'}
        known = {name: value for name, value in [*ranks.items(), *told.items()] if value is not None and name != 'CONE_AMBIENT_DIM'}
        named = {of_cones.get(name, name): value for name, value in known.items()}
        names = random.sample(sorted(named), random.randint(1, 5))
        takes(script, 'g', is_polytope, [('CONE_AMBIENT_DIM', thing.cols), ('POINTS', with_cols(rows, thing.cols)), ('INPUT_LINEALITY', with_cols(lines, thing.cols))])
        for name in names:
            script.gives('g', name, named[name])
        kept_files(script, place, named, told, thing, is_polytope, names)
    runs.tries(script)
    for place in range(count):
        runs.wants(runs.file(f'{place}.json'), runs.file(f'{place}.again.json'), f'{script.name}: {place} saved again')


def is_told(replies):
    return lambda line: line in replies


def check_wide(random, runs, count, book):
    """Points and half-spaces with numbers of up to 60 bits, under the rules of wide numbers: rows that leave 128 bits are not answered, and of
    others a reply is right where there is one; where the numbers have at most 24 bits there is one."""
    script = Script('wide rules', ['--rules', 'wide.rules'], {'wide.rules': book})
    for _ in range(count):
        cols, bits = random.randint(2, 4), random.choice([8, 16, 24, 40, 60])
        rows = [(random.choice([1, 2, 3]),) + random_row(random, cols - 1, -2 ** bits, 2 ** bits) for _ in range(random.randint(1, 7))]
        thing = Thing.generated(cols, rows, [])
        takes(script, 'p', True, [('CONE_AMBIENT_DIM', cols), ('POINTS', fractions_spelled(rows)), ('INPUT_LINEALITY', '[]')])
        takes(script, 'c', False, [('CONE_AMBIENT_DIM', cols), ('INEQUALITIES', fractions_spelled(rows)), ('EQUATIONS', '[]')])
        dual = Thing(cols, thing.facets, thing.hull, thing.rays, thing.lineality)
        for name, props in [('p', [('FACETS', thing.facets), ('AFFINE_HULL', thing.hull), ('VERTICES', vertex_rows(thing, True))]),
                            ('c', [('RAYS', dual.rays), ('LINEALITY_SPACE', dual.lineality), ('FACETS', dual.facets)])]:
            for prop, told in props:
                fits = all(abs(x) <= MOST for row in told for x in row)
                wanted = f'{name} {prop} {fractions_spelled(told)}'
                script.says(f'give {name} {prop}', wanted if fits and bits <= 24 else is_told([wanted] * fits + ['no 10 NoChain']))
        script.says('drop p')
        script.says('drop c')
    runs.tries(script)
