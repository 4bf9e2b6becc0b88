"""Polytopes and cones of random generators and half-spaces beside brute force: each property, by each way that leads there."""
from fractions import Fraction
from math import comb

from exact import Thing, dot, echelon, face_counts, greatest_distance, index_graph, meets, null_space, reduced, set_graph
from running import Script, fractions_spelled, sets_spelled, spelled, truth

CONE_NAMES = {'POINTS': 'INPUT_RAYS', 'VERTICES': 'RAYS', 'N_VERTICES': 'N_RAYS', 'AFFINE_HULL': 'LINEAR_SPAN', 'VERTICES_IN_FACETS': 'RAYS_IN_FACETS',
              'VERTEX_SIZES': 'RAY_SIZES', 'VERTEX_DEGREES': 'RAY_DEGREES'}
# Linear programs alone lead to these.
BY_PROGRAMS = '''p : rule VERTICES, LINEALITY_SPACE : POINTS, INPUT_LINEALITY { thin_points_lp } weight 60;
i : rule FACETS, AFFINE_HULL : INEQUALITIES, EQUATIONS { thin_inequalities_lp } weight 60;
f : rule FEASIBLE : INEQUALITIES, EQUATIONS { feasible_lp } weight 15;
'''


def random_row(random, cols, least, most):
    return tuple(random.randint(least, most) for _ in range(cols))


def random_generators(random, is_polytope):
    """Columns, generators and lines, of a polytope that has a point."""
    cols = random.randint(1, 5)
    size = random.choice([1, 2, 3])
    count = random.randint(0, 9 if cols < 5 else 7)
    rows = []
    for _ in range(count):
        row = random_row(random, cols, -size, size)
        rows.append((random.choice([0, 1, 1, 1, 2]),) + row[1:] if is_polytope else row)
    if is_polytope:
        rows = [row for row in rows if any(row)]
        rows.insert(random.randint(0, len(rows)), (random.randint(1, 2),) + random_row(random, cols - 1, -size, size))
    lines = []
    if cols > 1 and random.random() < 0.25:
        line = random_row(random, cols, -size, size)
        lines.append((0,) + line[1:] if is_polytope else line)
    if is_polytope and random.random() < 0.2:
        rows += random.sample(rows, min(2, len(rows)))
    return cols, rows, lines


def vertex_rows(thing, is_polytope):
    """Rays as they are written: of a polytope with first coordinate 1."""
    return [tuple(Fraction(x, ray[0]) for x in ray) if is_polytope and ray[0] else ray for ray in thing.rays]


def h_numbers(f, d):
    faces = [1] + f
    return [sum((-1) ** (k - i) * comb(d - i, d - k) * faces[i] for i in range(k + 1)) for k in range(d + 1)] if d >= 0 else []


def values(thing, is_polytope):
    """Each property of the thing, as its value is written, but the rows that describe it."""
    sets = thing.sets()
    count = len(thing.rays)
    cone_dim = thing.cols - len(thing.hull)
    dim = cone_dim - len(thing.lineality) - 1
    sizes = [sum(i in one for one in sets) for i in range(count)]
    facet_sizes = [len(one) for one in sets]
    ranks = meets(sets, count)
    f, pairs = face_counts(ranks)
    graph, dual = index_graph(sets, count), set_graph(sets)
    told = {
        'CONE_AMBIENT_DIM': thing.cols, 'CONE_DIM': cone_dim, 'LINEALITY_DIM': len(thing.lineality), 'COMBINATORIAL_DIM': dim,
        'N_VERTICES': count, 'N_FACETS': len(sets), 'POINTED': truth(not thing.lineality), 'FULL_DIM': truth(not thing.hull),
        'VERTICES_IN_FACETS': sets_spelled(sets, count), 'VERTEX_SIZES': spelled(sizes), 'FACET_SIZES': spelled(facet_sizes),
        'SIMPLE': truth(all(size == dim for size in sizes)), 'SIMPLICIAL': truth(all(size == dim for size in facet_sizes)),
        'HASSE_DIAGRAM': spelled(ranks), 'F_VECTOR': spelled(f), 'F2_VECTOR': fractions_spelled(pairs),
        'GRAPH': spelled(graph), 'DUAL_GRAPH': spelled(dual), 'N_EDGES': sum(map(len, graph)) // 2, 'N_RIDGES': sum(map(len, dual)) // 2,
        'VERTEX_DEGREES': spelled([len(row) for row in graph]), 'DIAMETER': greatest_distance(graph), 'DUAL_DIAMETER': greatest_distance(dual),
    }
    if is_polytope:
        far = [i for i, ray in enumerate(thing.rays) if ray[0] == 0]
        origin = (1,) + (0,) * (thing.cols - 1)
        bounded = not far and not thing.lineality
        told['FEASIBLE'] = truth(cone_dim > 0)
        told['BOUNDED'] = truth(bounded)
        told['CENTERED'] = truth(all(dot(row, origin) == 0 for row in thing.hull) and all(dot(row, origin) > 0 for row in thing.facets))
        told['FAR_FACE'] = spelled(far)
        told['H_VECTOR'] = spelled(h_numbers(f, dim)) if bounded and told['SIMPLICIAL'] == 'true' else None
    return told


def asks(script, name, told, is_polytope, thing):
    """Asks all that is told of the thing, beside its four lists of rows."""
    rows = [('VERTICES', vertex_rows(thing, is_polytope)), ('LINEALITY_SPACE', thing.lineality), ('FACETS', thing.facets), ('AFFINE_HULL', thing.hull)]
    for prop, value in [(prop, fractions_spelled(rows)) for prop, rows in rows] + list(told.items()):
        prop = prop if is_polytope else CONE_NAMES.get(prop, prop)
        if value is None:
            script.says(f'give {name} {prop}', 'no 10 NoChain')
        else:
            script.gives(name, prop, value)


def takes(script, name, is_polytope, rows):
    script.says(f'new {name} {"Polytope" if is_polytope else "Cone"}')
    for prop, value in rows:
        script.says(f'take {name} {prop if is_polytope else CONE_NAMES.get(prop, prop)} {value}')


def with_cols(rows, cols):
    """Rows that are given, with how many columns they have where there are none."""
    return fractions_spelled(rows) if rows else f'[{{"cols":{cols}}}]'


def scaled(random, rows):
    """Positive multiples of the rows, in any order."""
    multiples = []
    for row in rows:
        factor = Fraction(random.randint(1, 3), random.randint(1, 3))
        multiples.append(tuple(factor * x for x in row))
    random.shuffle(multiples)
    return multiples


def redundant(random, thing, is_polytope):
    """Inequalities and equations that cut the thing out, with more than are needed."""
    first = (1,) + (0,) * (thing.cols - 1)
    pivots = [next(i for i, x in enumerate(row) if x) for row in thing.hull]
    far = reduced(first, thing.hull, pivots)
    rows = [facet for facet in thing.facets if not (is_polytope and facet == far)]
    for _ in range(random.randint(0, 3)):
        sum_of = [0] * thing.cols
        for row in rows:
            factor = random.randint(0, 2)
            sum_of = [x + factor * y for x, y in zip(sum_of, row)]
        for row in thing.hull:
            factor = random.randint(-2, 2)
            sum_of = [x + factor * y for x, y in zip(sum_of, row)]
        if any(sum_of):
            rows.append(tuple(sum_of))
    equations = list(thing.hull)
    if equations and random.random() < 0.5:
        equations.append(tuple(2 * x - y for x, y in zip(equations[0], equations[-1])))
        equations = [row for row in equations if any(row)]
    return scaled(random, rows), scaled(random, equations)


def check_ways(random, runs, cases):
    """From generators, from half-spaces, from both, by linear programs, and from the sets that say which rays lie on which facets."""
    script = Script('by the standard book')
    thinned = Script('by linear programs', ['--rules', 'programs'], {'programs': BY_PROGRAMS})
    for is_polytope, thing, generators, lines in cases:
        told = values(thing, is_polytope)
        cols = thing.cols
        points = [('POINTS', with_cols(scaled(random, generators), cols)), ('INPUT_LINEALITY', with_cols(lines, cols))]
        inequalities, equations = redundant(random, thing, is_polytope)
        halves = [('INEQUALITIES', with_cols(inequalities, cols)), ('EQUATIONS', with_cols(equations, cols))]
        facets = [('FACETS', with_cols(thing.facets, cols)), ('AFFINE_HULL', with_cols(thing.hull, cols))]
        ambient = [('CONE_AMBIENT_DIM', cols)]
        takes(script, 'g', is_polytope, ambient + points)
        asks(script, 'g', told, is_polytope, thing)
        script.says('drop g')
        is_empty = is_polytope and len(thing.hull) == cols
        if not is_empty:
            takes(script, 'h', is_polytope, ambient + halves)
            asks(script, 'h', told, is_polytope, thing)
            script.says('drop h')
        check_both(script, is_polytope, thing, ambient + points + facets)
        check_sets(random, script, is_polytope, thing)
        by_programs(thinned, is_polytope, thing, ambient, points, [] if is_empty else halves)
    runs.tries(script)
    runs.tries(thinned)


def check_both(script, is_polytope, thing, rows):
    """The extreme rays among the generators, where the facets are held."""
    takes(script, 'b', is_polytope, rows)
    script.gives('b', 'VERTICES' if is_polytope else 'RAYS', fractions_spelled(vertex_rows(thing, is_polytope)))
    script.gives('b', 'LINEALITY_SPACE', fractions_spelled(thing.lineality))
    script.says('drop b')


def check_sets(random, script, is_polytope, thing):
    """Rays from facets, and facets from rays, in the orders that the sets speak of."""
    if not thing.rays or not thing.facets:
        return
    rays, facets = vertex_rows(thing, is_polytope), list(thing.facets)
    order = list(range(len(rays)))
    random.shuffle(order)
    random.shuffle(facets)
    sets = [[place for place, i in enumerate(order) if dot(facet, thing.rays[i]) == 0] for facet in facets]
    rays = [rays[i] for i in order]
    told = sets_spelled(sets, len(rays))
    takes(script, 's', is_polytope, [('FACETS', fractions_spelled(facets)), ('AFFINE_HULL', with_cols(thing.hull, thing.cols)), ('VERTICES_IN_FACETS', told)])
    script.gives('s', 'VERTICES' if is_polytope else 'RAYS', fractions_spelled(rays))
    script.says('drop s')
    takes(script, 't', is_polytope, [('VERTICES', fractions_spelled(rays)), ('LINEALITY_SPACE', with_cols(thing.lineality, thing.cols)), ('VERTICES_IN_FACETS', told)])
    script.gives('t', 'FACETS', fractions_spelled(facets))
    script.says('drop t')


def by_programs(script, is_polytope, thing, ambient, points, halves):
    takes(script, 'g', is_polytope, ambient + points)
    script.gives('g', 'VERTICES' if is_polytope else 'RAYS', fractions_spelled(vertex_rows(thing, is_polytope)))
    script.gives('g', 'LINEALITY_SPACE', fractions_spelled(thing.lineality))
    script.says('drop g')
    if halves:
        takes(script, 'h', is_polytope, ambient + halves)
        script.gives('h', 'FACETS', fractions_spelled(thing.facets))
        script.gives('h', 'AFFINE_HULL' if is_polytope else 'LINEAR_SPAN', fractions_spelled(thing.hull))
        if is_polytope:
            script.gives('h', 'FEASIBLE', truth(len(thing.hull) < thing.cols))
        script.says('drop h')


def generated_cases(random, count):
    cases = []
    for number in range(count):
        is_polytope = number % 3 != 0
        cols, rows, lines = random_generators(random, is_polytope)
        if not is_polytope:
            rows = [row for row in rows if any(row)]
        cases.append((is_polytope, Thing.generated(cols, rows, lines), rows, lines))
    return cases


def cut_out_cases(random, count):
    """Things that random half-spaces cut out, the empty polytope too, by these half-spaces."""
    cases = []
    for number in range(count):
        is_polytope = number % 3 != 0
        cols = random.randint(1, 5)
        size = random.choice([1, 2, 3])
        rows = [row for row in (random_row(random, cols, -size, size) for _ in range(random.randint(1, 8))) if any(row)]
        if is_polytope and random.random() < 0.8:
            rows = [(abs(row[0]) + random.randint(0, 1),) + row[1:] for row in rows]
        equations = [row for row in [random_row(random, cols, -size, size)] if any(row)] if random.random() < 0.2 else []
        cases.append((is_polytope, Thing.cut_out(cols, rows, equations, is_polytope), rows, equations))
    return cases


def check_half_spaces(random, runs, cases):
    script = Script('by half-spaces')
    thinned = Script('half-spaces by linear programs', ['--rules', 'programs'], {'programs': BY_PROGRAMS})
    for is_polytope, thing, rows, equations in cases:
        halves = [('INEQUALITIES', with_cols(scaled(random, rows), thing.cols)), ('EQUATIONS', with_cols(equations, thing.cols))]
        ambient = [('CONE_AMBIENT_DIM', thing.cols)]
        takes(script, 'h', is_polytope, ambient + halves)
        asks(script, 'h', values(thing, is_polytope), is_polytope, thing)
        script.says('drop h')
        takes(thinned, 'h', is_polytope, ambient + halves)
        thinned.gives('h', 'FACETS', fractions_spelled(thing.facets))
        thinned.gives('h', 'AFFINE_HULL' if is_polytope else 'LINEAR_SPAN', fractions_spelled(thing.hull))
        if is_polytope:
            thinned.gives('h', 'FEASIBLE', truth(len(thing.hull) < thing.cols))
        thinned.says('drop h')
    runs.tries(script)
    runs.tries(thinned)


def check_spaces(random, runs, count):
    """Lists of up to eight rows with up to eight entries: their echelon basis, their rank, and the rows on which they vanish."""
    script = Script('spans of rows')
    for _ in range(count):
        cols = random.randint(1, 8)
        most = random.choice([1, 2, 5, 50])
        rows = [random_row(random, cols, -most, most) for _ in range(random.randint(0, 8))]
        if rows and random.random() < 0.3:
            rows.append(tuple(x - 2 * y for x, y in zip(rows[0], rows[-1])))
        basis, null = echelon(rows)[0], null_space(rows, cols)
        takes(script, 'c', False, [('CONE_AMBIENT_DIM', cols), ('POINTS', '[]'), ('INPUT_LINEALITY', with_cols(rows, cols))])
        for name, value in [('CONE_DIM', len(basis)), ('FACETS', '[]'), ('LINEAR_SPAN', fractions_spelled(null)), ('RAYS', '[]'), ('LINEALITY_SPACE', fractions_spelled(basis)),
                            ('LINEALITY_DIM', len(basis)), ('FULL_DIM', truth(not null)), ('POINTED', truth(not basis))]:
            script.gives('c', name, value)
        script.says('drop c')
        takes(script, 'd', False, [('CONE_AMBIENT_DIM', cols), ('INEQUALITIES', '[]'), ('EQUATIONS', with_cols(rows, cols))])
        for name, value in [('RAYS', '[]'), ('LINEALITY_SPACE', fractions_spelled(null)), ('FACETS', '[]'), ('LINEAR_SPAN', fractions_spelled(basis)), ('CONE_DIM', len(null))]:
            script.gives('d', name, value)
        script.says('drop d')
    runs.tries(script)
