"""The greatest sizes that are answered, and the first that are not: tables of plans, facets, products; and many rows that cut nothing off."""
import heapq
from math import cos, pi, sin

from check_plans import NUMBERS, Rule, weight_text
from running import Script, fractions_spelled, spelled

THINNED = {'thinned': 'i : rule FACETS, AFFINE_HULL : INEQUALITIES, EQUATIONS, VERTICES, LINEALITY_SPACE { thin_inequalities_v } weight 10;\n',
           'programs': 'i : rule FACETS, AFFINE_HULL : INEQUALITIES, EQUATIONS { thin_inequalities_lp } weight 60;\n'}


def tangents(first, second):
    """The tangent planes z >= 2 a x + 2 b y - a^2 - b^2 of a paraboloid at first * second grid points, and what they cut out: a vertex for
    each square of the grid, and four rays. All planes are facets, and so is the far face."""
    planes = [(a * a + b * b, -2 * a, -2 * b, 1) for a in range(first) for b in range(second)]
    vertices = [(1, x, y, 2 * a * x + 2 * b * y - a * a - b * b) for a in range(first - 1) for b in range(second - 1)
                for x, y in [(a + 0.5, b + 0.5)]]
    vertices = [(2, int(2 * x), int(2 * y), int(2 * z)) for _, x, y, z in vertices]
    rays = [(0, -1, 0, 0), (0, 0, -1, 0), (0, 1, 0, 2 * (first - 1)), (0, 0, 1, 2 * (second - 1))]
    return planes, vertices + rays


def check_facets(runs):
    """2,047 planes and the far face are answered; with 2,048 planes the far face is one too many."""
    script = Script('planes of a paraboloid', ['--rules', 'thinned'], THINNED)
    for name, first, second in [('p', 23, 89), ('q', 32, 64)]:
        planes, rays = tangents(first, second)
        script.says(f'new {name} Polytope')
        for prop, value in [('INEQUALITIES', fractions_spelled(planes)), ('EQUATIONS', '[]'), ('VERTICES', fractions_spelled(rays)), ('LINEALITY_SPACE', '[]')]:
            script.says(f'take {name} {prop} {value}')
        facets = sorted(planes + [(1, 0, 0, 0)])
        if len(facets) <= 2048:
            script.gives(name, 'FACETS', fractions_spelled(facets))
        else:
            script.says(f'give {name} FACETS', 'no 10 NoChain')
            script.commands.append(f'history {name}')
            script.wanted += ['rounds 1', 'round 10: i -> failed i E5', 'excluded i failed E5']
    status, wrote = runs.run('\n'.join(script.commands) + '\n', script.words, script.files)
    runs.wants((status, wrote.decode().split('\n')[:-1] == script.wanted), (1, True), f'{script.name}: {wrote[-80:]}')


def check_cube(random, runs, count):
    """The sides of a cube are left of many rows that cut nothing off, by linear programs alone."""
    sides = [tuple([1] + [sign if i == axis else 0 for i in range(6)]) for axis in range(6) for sign in (1, -1)]
    rows = list(sides)
    for _ in range(count):
        entries = [random.randint(-3, 3) for _ in range(6)]
        rows.append((sum(map(abs, entries)) + random.randint(0, 1), *entries))
    random.shuffle(rows)
    script = Script('rows around a cube', ['--rules', 'programs'], THINNED)
    script.says('new c Polytope')
    script.says(f'take c INEQUALITIES {fractions_spelled(rows)}')
    script.gives('c', 'FACETS', fractions_spelled(sorted(sides)))
    script.gives('c', 'AFFINE_HULL', '[]')
    runs.tries(script)


def pyramids(sides, below, beside):
    """A polygon on a parabola, a point above it, and points below it one under the other; if beside, a point beyond one side of the polygon.
    The point above makes a cell with each triangle of the polygon's placing, and so does the first below it; each further one sees as many
    facets as the polygon has sides, and the point beside sees two. There are never more facets than twice the sides and four."""
    polygon = [(1, t, t * t, 0) for t in range(sides)]
    x, y = sides // 2, sides * sides // 3
    points = polygon + [(1, x, y, 1)] + [(1, x, y, -2**k) for k in range(below)]
    cells = 2 * (sides - 2) + (below - 1) * sides
    if beside:
        points.append((4, 2, 1, 0))
        cells += 2
    return points, cells


def check_cells(runs):
    """2,048 cells are answered, and 2,049 are too many, of which the client shows a front."""
    script = Script('cells of pyramids')
    for name, sides, below, beside in [('p', 54, 37, False), ('q', 293, 6, True)]:
        points, cells = pyramids(sides, below, beside)
        script.says(f'new {name} Cone')
        script.says(f'take {name} RAYS {fractions_spelled(points)}')
        if cells <= 2048:
            script.says(f'ensure {name} PLACING_TRIANGULATION', 'ok 1')
            script.wanted.append('round 25: placing -> done')
        else:
            script.says(f'ensure {name} PLACING_TRIANGULATION', 'no 10 NoChain')
            script.wanted += ['round 25: placing -> failed placing E5', 'round 35: bb_facets_v -> failed bb_facets_v E5']
    status, wrote = runs.run('\n'.join(script.commands + ['give p PLACING_TRIANGULATION']) + '\n', script.words, script.files)
    lines = wrote.decode().split('\n')[:-1]
    runs.wants((status, lines[:-1]), (1, script.wanted), f'{script.name}: {wrote[-80:]}')
    runs.wants((lines[-1].count('[') - 1, lines[-1][-13:]), (2048, f',{{"cols":{54 + 38}}}]'), f'{script.name}: 2,048 cells')


def check_sites(runs):
    """Sites and heights are at most 2,048. Of 2,047 sites on a line the lifted rows have 2,046 lower facets and two upright ones; with one site more these are too many."""
    def sites(count):
        return spelled([[1, k] for k in range(count)])
    script = Script('sites')
    script.says('new p Polytope')
    script.says(f'take p SITES {sites(2049)}', 'no 6 BadValue limit')
    script.says(f'take p SITE_HEIGHTS {spelled([0] * 2049)}', 'no 6 BadValue limit')
    script.says(f'take p SITES {sites(2048)}')
    script.says(f'take p SITE_HEIGHTS {spelled([0] * 2047)}', 'no 6 BadValue columns')
    script.says(f'take p SITE_HEIGHTS {spelled([0] * 2048)}')
    script.gives('p', 'REGULAR_CELLS', spelled([list(range(2048))])[:-1] + ',{"cols":2048}]')
    script.says('ensure p DELAUNAY_CELLS', 'no 10 NoChain')
    script.wanted.append('round 45: delaunay -> failed delaunay E5')
    script.says('new q Polytope')
    script.says(f'take q SITES {sites(2047)}')
    script.gives('q', 'DELAUNAY_CELLS', spelled([[k, k + 1] for k in range(2046)])[:-1] + ',{"cols":2047}]')
    status, wrote = runs.run('\n'.join(script.commands) + '\n', script.words, script.files)
    runs.wants((status, wrote.decode().split('\n')[:-1]), (1, script.wanted), f'{script.name}: {wrote[-80:]}')


def wheel(count, at):
    """A complete fan of so many cones over a plane of four dimensions, whose other two are its lineality."""
    turns = [2 * pi * k / count for k in range(count)]
    rays = [[0] * at + [round(1000 * cos(x)), round(1000 * sin(x))] + [0] * (2 - at) for x in turns]
    lines = [[int(i == k) for i in range(4)] for k in range(4) if k not in (at, at + 1)]
    return spelled(rays), spelled(lines), spelled([[k, (k + 1) % count] for k in range(count)])


def check_refined(runs):
    """Of two fans over planes that share no line each cone of the one meets each of the other: 2,048 cones are made, and more are too many."""
    script = Script('refinements of wheels')
    for count, other, wanted in [(32, 64, 'ok'), (46, 45, 'no 17 NotFit rows')]:
        for name, values in [('a', wheel(count, 0)), ('b', wheel(other, 2))]:
            script.says(f'new {name} Fan')
            for prop, value in zip(['RAYS', 'LINEALITY_SPACE', 'MAXIMAL_CONES'], values):
                script.says(f'take {name} {prop} {value}')
        script.says('refine a b c', wanted)
        if wanted == 'ok':
            script.gives('c', 'N_MAXIMAL_CONES', str(count * other))
            script.gives('c', 'N_RAYS', str(count + other))
            script.says('drop c')
        for name in 'ab':
            script.says(f'drop {name}')
    runs.tries(script)


def equal_rows(count):
    return '[' + ','.join(['[1,1]'] * count) + ']'


def check_built(runs):
    """New objects of given values: the first condition that does not hold, and how many columns and rows there may be."""
    script = Script('new objects')

    def has(name, of, **values):
        script.says(f'new {name} {of}')
        for prop, value in values.items():
            script.says(f'take {name} {prop} {value}')

    def makes(command, wanted, **told):
        script.says(f'{command} new', wanted)
        for prop, value in told.items():
            script.says(f'lookup new {prop}', f'new {prop} {value}')
        script.says('drop new', 'ok' if wanted == 'ok' else 'no 2 UnknownName')

    # of polars: BOUNDED, FULL_DIM, CENTERED, and the rows, which are the points as they are given
    has('a', 'Polytope', FACETS='[[1,1,0],["1/2","-1/2",0],[1,0,1],[2,0,-2]]', BOUNDED='true', FULL_DIM='true', CENTERED='true')
    makes('polar a', 'ok', POINTS='[["1","1","0"],["1/2","-1/2","0"],["1","0","1"],["2","0","-2"]]')
    for truths, wanted in [('fff', 'BOUNDED'), ('ftt', 'BOUNDED'), ('tff', 'FULL_DIM'), ('tft', 'FULL_DIM'), ('ttf', 'CENTERED'), ('ttt', 'rows')]:
        bounded, full_dim, centered = ({'t': 'true', 'f': 'false'}[x] for x in truths)
        has('b', 'Polytope', FACETS='[[1,1],[-1,-1]]', BOUNDED=bounded, FULL_DIM=full_dim, CENTERED=centered)
        makes('polar b', f'no 17 NotFit {wanted}')
        script.says('drop b')
    # of products: the type, the columns, of which 33 are the most, and the rows, of which 2,048 are the most
    has('s', 'Polytope', CONE_AMBIENT_DIM='2', FACETS='[[0,1],[1,-1]]', AFFINE_HULL='[]')
    has('t', 'Polytope', CONE_AMBIENT_DIM='2', FACETS='[[0,"2/3"]]', AFFINE_HULL='[[1,-2]]')
    makes('product s s', 'ok', EQUATIONS='[]', INEQUALITIES='[["0","1","0"],["1","-1","0"],["0","0","1"],["1","0","-1"]]')
    makes('product s t', 'ok', EQUATIONS='[["1","0","-2"]]', INEQUALITIES='[["0","1","0"],["1","-1","0"],["0","0","2/3"]]')
    makes('product t s', 'ok', EQUATIONS='[["1","-2","0"]]', INEQUALITIES='[["0","2/3","0"],["0","0","1"],["1","0","-1"]]')
    has('k', 'Cone', CONE_AMBIENT_DIM='33')
    for cols in (32, 33):
        has(f'c{cols}', 'Polytope', CONE_AMBIENT_DIM=cols, FACETS='[]', AFFINE_HULL='[]')
        for pair in (f's c{cols}', f'c{cols} s'):
            makes(f'product {pair}', 'ok' if cols == 32 else 'no 17 NotFit columns')
    for pair in ('s k', 'k s', 'k k'):
        makes(f'product {pair}', 'no 17 NotFit type')
    for count in (1024, 1025):
        has(f'f{count}', 'Polytope', CONE_AMBIENT_DIM=2, FACETS=equal_rows(count), AFFINE_HULL='[]')
        has(f'h{count}', 'Polytope', CONE_AMBIENT_DIM=2, FACETS='[]', AFFINE_HULL=equal_rows(count))
    for pair, wanted in [('f1024 f1024', 'ok'), ('h1024 h1024', 'ok'), ('f1025 h1025', 'ok'), ('f1024 f1025', 'no 17 NotFit rows'), ('h1025 h1024', 'no 17 NotFit rows'),
                         ('f1024 c33', 'no 17 NotFit columns'), ('h1025 c33', 'no 17 NotFit columns')]:
        makes(f'product {pair}', wanted)
    # of pyramids: the apex is the last row
    for cols, vertices, lines, wanted in [(3, '[[2,0,"1/3"]]', '[[0,1,0]]', '[["2","0","1/3","0"],["1","0","0","1"]]'), (1, '[[1]]', '[]', '[["1","0"],["1","1"]]'),
                                          (2, '[]', '[]', '[["1","0","1"]]'), (32, '[]', '[]', None), (33, '[]', '[]', 'columns'),
                                          (2, equal_rows(2047), '[]', None), (2, equal_rows(2048), '[]', 'rows')]:
        has('v', 'Polytope', CONE_AMBIENT_DIM=cols, VERTICES=vertices, LINEALITY_SPACE=lines)
        told = {'POINTS': wanted} if wanted and wanted[0] == '[' else {}
        makes('pyramid v', f'no 17 NotFit {wanted}' if wanted and not told else 'ok', **told)
        script.says('drop v')
    makes('pyramid k', 'no 17 NotFit type')
    makes('polar k', 'no 17 NotFit type')
    runs.tries(script)


def check_shapes(runs):
    """Standard polytopes by their rows, of every dimension and count that is near a limit."""
    script = Script('shapes')

    def unit(d, i, x):
        return [1] + [x if k == i else 0 for k in range(d)]

    for d in (1, 2, 3, 7, 31, 32):
        for shape, prop, rows in [('cube', 'INEQUALITIES', [unit(d, i, x) for i in range(d) for x in (1, -1)]),
                                  ('simplex', 'POINTS', [unit(d, 0, 0)] + [unit(d, i, 1) for i in range(d)]),
                                  ('cross', 'POINTS', [unit(d, i, x) for i in range(d) for x in (1, -1)])]:
            script.says(f'make c {shape} {d}')
            script.says(f'lookup c {prop}', f'c {prop} {fractions_spelled(rows)}')
            script.says(f'lookup c {"POINTS" if prop == "INEQUALITIES" else "INEQUALITIES"}', 'undef')
            script.says('drop c')
    for shape in ('cube', 'simplex', 'cross'):
        script.says(f'make c {shape} 33', 'no 17 NotFit size')
    for d in range(1, 34):
        for n in sorted({d, d + 1, d + 2, 2048, 2049, *(n for n in range(d + 1, 2050) if (n ** d < 2 ** 127) != ((n + 1) ** d < 2 ** 127) or (n ** d < 2 ** 127) != ((n - 1) ** d < 2 ** 127))}):
            fits = d <= 32 and d < n <= 2048 and n ** d < 2 ** 127
            script.says(f'make c cyclic {d} {n}', 'ok' if fits else 'no 17 NotFit size')
            if fits:
                script.says('lookup c POINTS', f'c POINTS {fractions_spelled([[t ** k for k in range(d + 1)] for t in range(1, n + 1)])}')
                script.says('drop c')
    runs.tries(script)


# N_VERTICES is found at once, or after all truth values; beside it three names are asked that take some rules each.
TABLE_CLIENTS = '''hull_from_vertices points_from_vertices inequalities_from_facets cone_dim_v cone_dim_span cone_dim_points lineality_dim combinatorial_dim
feasible feasible_lp bounded pointed full_dim centered incidence vertex_sizes facet_sizes simple simplicial faces f2_vector graph_of_sets graph_of_faces diameter
dual_graph dual_diameter'''
TABLE_ASKED = ['N_VERTICES', 'F2_VECTOR', 'DIAMETER', 'DUAL_DIAMETER']
TABLE_TRUTHS = {'FEASIBLE', 'BOUNDED', 'POINTED', 'FULL_DIM', 'CENTERED', 'SIMPLE', 'SIMPLICIAL'}
MOST_ROWS = 65536


def bits(names):
    return sum(1 << NUMBERS[name] for name in names)


def table_book(random, standard, weight):
    """The rules, of which the one that finds N_VERTICES at once has this weight."""
    of = {rule.client: rule for rule in standard}
    rules = [Rule(client, client, of[client].targets, of[client].sources, (0, random.randint(1, 30000)), set(), set()) for client in TABLE_CLIENTS.split()]
    rules.append(Rule('late', 'n_vertices_sets', {'N_VERTICES'}, {'VERTICES_IN_FACETS'}, (2, 0), TABLE_TRUTHS, set()))
    rules.append(Rule('early', 'n_vertices', {'N_VERTICES'}, {'VERTICES'}, (0, weight), set(), set()))
    return rules


def table_rows(rules, held, asked):
    """The least cost, and the rows below it in order, by Dijkstra's search from the held names. All rules have class 0 but the one named late."""
    steps = [(bits(rule.targets), bits(rule.inputs), bits(rule.blocked), rule.weight[0] * 10 ** 9 + rule.weight[1]) for rule in rules]
    settled, waiting, best = [], [(0, held)], {held: 0}
    while waiting:
        cost, names = heapq.heappop(waiting)
        if best[names] < cost:
            continue
        if names & asked == asked:
            return cost, [row for row in settled if row[0] < cost]
        settled.append((cost, names))
        for targets, inputs, blocked, weight in steps:
            if names & inputs == inputs and not names & blocked and names & targets != targets:
                after = names | targets
                if cost + weight < best.get(after, 10 ** 18):
                    best[after] = cost + weight
                    heapq.heappush(waiting, (cost + weight, after))
    return None, settled


# With these weights of the rule that finds N_VERTICES at once there are as many rows as there may be, and one more.
TABLE_WEIGHTS = (123153, 123154)


def table_cases(random, standard):
    """Two books with one weight apart: the greatest table that may be, and one that would have more rows."""
    held, asked = bits(['CONE_AMBIENT_DIM', 'VERTICES', 'LINEALITY_SPACE', 'FACETS']), bits(TABLE_ASKED)
    found = []
    others = random.getstate()
    for weight in TABLE_WEIGHTS:
        random.setstate(others)
        rules = table_book(random, standard, weight)
        found.append((rules, *table_rows(rules, held, asked)))
    return found


def check_table(runs, books):
    """A plan is answered whose table has 65,536 rows, and none where it would have more: there the first 65,536 are told."""
    for rules, cost, rows in books:
        commands = ['new p Polytope', 'take p VERTICES [[1,0],[1,1]]', 'take p LINEALITY_SPACE []', 'take p FACETS [[0,1],[1,-1]]',
                    'explain p ' + ' '.join(TABLE_ASKED)]
        book = '\n'.join(rule.text() for rule in rules) + '\n'
        status, wrote = runs.run('\n'.join(commands) + '\n', ['--rules', 'book'], {'book': book})
        lines = wrote.decode().split('\n')[:-1]
        shown = [f'row {weight_text(divmod(one, 10 ** 9))} {names:032x}' for one, names in rows[:MOST_ROWS]]
        is_answered = len(rows) <= MOST_ROWS
        runs.wants((status, lines[4]), (0, f'plan {cost}') if is_answered else (1, 'no 11 Crowded'), f'a table of {len(rows)} rows')
        runs.wants([line for line in lines if line.startswith('row ')] == shown, True, f'the rows of a table of {len(rows)}')


A, B, C = 2 ** 126, 2 ** 65, 2 ** 63
# Rows of whose elimination a step leaves the range, at once, behind a row of zeros, and among the rows that null spaces are made of.
NEXT, OLDER, EXTENDED = f'[[3,"{A}"],[5,1]]', f'[[0,0,0],[1,3,"{A}"],[0,-5,1]]', f'[["{A + 1}","{A - 1}"]]'
# Rows of which the first and the last determine (2^63, -1, 0), whose product with the second is 2^128.
DETERMINING = f'[[0,0,1],["{B}",0,1],[1,"{C}",0]]'
# A rule, an object with what is given to it, what is asked, and the evidence with which the rule fails: of an elimination (E1), or of a product of two rows (E4).
FAILING = [
    ('CONE_DIM : POINTS, INPUT_LINEALITY { cone_dim_points }', 'Cone', {'INPUT_RAYS': NEXT, 'INPUT_LINEALITY': '[]'}, 'CONE_DIM', 'E1'),
    ('CONE_DIM : POINTS, INPUT_LINEALITY { cone_dim_points }', 'Cone', {'INPUT_RAYS': OLDER, 'INPUT_LINEALITY': '[]'}, 'CONE_DIM', 'E1'),
    ('AFFINE_HULL : VERTICES, LINEALITY_SPACE { hull_from_vertices }', 'Cone', {'RAYS': NEXT, 'LINEALITY_SPACE': '[]'}, 'LINEAR_SPAN', 'E1'),
    ('AFFINE_HULL : VERTICES, LINEALITY_SPACE { hull_from_vertices }', 'Cone', {'RAYS': EXTENDED, 'LINEALITY_SPACE': '[]'}, 'LINEAR_SPAN', 'E1'),
    ('LINEALITY_SPACE : FACETS, AFFINE_HULL { lineality_from_facets }', 'Cone', {'FACETS': EXTENDED, 'LINEAR_SPAN': '[]'}, 'LINEALITY_SPACE', 'E1'),
    ('VERTICES, LINEALITY_SPACE : POINTS, INPUT_LINEALITY, FACETS, AFFINE_HULL { thin_points_f }', 'Polytope',
     {'POINTS': f'[[1,0],[1,"{B}"]]', 'INPUT_LINEALITY': '[]', 'FACETS': f'[[0,1],[1,"{C}"]]', 'AFFINE_HULL': '[]'}, 'VERTICES', 'E4'),
    ('VERTICES, LINEALITY_SPACE : POINTS, INPUT_LINEALITY, FACETS, AFFINE_HULL { thin_points_f }', 'Cone',
     {'INPUT_RAYS': '[]', 'INPUT_LINEALITY': NEXT, 'FACETS': '[]', 'LINEAR_SPAN': '[]'}, 'RAYS', 'E1'),
    ('VERTICES, LINEALITY_SPACE : POINTS, INPUT_LINEALITY, FACETS, AFFINE_HULL { thin_points_f }', 'Cone',
     {'INPUT_RAYS': '[[5,1]]', 'INPUT_LINEALITY': f'[[3,"{A}"]]', 'FACETS': '[[5,1]]', 'LINEAR_SPAN': f'[[3,"{A}"]]'}, 'RAYS', 'E1'),
    ('FACETS, AFFINE_HULL : INEQUALITIES, EQUATIONS, VERTICES, LINEALITY_SPACE { thin_inequalities_v }', 'Polytope',
     {'INEQUALITIES': f'[[0,1],[1,"{C}"]]', 'EQUATIONS': '[]', 'VERTICES': f'[[1,0],[1,"{B}"]]', 'LINEALITY_SPACE': '[]'}, 'FACETS', 'E4'),
    ('FACETS, AFFINE_HULL : INEQUALITIES, EQUATIONS, VERTICES, LINEALITY_SPACE { thin_inequalities_v }', 'Cone',
     {'INEQUALITIES': '[]', 'EQUATIONS': NEXT, 'RAYS': '[]', 'LINEALITY_SPACE': NEXT}, 'FACETS', 'E1'),
    ('FACETS, AFFINE_HULL : INEQUALITIES, EQUATIONS, VERTICES, LINEALITY_SPACE { thin_inequalities_v }', 'Cone',
     {'INEQUALITIES': '[[5,1]]', 'EQUATIONS': f'[[3,"{A}"]]', 'RAYS': '[[5,1]]', 'LINEALITY_SPACE': f'[[3,"{A}"]]'}, 'FACETS', 'E1'),
    ('VERTICES, LINEALITY_SPACE : POINTS, INPUT_LINEALITY { thin_points_lp }', 'Cone', {'INPUT_RAYS': '[]', 'INPUT_LINEALITY': NEXT}, 'RAYS', 'E1'),
    ('FACETS, AFFINE_HULL : INEQUALITIES, EQUATIONS { thin_inequalities_lp }', 'Cone', {'INEQUALITIES': '[]', 'EQUATIONS': NEXT}, 'FACETS', 'E1'),
    ('VERTICES : FACETS, AFFINE_HULL, VERTICES_IN_FACETS { vertices_from_sets }', 'Cone',
     {'FACETS': DETERMINING, 'LINEAR_SPAN': '[]', 'RAYS_IN_FACETS': '[[0],[],[0]]'}, 'RAYS', 'E4'),
    ('VERTICES : FACETS, AFFINE_HULL, VERTICES_IN_FACETS { vertices_from_sets }', 'Cone', {'FACETS': NEXT, 'LINEAR_SPAN': '[]', 'RAYS_IN_FACETS': '[{"cols":0}]'}, 'RAYS', 'E1'),
    ('FACETS : VERTICES, LINEALITY_SPACE, VERTICES_IN_FACETS { facets_from_sets }', 'Cone',
     {'RAYS': DETERMINING, 'LINEALITY_SPACE': '[]', 'RAYS_IN_FACETS': '[[0,2],{"cols":3}]'}, 'FACETS', 'E4'),
    ('FACETS : VERTICES, LINEALITY_SPACE, VERTICES_IN_FACETS { facets_from_sets }', 'Cone', {'RAYS': NEXT, 'LINEALITY_SPACE': '[]', 'RAYS_IN_FACETS': '[{"cols":0}]'}, 'FACETS', 'E1'),
    ('LP.MAXIMAL_VALUE : VERTICES, LINEALITY_SPACE, LP.LINEAR_OBJECTIVE { lp_max_v }', 'LP', {'VERTICES': f'[[1,"{A}"]]', 'LINEALITY_SPACE': '[]', 'LINEAR_OBJECTIVE': '[1,2]'}, 'MAXIMAL_VALUE', 'E4'),
    ('LP.MAXIMAL_VALUE : VERTICES, LINEALITY_SPACE, LP.LINEAR_OBJECTIVE { lp_max_v }', 'LP', {'VERTICES': '[[3,1]]', 'LINEALITY_SPACE': '[]', 'LINEAR_OBJECTIVE': f'[0,"1/{A}"]'}, 'MAXIMAL_VALUE', 'E4'),
]


def check_failing(runs):
    """Each rule alone in a book, over rows with which it fails: the round, and why the rule is barred from then on."""
    for rule, of, values, asked, evidence in FAILING:
        label = rule.split('{ ')[1].split(' ')[0]
        where = ' @a' if of == 'LP' else ''
        commands = [f'new p {"Polytope" if of == "LP" else of}']
        for prop, value in values.items():
            commands += ['new p.a LP', f'take p.a {prop} {value}'] if prop == 'LINEAR_OBJECTIVE' else [f'take p {prop} {value}']
        wanted = ['ok'] * len(commands) + ['no 10 NoChain', f'round 7{where}: {label} -> failed {label} {evidence}', 'rounds 1', f'round 7{where}: {label} -> failed {label} {evidence}',
                                           f'excluded {label} failed {evidence}{where}']
        commands += [f'ensure p{".a" if where else ""} {asked}', 'history p']
        status, wrote = runs.run('\n'.join(commands) + '\n', ['--rules', 'book'], {'book': f'{label} : rule {rule} weight 7;\n'})
        runs.wants((status, wrote.decode().split('\n')[:-1]), (1, wanted), f'a rule that fails: {commands}')
