"""Random linear programs over polytopes beside their vertices: by the standard book, and by each client alone."""
import json
from fractions import Fraction

from check_geometry import cut_out_cases, takes, with_cols
from exact import dot, primitive
from running import Script, fractions_spelled, spelled

# One way to each optimum: over facet rows with a dual, over inequalities, and over vertices.
BOOKS = {
    'facets': '''t : rule FACETS, AFFINE_HULL : INEQUALITIES, EQUATIONS { thin_inequalities_lp } weight 60;
a : rule LP.MAXIMAL_VALUE, LP.MAXIMAL_DUAL : FACETS, AFFINE_HULL, LP.LINEAR_OBJECTIVE { lp_max } weight 20;
b : rule LP.MINIMAL_VALUE, LP.MINIMAL_DUAL : FACETS, AFFINE_HULL, LP.LINEAR_OBJECTIVE { lp_min } weight 20;
''',
    'inequalities': '''a : rule LP.MAXIMAL_VALUE : INEQUALITIES, EQUATIONS, LP.LINEAR_OBJECTIVE { lp_max_rows } weight 25;
b : rule LP.MINIMAL_VALUE : INEQUALITIES, EQUATIONS, LP.LINEAR_OBJECTIVE { lp_min_rows } weight 25;
''',
    'vertices': '''d : rule VERTICES, LINEALITY_SPACE : INEQUALITIES, EQUATIONS { dd_vertices } weight 40;
a : rule LP.MAXIMAL_VALUE : VERTICES, LINEALITY_SPACE, LP.LINEAR_OBJECTIVE { lp_max_v } weight 6;
b : rule LP.MINIMAL_VALUE : VERTICES, LINEALITY_SPACE, LP.LINEAR_OBJECTIVE { lp_min_v } weight 6;
c : rule LP.MAXIMAL_FACE : VERTICES, LP.MAXIMAL_VALUE, LP.LINEAR_OBJECTIVE { lp_max_face } weight 3;
d2 : rule LP.MINIMAL_FACE : VERTICES, LP.MINIMAL_VALUE, LP.LINEAR_OBJECTIVE { lp_min_face } weight 3;
''',
}


def optimum(thing, objective):
    """The greatest value of the objective over the polytope: a fraction, or None and the text of an infinity."""
    if len(thing.hull) == thing.cols:
        return None, '-inf'
    if any(dot(objective, line) for line in thing.lineality) or any(dot(objective, ray) > 0 for ray in thing.rays if ray[0] == 0):
        return None, 'inf'
    value = max(Fraction(dot(objective, ray)) / ray[0] for ray in thing.rays if ray[0])
    return value, str(value)


def face(thing, objective, value):
    """The places of the rays on which the row of the value vanishes."""
    if value is None:
        return []
    row = (value - objective[0],) + tuple(-x for x in objective[1:])
    return [i for i, ray in enumerate(thing.rays) if dot(row, ray) == 0]


def is_dual(thing, objective, value):
    """Whether a reply has facet rows of different directions, ascending, whose sum shows that no value is greater."""
    facets = {tuple(dot(facet, ray) == 0 for ray in thing.rays) for facet in thing.facets}

    def shows(line):
        rows = [tuple(map(Fraction, row)) for row in json.loads(line.split(' ', 2)[2]) if isinstance(row, list)]
        if value is None:
            return rows == []
        total = [sum(column) for column in zip(*rows)] if rows else [Fraction(0)] * thing.cols
        rest = [x - y for x, y in zip(total, (value - objective[0],) + tuple(-x for x in objective[1:]))]
        vanishes = all(dot(rest, row) == 0 for row in thing.rays + thing.lineality)
        places = [tuple(dot(row, ray) == 0 for ray in thing.rays) for row in rows]
        valid = all(dot(row, ray) >= 0 for row in rows for ray in thing.rays) and all(dot(row, line) == 0 for row in rows for line in thing.lineality)
        whole = [primitive([int(x * denominator(row)) for x in row]) for row in rows]
        return vanishes and valid and set(places) <= facets and len(set(places)) == len(places) and whole == sorted(whole)
    return shows


def denominator(row):
    product = 1
    for x in row:
        product *= x.denominator
    return product


def random_objective(random, cols, size):
    return tuple(Fraction(random.randint(-size, size), random.choice([1, 1, 2, 3, 5])) for _ in range(cols))


def program_cases(random, count):
    cases = []
    for is_polytope, thing, rows, equations in cut_out_cases(random, count * 2):
        if is_polytope and len(cases) < count:
            objectives = [random_objective(random, thing.cols, size) for size in (1, 3)]
            if thing.facets:
                # one that is constant on a facet
                factor = Fraction(random.randint(-3, 3), 2)
                objectives.append(tuple(factor * x for x in random.choice(thing.facets)))
            cases.append((thing, rows, equations, objectives))
    return cases


def asks_optima(script, thing, objectives, with_dual, with_face):
    for place, objective in enumerate(objectives):
        name = 'p.' + 'abcd'[place]
        script.says(f'new {name} LP')
        script.says(f'take {name} LINEAR_OBJECTIVE {fractions_spelled([objective])[1:-1]}')
        for word, sign in (('MAXIMAL', 1), ('MINIMAL', -1)):
            turned = tuple(sign * x for x in objective)
            value, text = optimum(thing, turned)
            text = text if sign == 1 else {'inf': '-inf', '-inf': 'inf'}.get(text) or str(-value)
            script.gives(name, f'{word}_VALUE', f'"{text}"')
            if with_face:
                script.gives(name, f'{word}_FACE', spelled(face(thing, turned, value)))
            if with_dual:
                script.says(f'give {name} {word}_DUAL', is_dual(thing, turned, value))


def check_linear_programs(runs, cases):
    scripts = [(Script('linear programs'), True, True)]
    for name, book in BOOKS.items():
        scripts.append((Script(f'linear programs by {name}', ['--rules', name], {name: book}), name == 'facets', name == 'vertices'))
    for thing, rows, equations, objectives in cases:
        halves = [('CONE_AMBIENT_DIM', thing.cols), ('INEQUALITIES', with_cols(rows, thing.cols)), ('EQUATIONS', with_cols(equations, thing.cols))]
        for script, with_dual, with_face in scripts:
            takes(script, 'p', True, halves)
            asks_optima(script, thing, objectives, with_dual, with_face)
            script.says('drop p')
    for script, _, _ in scripts:
        runs.tries(script)


LARGE = 2 ** 100
# Inequalities, equations, the objective, and the reply; in the last four the objective is no small multiple of a whole row.
KNOWN = [
    ('[[0,1],[1,-1]]', '[]', '["1/2","-1/3"]', 'optimal 1/2'), ('[]', '[]', '["7/2",0]', 'optimal 7/2'), ('[]', '[]', '[0,-1]', 'unbounded'),
    ('[[0,1],[-1,-1]]', '[]', '[0,1]', 'infeasible'), ('[]', '[[-1,1,0],[-2,1,0]]', '[0,1,1]', 'infeasible'), ('[]', '[[-1,1,0],[-2,2,0]]', '[0,3,0]', 'optimal 3'),
    ('[[0,1,0],[0,0,1],[4,-1,-1],[9,-1,-3]]', '[]', '[0,1,2]', 'optimal 13/2'), ('[[0,1],[1,-1]]', '[]', f'[0,"1/{LARGE - 1}"]', f'optimal 1/{LARGE - 1}'),
    ('[[0,1,0],[1,-1,0]]', '[[0,0,1]]', f'[0,"1/{LARGE}","1/{LARGE - 1}"]', f'optimal 1/{LARGE}'),
    ('[[0,1,0],[0,0,1]]', '[]', f'[0,"1/{LARGE}","1/{LARGE - 1}"]', 'unbounded'), ('[[0,1,0],[-1,-1,0]]', '[]', f'[0,"1/{LARGE}","1/{LARGE - 1}"]', 'infeasible')]


def check_maximise(runs, cases):
    """The program that answers one linear program: its three lines of rows."""
    for inequalities, equations, objective, wanted in KNOWN:
        runs.wants(runs.run(f'{inequalities}\n{equations}\n[{objective}]\n'), (0, f'{wanted}\n'.encode()), f'maximise {objective} over {inequalities}, {equations}')
    for thing, rows, equations, objectives in cases:
        for objective in objectives:
            value, text = optimum(thing, objective)
            wanted = {'inf': 'unbounded', '-inf': 'infeasible'}.get(text) or f'optimal {text}'
            halves = [fractions_spelled(rows), fractions_spelled(equations), fractions_spelled([objective])]
            status, wrote = runs.run('\n'.join(halves) + '\n')
            runs.wants((status, wrote.decode()), (0, wanted + '\n'), f'maximise {halves}')
