"""Texts that the program reads and writes: fractions, JSON, names, words, books, data files, and lines as they come."""
import json
import re
import subprocess
import time
from fractions import Fraction
from math import gcd, lcm

from check_plans import GIVEN, OF_FANS, TAGS, TRUTHS
from running import Script, fractions_spelled, sets_spelled, spelled, truth

MOST = 2 ** 127 - 1
FRACTION_TEXTS = ['', '-', '+1', '1/', '/1', '--1', '1/-2', '1/2/3', ' 1', '1 ', '1 /2', '0x10', '1.5', '²', '1/0', '-0/000', '007/2', '-0', '0/5', '-6/004',
                  f'{MOST}', f'-00{MOST}/1', f'{MOST + 1}', f'1/{MOST + 1}', f'{2 ** 128}/2', '1234567890123456789012345678901234567890',
                  '1234567890123456789012345678901234567890/0', '1234567890123456789012345678901234567890/x', '0/1234567890123456789012345678901234567890',
                  '2/-4', f'-{MOST}/{MOST}', f'{MOST}/{MOST - 1}', f'-{2 ** 126}/{2 ** 127 - 2}']


def read_fraction(text):
    """The fraction that a text is read as, or None: digits, maybe behind a `-` and before a `/` with digits, each at most 2^127 - 1."""
    if not re.fullmatch('-?[0-9]+(/[0-9]+)?', text, re.ASCII):
        return None
    top, _, bottom = text.partition('/')
    top, bottom = int(top), int(bottom or '1')
    return Fraction(top, bottom) if bottom and max(abs(top), bottom) <= MOST else None


def random_number(random):
    """A whole number near an end of the range, near a power of two, or small."""
    around = random.choice([MOST, 2 ** random.randint(1, 127), 2 ** 64, random.randint(0, MOST), random.randint(0, 20)])
    return max(0, around + random.randint(-2, 2))


def random_text(random):
    text = random.choice(['', '', '-', '-']) + random.choice(['', '', '0', '00']) + str(random_number(random))
    return text + random.choice(['', '/' + random.choice(['', '0', '000']) + str(random_number(random))])


def check_fractions(random, runs, count):
    """Each text as the one entry of a row, and rows whose primitive whole row may leave the range."""
    script = Script('fractions')
    for text in FRACTION_TEXTS + [random_text(random) for _ in range(count)]:
        number = read_fraction(text)
        script.says('new c Cone')
        script.says(f'take c INEQUALITIES [[{json.dumps(text, ensure_ascii=False)}]]', 'no 6 BadValue number' if number is None else 'ok')
        script.says('lookup c INEQUALITIES', 'undef' if number is None else f'c INEQUALITIES [["{number}"]]')
        script.says('drop c')
    for _ in range(count):
        row = [number for number in (read_fraction(random_text(random)) for _ in range(random.randint(2, 4))) if number is not None]
        least = lcm(*(number.denominator for number in row))
        whole = [int(number * least) for number in row]
        if not row or gcd(*whole) != 1:
            continue
        fits = max(map(abs, whole + [least])) <= MOST
        script.says('new c Cone')
        script.says(f'take c INEQUALITIES {fractions_spelled([row])}', 'ok' if fits else 'no 6 BadValue row')
        script.says('lookup c INEQUALITIES', f'c INEQUALITIES {fractions_spelled([row])}' if fits else 'undef')
        script.says('drop c')
    runs.tries(script)


def spelled_matrix(random, rows):
    """A matrix of fractions in one of the ways in which it may be given."""
    def entry(x):
        if x.denominator == 1 and abs(x.numerator) < 2 ** 63 and random.random() < 0.5:
            return str(x.numerator)
        factor = random.choice([1, 1, 2, 3]) if max(abs(x.numerator), x.denominator) < 2 ** 120 else 1
        top, bottom = x.numerator * factor, x.denominator * factor
        return f'"{top}"' if bottom == 1 else f'"{top}/{bottom}"'
    return '[' + ','.join('[' + ','.join(map(entry, row)) + ']' for row in rows) + ']'


def random_value(random, name):
    """A value of a property of a polytope in the plane, as it may be given, and as it is written."""
    if name in ('POINTS', 'VERTICES', 'INPUT_LINEALITY', 'LINEALITY_SPACE', 'INEQUALITIES', 'EQUATIONS', 'FACETS', 'AFFINE_HULL', 'SITES'):
        first = {'POINTS': 1, 'VERTICES': 1, 'SITES': 1, 'INPUT_LINEALITY': 0, 'LINEALITY_SPACE': 0}.get(name, random.randint(-2, 2))
        rows = [[Fraction(first)] + [Fraction(random.randint(-9, 9), random.randint(1, 9)) for _ in range(2)] for _ in range(random.randint(0, 4))]
        rows = [row for row in rows if any(row)]
        return spelled_matrix(random, rows), fractions_spelled(rows)
    if name in ('VERTICES_IN_FACETS', 'PLACING_TRIANGULATION', 'REGULAR_CELLS', 'DELAUNAY_CELLS'):
        sets = [random.sample(range(6), random.randint(0, 4)) for _ in range(random.randint(0, 4))]
        count = random.choice([6, 9, max((i + 1 for one in sets for i in one), default=0)])
        return sets_spelled(sets, count), sets_spelled([sorted(one) for one in sets], count)
    if name == 'SITE_HEIGHTS':
        heights = [Fraction(random.randint(-9, 9), random.randint(1, 9)) for _ in range(random.randint(0, 5))]
        return spelled_matrix(random, [heights])[1:-1], fractions_spelled([heights])[1:-1]
    if name == 'F2_VECTOR':
        rows = [[Fraction(random.randint(0, 99)) for _ in range(3)] for _ in range(3)]
        return spelled_matrix(random, rows), fractions_spelled(rows)
    if name in ('VERTEX_SIZES', 'FACET_SIZES', 'F_VECTOR', 'H_VECTOR', 'VERTEX_DEGREES'):
        numbers = [random.randint(0, 10 ** random.randint(1, 18)) for _ in range(random.randint(0, 5))]
        return '[' + ','.join(random.choice(['{}', '"{}"']).format(x) for x in numbers) + ']', spelled(numbers)
    if name in TRUTHS:
        return (truth(random.random() < 0.5),) * 2
    if name in ('CONE_DIM', 'LINEALITY_DIM', 'COMBINATORIAL_DIM', 'N_VERTICES', 'N_FACETS', 'DIAMETER', 'DUAL_DIAMETER', 'N_EDGES', 'N_RIDGES'):
        return (str(random.randint(-1, 10 ** random.randint(0, 18))),) * 2
    return GIVEN[name], GIVEN[name]


def blanks(random, text):
    """JSON with blanks between its tokens."""
    return ''.join(token + random.choice(['', '', ' ', '\t']) for token in re.findall(r'"[^"]*"|[^"\[\]{},:]+|.', text))


def check_values(random, runs, count):
    """Values of each kind, as they are given and as they are written."""
    script = Script('values')
    for _ in range(count):
        name = random.choice(list(GIVEN) + TRUTHS + ['H_VECTOR'])
        given, written = random_value(random, name)
        script.says('new p Polytope')
        script.says(f'take p {name} {given}')
        script.says(f'lookup p {name}', f'p {name} {written}')
        script.says('drop p')
    runs.tries(script)


def check_json(random, runs, count):
    """Values of which a byte or two were changed: refused as `json` exactly where they are no JSON."""
    script = Script('JSON')
    for _ in range(count):
        text = list(random_value(random, random.choice(['POINTS', 'VERTICES_IN_FACETS', 'F_VECTOR', 'POINTED', 'CONE_DIM', 'HASSE_DIAGRAM']))[0])
        for _ in range(random.choice([1, 1, 2, 3])):
            place = random.randint(0, len(text))
            text[place:place + random.randint(0, 1)] = random.choice(['', '[', ']', '{', '}', ',', ':', '"', '-', '.', '0', '1', 'x', 'true', 'null', '\\', '/'])
        text = ''.join(text)
        if not text or text[0] == ' ':
            continue
        try:
            json.loads(text)
            is_json = True
        except ValueError:
            is_json = False
        script.says('new p Polytope')
        script.says(f'take p POINTS {text}', lambda line, is_json=is_json: (line == 'no 6 BadValue json') == (not is_json))
        script.says('drop p')
    runs.tries(script)


OF_CONES = {'POINTS': 'INPUT_RAYS', 'VERTICES': 'RAYS', 'N_VERTICES': 'N_RAYS', 'AFFINE_HULL': 'LINEAR_SPAN', 'VERTICES_IN_FACETS': 'RAYS_IN_FACETS',
            'VERTEX_SIZES': 'RAY_SIZES', 'VERTEX_DEGREES': 'RAY_DEGREES'}
OF_POLYTOPES = {'FEASIBLE', 'BOUNDED', 'CENTERED', 'H_VECTOR', 'FAR_FACE', 'SITES', 'SITE_HEIGHTS', 'REGULAR_CELLS', 'DELAUNAY_CELLS'}
FANS = {'FAN_AMBIENT_DIM', 'RAYS', 'LINEALITY_SPACE', 'LINEALITY_DIM', 'N_RAYS', 'POINTED', 'SIMPLICIAL'} | OF_FANS


def check_names(runs):
    """Each name, and some that are none, on an object of each type and on a linear program."""
    plain = {name for name in TAGS if not name.startswith('LP.')} - OF_FANS
    tables = {'p': plain, 'c': {OF_CONES.get(name, name) for name in plain - OF_POLYTOPES}, 'f': FANS, 'p.a': {name[3:] for name in TAGS if name.startswith('LP.')}}
    every = sorted(set(TAGS) | set().union(*tables.values()))
    script = Script('names of properties')
    for command in ['new p Polytope', 'new c Cone', 'new f Fan', 'new p.a LP']:
        script.says(command)
    for of, names in tables.items():
        for name in every + ['NOTHING', 'VERTICE', 'VERTICES_', 'FACETSX', 'H', 'LP', 'N_POINTS']:
            if '.' not in name:
                script.says(f'lookup {of} {name}', 'undef' if name in names else 'no 5 UnknownProperty')
    runs.tries(script)


LETTERS = 'abcdefghijklmnopqrstuvwxyz'
WORDS = ['a', 'Z_9', '_a', '9a', 'a-b', 'ä', '', LETTERS + '_12345', LETTERS + '_123456', 'a.b', 'a/b', '.', '..', '.a', '-a', '_', '9', 'book-1.txt', '_..a', 'a b',
         '0123456789' * 6 + '0123', '0123456789' * 6 + '01234']


def check_words_of_commands(random, runs, count):
    """Which words name an object, and which a file."""
    script = Script('words')
    words = WORDS + [''.join(random.choice(LETTERS[:3] + 'A09_.-/') for _ in range(random.randint(1, 5))) for _ in range(count)]
    script.says('new object Cone')
    for word in words:
        if '.' not in word:
            is_name = re.fullmatch('[A-Za-z][A-Za-z0-9_]{0,31}', word, re.ASCII)
            script.says(f'new {word} Cone', 'ok' if is_name else 'no 1 BadCommand')
            script.says(f'drop {word}', 'ok' if is_name else 'no 1 BadCommand')
        is_file = re.fullmatch('[A-Za-z0-9_][A-Za-z0-9_.-]{0,63}', word, re.ASCII)
        script.says(f'save object {word}', 'ok' if is_file else 'no 1 BadCommand')
        script.says(f'load other {word}', 'ok' if is_file else 'no 1 BadCommand')
        script.says('drop other', 'ok' if is_file else 'no 2 UnknownName')
    runs.tries(script)


BOOK = 'n_facets : rule N_FACETS : FACETS { n_facets } weight 1;\n'
# Words of the program, and what they say: whether a book of one rule, whether rounds are traced, and the number of the demo; or that they are refused.
SAID = [
    ('', (False, False, None)), ('--trace', (False, True, None)), ('--rules a', (True, False, None)), ('--rules=book-1.txt', (True, False, None)),
    ('--trace --rules a', (True, True, None)), ('--trace --rules=a', (True, True, None)), ('--rules a --trace', (True, True, None)), ('--rules=a --trace', (True, True, None)),
    ('--demo 1', (False, False, 1)), ('--demo=4', (False, False, 4)), ('--demo 3 --trace', (False, True, 3)), ('--rules a --demo 4 --trace', (True, True, 4)),
    ('--trace --demo=4 --rules=a', (True, True, 4)), ('--demo 4 --trace --rules a', (True, True, 4))]
REFUSED = ['--rules=a=b', '--', '-- --trace', '-h', '--help', '-V', '--version', 'help', 'a', '--trace a', '--trace=', '--trace=1', '--trac', '-trace', '--trace --trace',
           '--rules', '--rules=', '--rules --trace', '--rules -a', '--rules=-a', '--rules -- a', '--rules .a', '--rules a/b', '--rules a b', '--rules a --rules a',
           '--rules=a --rules=b', '--rules a --rules=a', '--demo', '--demo=', '--demo 0', '--demo 9', '--demo 01', '--demo=10', '--demo=+1', '--demo -1', '--demo a',
           '--demo --trace', '--demo 1 2', '--demo 1 --demo 1', '--demo=1 --demo=2', '--dem 1', '--demo 1 --rules a --trace --trace']


def check_words_of_program(runs):
    script = 'rules\nnew s Polytope\ntake s FACETS [[0,1],[2,-1]]\ngive s N_FACETS\n'
    files = {'a': BOOK, 'b': BOOK, 'book-1.txt': BOOK, '.a': BOOK, '-a': BOOK, 'a=b': BOOK}
    for words, (has_book, is_traced, demo) in SAID:
        status, wrote = runs.run(script, words.split(), files)
        lines = wrote.decode().split('\n')
        if demo is None:
            runs.wants((status, lines[0]), (0, 'rules 1' if has_book else 'rules 65'), f'the words {words}')
        else:
            # with a book of one rule the vertices of the demo are not found
            runs.wants(f'a N_VERTICES {2 ** demo}' in lines, not has_book, f'the words {words}')
            runs.wants(status, 1 if has_book else 0, f'the words {words}')
        has_rounds = any(line.startswith('round ') for line in lines)
        runs.wants(has_rounds, is_traced and not (has_book and demo), f'rounds by the words {words}')
    for words in [words.split(' ') for words in REFUSED] + [[''], ['--rules', ''], ['--demo', '']]:
        runs.wants(runs.run(script, words, files), (2, b''), f'the words {words}')


VALID = 'a : rule CONE_DIM : VERTICES, LINEALITY_SPACE { cone_dim_v } weight 1;'
H_RULE = 'a : rule H_VECTOR : F_VECTOR, COMBINATORIAL_DIM { h_vector } weight 2; precondition : '
# Books, and whether they have a fault.
BOOKS = [
    ('', True), ('# nothing but a comment', True), (VALID, True), (VALID.replace(' 1;', ' 007.1000000;'), True), (H_RULE + 'BOUNDED, SIMPLICIAL;', True),
    (VALID.replace('VERTICES', 'RAYS'), True), (VALID.replace('{ cone_dim_v } ', '{cone_dim_v}'), True), (VALID.replace(' 1;', '1;'), False), (VALID.replace('a :', 'abcdefghijklmnopqrstuvwxyz012345:'), True), (VALID + '# é', True),
    ('a : rule CONE_DIM : VERTICES { nosuch } weight 1;', False), ('a : rule CONE_DIM : VERTICES { cone_dim_v } weight 1;', False),
    ('a : rule CONE_DIM : VERTICES { cone_dim_v } weight 0;', False), ('a : rule CONE_DIM : V', False), ('a : rule CONE_DIM : ', False),
    (VALID.replace(' 1;', ' 0.0;'), False), (VALID.replace(' 1;', ' 1000001;'), False), (VALID.replace(' 1;', ' 18446744073709551617;'), False),
    (VALID.replace(' 1;', ' 1.;'), False), (VALID.replace(' 1;', ' 1 .5;'), False), (VALID.replace('LINEALITY_SPACE', 'RAYS'), False),
    (VALID.replace('CONE_DIM', 'NOSUCH'), False), (VALID.replace('a :', 'a.b :'), False), (VALID.replace('a :', 'precondition :'), False),
    (VALID.replace('a :', 'abcdefghijklmnopqrstuvwxyz0123456 :'), False), (VALID + ';', False), (VALID + ' ;', False), (VALID + 'a : rule', False),
    (H_RULE + 'BOUNDED, N_FACETS;', False), (H_RULE + 'BOUNDED, SIMPLICIAL, ! BOUNDED;', False), (H_RULE + 'BOUNDED;', False), (H_RULE + 'BOUNDED, ! SIMPLICIAL;', False),
    (VALID + VALID, False), (VALID + VALID.replace('a :', 'b :'), True), ('é', False), ('# é\n@', False)]


def check_book_texts(random, runs):
    for book, is_right in BOOKS:
        status, wrote = runs.run('rules\n', ['--rules', 'book'], {'book': book})
        runs.wants((status, wrote[:6]), (0, b'rules ') if is_right else (7, b''), f'the book {book}')
    many = ''.join(f'r{number} : {VALID[4:]}\r\n' for number in range(256))
    status, wrote = runs.run('rules\n', ['--rules', 'book'], {'book': many})
    runs.wants((status, wrote.count(b'\n')), (0, 257), 'a book of 256 rules')
    for label in ('r256', 'r0'):
        runs.wants(runs.run('rules\n', ['--rules', 'book'], {'book': many + f'{label} : {VALID[4:]}'}), (7, b''), f'a book of 257 rules, of which the last is {label}')
    # the book that is printed reads as itself, with gaps and comments between its tokens too
    _, wrote = runs.run('rules\n')
    standard = wrote.decode().split('\n', 1)[1]
    gaps = ''.join(token + random.choice(['', ' ', '\t', '\r\n', '\n', '# no rule ;\n']) if token in ':,;{}!' else token + ' ' if random.random() < 0.9 else token + '#\n'
                   for token in re.findall(r'[A-Za-z0-9_.]+|[:,;{}!]', standard))
    for book in (standard, gaps):
        runs.wants(runs.run('rules\n', ['--rules', 'book'], {'book': book}), (0, wrote), 'the standard book, read from its own text')


def file_text(random, values, extra):
    """A data file of these values in any order, with blanks, and with keys that are read over."""
    entries = [('_type', '"polytope::Polytope<Rational>"')] + list(values) + extra
    random.shuffle(entries)
    return blanks(random, '{' + ','.join(f'"{key}":{value}' for key, value in entries) + '}') + random.choice(['', '\n', ' \n'])


def told_name(key):
    """A key that was read over, as it is told: a word as it stands, and else its JSON text."""
    return key if re.fullmatch('[A-Za-z_][A-Za-z0-9_.]*', key) else f'"{key}"'


def saved_text(values, computed=()):
    entries = sorted(dict(values).items()) + [('_computed', spelled(list(computed)).replace("'", '"')), ('_excluded', '[]'), ('_profile', '2'), ('_type', '"polytope::Polytope<Rational>"')]
    return '{' + ','.join(f'"{key}":{value}' for key, value in entries) + '}\n'


def check_files(random, runs, count):
    """Random data files: loaded and saved they are as they are written here, and loaded again and saved they stay so."""
    for place in range(count):
        names = random.sample([name for name in list(GIVEN) + TRUTHS if name != 'CONE_AMBIENT_DIM'], random.randint(0, 9))
        values = {name: random_value(random, name) for name in names}
        written = {name: value for name, (_, value) in values.items()}
        # the file that polymake writes has other keys, and some begin with `_`; here some are no words
        extra = random.sample([('N_POINTS', '3'), ('VERTEX_LABELS', '["a","b"]'), ('_ns', '{"polymake":["https://polymake.org","4.11"]}'), ('_info', '[1]'), ('ZZ', 'null'),
                               ('', '0'), ('MY LABELS', '[]'), ('a\\nb', '1'), ('é', '2')], random.randint(0, 4))
        over = [told_name(key) for key in sorted(key for key, _ in extra if not key.startswith('_'))]
        text = file_text(random, [(name, given) for name, (given, _) in values.items()], extra)
        if len({len(json.loads(written[name])) for name in ('SITES', 'SITE_HEIGHTS') if name in written}) == 2:
            status, wrote = runs.run('load p first\n', files={'first': text})
            runs.wants((status, wrote.decode()), (1, 'no 13 BadFile BadRow SITE_HEIGHTS\n'), f'file {place}: {text}')
            continue
        wanted = 'ok' + ''.join(' ' + key for key in (['ignored'] + over if over else [])) + '\nok\nok\nok\n'
        status, wrote = runs.run('load p first\nsave p second\nload q second\nsave q third\n', files={'first': text})
        runs.wants((status, wrote.decode()), (0, wanted), f'file {place}: {text}')
        if status == 0:
            known = settled(written)
            runs.wants(runs.file('second').decode(), saved_text(known), f'file {place}: as it is saved, {text}')
            runs.wants(runs.file('third'), runs.file('second'), f'file {place}: as it is saved again')


MATRICES = ('POINTS', 'INPUT_LINEALITY', 'INEQUALITIES', 'EQUATIONS', 'VERTICES', 'LINEALITY_SPACE', 'FACETS', 'AFFINE_HULL', 'SITES')


def settled(values):
    """Given values with what goes without saying of them."""
    has_rows = any(values.get(name, '[]') != '[]' for name in MATRICES)
    described = 'POINTS' in values or 'INEQUALITIES' in values
    more = {'CONE_AMBIENT_DIM': '3' if has_rows else '1'}
    if 'POINTS' in values:
        more['INPUT_LINEALITY'] = '[]'
    if 'INEQUALITIES' in values:
        more['EQUATIONS'] = '[]'
    if 'VERTICES' in values and not described and not ('FACETS' in values and 'AFFINE_HULL' in values):
        more['LINEALITY_SPACE'] = '[]'
    if 'FACETS' in values and not described and 'VERTICES' not in values:
        more['AFFINE_HULL'] = '[]'
    return {**more, **values}


PROFILE = '"_computed":[],"_excluded":[],"_profile":2'
IS_POLYTOPE = '"_type":"polytope::Polytope<Rational>"'
IS_CONE = '"_type":"polytope::Cone<Rational>"'
# Files that are saved as they are: of linear programs, each with its own marks and maybe no objective, of a fan, and of a rule that failed.
AS_THEY_ARE = [
    '{"CONE_AMBIENT_DIM":3,"LP":[{"LINEAR_OBJECTIVE":["0","1","1"],"_excluded":[],"_name":"a"}],' + PROFILE + ',' + IS_POLYTOPE + '}',
    '{"CONE_AMBIENT_DIM":2,"LP":[{"_excluded":[],"_name":"d"},{"LINEAR_OBJECTIVE":["0","1/2"],"_excluded":[["lp_max","E2"],["lp_min","E1"]],"_name":"c"},'
    '{"_excluded":[["lp_max","E3"]],"_name":"b_2"},{"LINEAR_OBJECTIVE":["1","0"],"_excluded":[],"_name":"a"}],"_computed":[],"_excluded":[["lp_max","E1"]],"_profile":2,'
    + IS_POLYTOPE + '}',
    '{"FAN_AMBIENT_DIM":2,"LINEALITY_SPACE":[],"MAXIMAL_CONES":[[0],[1],{"cols":2}],"RAYS":[["0","1"],["1","0"]],' + PROFILE + ',"_type":"fan::PolyhedralFan<Rational>"}',
    '{"CONE_AMBIENT_DIM":2,"EQUATIONS":[],"INEQUALITIES":[["0","1"],["1","0"]],"RAYS":[["0","1"],["1","0"]],"_computed":["RAYS"],"_excluded":[["dd_facets","E1"]],"_profile":2,'
    + IS_CONE + '}',
    '{"AFFINE_HULL":[{"cols":2}],"BOUNDED":true,"COMBINATORIAL_DIM":-1,"CONE_AMBIENT_DIM":2,"F2_VECTOR":[["2"]],"F_VECTOR":[2],"GRAPH":[[1],[0]],'
    '"HASSE_DIAGRAM":[[[]],[[0],[1]],[[0,1]]],"VERTICES_IN_FACETS":[[1],[0],{"cols":2}],' + PROFILE + ',' + IS_POLYTOPE + '}']
# Files, the files that are saved of them, and the keys that are read over: of polymake, of equal keys, of which the last counts, and of profile 1.
READ = [
    ('{"_ns":{"polymake":["https://polymake.org","4.11"]},"_info":[1],' + IS_POLYTOPE + ',"VERTICES":[["1","0"],{"cols":2}],"GRAPH":{"ADJACENCY":[]},"N_POINTS":3,'
     '"LP":{"LINEAR_OBJECTIVE":["0","1"],"Z":1,"_attrs":2}}',
     '{"CONE_AMBIENT_DIM":2,"LINEALITY_SPACE":[],"LP":[{"LINEAR_OBJECTIVE":["0","1"],"_excluded":[],"_name":"lp0"}],"VERTICES":[["1","0"]],' + PROFILE + ',' + IS_POLYTOPE + '}',
     ' ignored GRAPH N_POINTS LP.Z'),
    ('{' + IS_CONE + ',"CONE_DIM":1,"CONE_DIM":2}', '{"CONE_AMBIENT_DIM":1,"CONE_DIM":2,' + PROFILE + ',' + IS_CONE + '}', ''),
    ('{' + IS_POLYTOPE + ',"LP":[{"LINEAR_OBJECTIVE":[0,1],"MAXIMAL_VALUE":"3"},{}]}',
     '{"CONE_AMBIENT_DIM":2,"LP":[{"LINEAR_OBJECTIVE":["0","1"],"_excluded":[],"_name":"lp0"},{"_excluded":[],"_name":"lp1"}],' + PROFILE + ',' + IS_POLYTOPE + '}',
     ' ignored LP.MAXIMAL_VALUE')]
REFUSED_FILES = [
    ('{', 'NotJson'), ('{"POINTS":1}', 'NoType'), ('{"_type":"x","POINTS":1}', 'UnknownType'), ('{' + IS_CONE + ',"RAYS":null,"_profile":2,"_computed":1}', 'BadProperty RAYS shape'),
    ('{' + IS_CONE + ',"INEQUALITIES":[[1,0]],"RAYS":[[1]],"_profile":2,"_computed":1}', 'BadRow RAYS'),
    ('{' + IS_CONE + ',"RAYS":[[1]],"_profile":2,"_computed":["FACETS"]}', 'BadProfile _computed'),
    ('{' + IS_POLYTOPE + ',"POINTS":[{"0":"1"},["1","0"],{"cols":2}]}', 'BadProperty POINTS shape'),
    ('{"LP":[{"_excluded":[],"_name":"a"},{"_excluded":[],"_name":"a"}],"_profile":2,' + IS_POLYTOPE + '}', 'BadProfile _name')]


def check_known_files(runs):
    for text, saved, over in [(text, text, '') for text in AS_THEY_ARE] + READ:
        runs.wants(runs.run('load a first\nsave a second\n', files={'first': text}), (0, f'ok{over}\nok\n'.encode()), f'the file {text}')
        runs.wants(runs.file('second').decode(), saved + '\n', f'the file {text}, as it is saved')
    for text, reason in REFUSED_FILES:
        runs.wants(runs.run('load a first\n', files={'first': text}), (1, f'no 13 BadFile {reason}\n'.encode()), f'the file {text}')


def check_long_files(runs):
    """A file of 8,388,608 bytes is read, and one of a byte more not at all."""
    text = b'{"_type":"polytope::Cone<Rational>"}'
    runs.wants(runs.run('load a large\n', files={'large': text.ljust(8388608)}), (0, b'ok\n'), 'a file of the greatest length')
    runs.wants(runs.run('load a large\n', files={'large': text.ljust(8388609)}), (1, b'no 13 BadFile Limit\n'), 'a file that is too long')


def check_lines(random, runs, count):
    """Lines of any length and end, in pieces of any length, beside what each has to be answered."""
    replies = [('', ''), ('# no command', ''), ('lookup nobody VERTICES', 'no 2 UnknownName\n'), ('no such command', 'no 1 BadCommand\n'), ('a\rb', 'no 1 BadCommand\n'),
               ('#' + 'x' * 5000, ''), ('x' * 70000, 'no 1 BadCommand\n'), ('lookup nobody VERTICES\t', 'no 1 BadCommand\n')]
    for place in range(count):
        lines = [random.choice(replies) for _ in range(random.randint(0, 60))]
        ends = [random.choice(['\n', '\n', '\r\n']) for _ in lines]
        text = ''.join(line + end for (line, _), end in zip(lines, ends)).encode()
        if random.random() < 0.5:
            text = text.rstrip(b'\r\n')
        wanted = ''.join(reply for _, reply in lines).encode()
        run = subprocess.Popen([runs.program], stdin=subprocess.PIPE, stdout=subprocess.PIPE)
        begun = 0
        while begun < len(text):
            size = random.choice([1, 2, 3, 7, 100, 4096, 65536])
            run.stdin.write(text[begun:begun + size])
            run.stdin.flush()
            begun += size
            if begun < 200:
                time.sleep(0.0005)
        wrote, _ = run.communicate()
        runs.wants((run.returncode, wrote), (int(b'no ' in wanted), wanted), f'lines in pieces {place}')
