"""Random books of rules and random objects: what `explain` replies beside the least chain that brute force finds."""
import re

from running import spelled

TRUTHS = ['FEASIBLE', 'BOUNDED', 'POINTED', 'FULL_DIM', 'CENTERED', 'SIMPLE', 'SIMPLICIAL']
# The properties of polytopes and of linear programs in the order of their numbers; behind a name the order or the half of a pair that it speaks of.
NAMES = '''CONE_AMBIENT_DIM POINTS:g INPUT_LINEALITY:g INEQUALITIES:h EQUATIONS:h VERTICES:r LINEALITY_SPACE FACETS:f AFFINE_HULL VERTICES_IN_FACETS:rf CONE_DIM
LINEALITY_DIM COMBINATORIAL_DIM N_VERTICES N_FACETS FEASIBLE BOUNDED POINTED FULL_DIM CENTERED SIMPLE SIMPLICIAL VERTEX_SIZES:r FACET_SIZES:f HASSE_DIAGRAM:r
F_VECTOR F2_VECTOR H_VECTOR GRAPH:r DUAL_GRAPH:f DIAMETER DUAL_DIAMETER N_EDGES N_RIDGES VERTEX_DEGREES:r FAR_FACE:r MAXIMAL_CONES:rf N_MAXIMAL_CONES
MAXIMAL_CONES_DIMS:f FAN_DIM PURE LP.LINEAR_OBJECTIVE LP.MAXIMAL_VALUE LP.MINIMAL_VALUE LP.MAXIMAL_FACE:r LP.MINIMAL_FACE:r LP.MAXIMAL_DUAL LP.MINIMAL_DUAL
PLACING_TRIANGULATION:r SITES SITE_HEIGHTS REGULAR_CELLS DELAUNAY_CELLS'''
TAGS = {name.split(':')[0]: set((name + ':').split(':')[1]) for name in NAMES.split()}
NUMBERS = {name: number for number, name in enumerate(TAGS)}
OF_FANS = {'MAXIMAL_CONES', 'N_MAXIMAL_CONES', 'MAXIMAL_CONES_DIMS', 'FAN_DIM', 'PURE'}
# A value of each property that a polytope in the plane may be given.
GIVEN = {
    'CONE_AMBIENT_DIM': '3', 'POINTS': '[[1,0,0],[1,1,0]]', 'INPUT_LINEALITY': '[]', 'INEQUALITIES': '[[1,1,0]]', 'EQUATIONS': '[]', 'VERTICES': '[[1,0,0],[1,1,0]]',
    'LINEALITY_SPACE': '[]', 'FACETS': '[[0,1,0],[1,-1,0]]', 'AFFINE_HULL': '[[0,0,1]]', 'VERTICES_IN_FACETS': '[[0],[1]]', 'CONE_DIM': '2', 'LINEALITY_DIM': '0',
    'COMBINATORIAL_DIM': '1', 'N_VERTICES': '2', 'N_FACETS': '2', 'VERTEX_SIZES': '[1,1]', 'FACET_SIZES': '[1,1]', 'HASSE_DIAGRAM': '[[[]],[[0],[1]],[[0,1]]]',
    'F_VECTOR': '[2]', 'F2_VECTOR': '[[2]]', 'GRAPH': '[[1],[0]]', 'DUAL_GRAPH': '[[1],[0]]', 'DIAMETER': '1', 'DUAL_DIAMETER': '1', 'N_EDGES': '1', 'N_RIDGES': '1',
    'VERTEX_DEGREES': '[1,1]', 'FAR_FACE': '[]', 'PLACING_TRIANGULATION': '[[0,1],{"cols":2}]',
    'SITES': '[[1,0,0],[1,1,0]]', 'SITE_HEIGHTS': '[0,"1/2"]', 'REGULAR_CELLS': '[[0,1],{"cols":2}]', 'DELAUNAY_CELLS': '[[0,1],{"cols":2}]',
}
PAIRS = {'POINTS': 'INPUT_LINEALITY', 'INEQUALITIES': 'EQUATIONS', 'VERTICES': 'LINEALITY_SPACE', 'FACETS': 'AFFINE_HULL'}
MOST_SETS = 4000


class Rule:
    def __init__(self, label, client, targets, sources, weight, must, must_not):
        self.label, self.client, self.targets, self.sources, self.weight, self.must, self.must_not = label, client, targets, sources, weight, must, must_not
        self.inputs = sources | must | must_not
        speaks = set().union(*(TAGS[name] for name in sources))
        chosen = set().union(*(TAGS[name] for name in targets)) - speaks
        self.blocked = {name for name in TAGS if TAGS[name] & chosen}

    def text(self):
        def listed(names):
            return ', '.join(sorted(names, key=NUMBERS.get))
        conditions = ', '.join(('! ' if name in self.must_not else '') + name for name in sorted(self.must | self.must_not, key=NUMBERS.get))
        return (f'{self.label} : rule {listed(self.targets)} : {listed(self.sources)} {{ {self.client} }} weight {weight_text(self.weight)};'
                + (f' precondition : {conditions};' if conditions else ''))

    def is_open(self, held):
        return self.inputs <= held and not self.blocked & held and not self.targets <= held

    def is_in_use(self, names):
        return self.targets | self.inputs <= names and not (self.blocked and any(name.startswith('LP.') for name in self.targets | self.sources))


def weight_text(weight):
    return f'{weight[0]}.{weight[1]}' if weight[0] else str(weight[1])


def read_rules(lines):
    """The rules of a book as the program prints it."""
    rules = []
    for line in lines:
        label, targets, sources, client, weight, conditions = re.fullmatch(
            r'(\S+) : rule (.*?) : (.*?) { (\S+) } weight ([0-9.]+);(?: precondition : (.*);)?', line).groups()
        conditions = conditions.split(', ') if conditions else []
        parts = tuple(map(int, weight.split('.'))) if '.' in weight else (0, int(weight))
        rules.append(Rule(label, client, set(targets.split(', ')), set(sources.split(', ')), parts, {name for name in conditions if name[0] != '!'},
                          {name[2:] for name in conditions if name[0] == '!'}))
    return rules


def random_book(random, standard):
    """Rules of some standard clients, maybe more than one of a client, with weights and conditions of their own."""
    rules = []
    for number in range(random.randint(2, 40)):
        of = random.choice(standard)
        weight = (random.choice([0, 0, 0, 1, 2]), random.randint(0, random.choice([3, 20, 1000000])))
        free = [name for name in TRUTHS if name not in of.targets | of.inputs]
        more = random.sample(free, random.choice([0, 0, 0, 0, 1, 2])) if not OF_FANS & (of.targets | of.sources) else []
        must = {name for name in more if random.random() < 0.6}
        rules.append(Rule(f'r{number}', of.client, of.targets, of.sources, weight if any(weight) else (0, 1), of.must | must, of.must_not | set(more) - must))
    return rules


def costs(rules, held):
    """Each set that chains of the rules reach, with its least cost: lowered until none changes. None where they are too many."""
    found, waiting = {held: (0, 0)}, [held]
    while waiting:
        one = waiting.pop()
        for rule in rules:
            if rule.is_open(one):
                next_one = one | rule.targets
                cost = tuple(map(sum, zip(found[one], rule.weight)))
                if next_one not in found or cost < found[next_one]:
                    found[next_one] = cost
                    waiting.append(next_one)
        if len(found) > MOST_SETS:
            return None
    return found


def useful(rules, asked):
    """The rules of which a target is asked, or is read by such a rule."""
    needed, kept = set(asked), []
    while True:
        more = [rule for rule in rules if rule.targets & needed]
        if len(more) == len(kept):
            return kept
        kept = more
        needed |= set().union(*(rule.inputs for rule in kept))


def set_text(names):
    return f'{sum(1 << NUMBERS[name] for name in names):032x}'


def told(rules, held, asked):
    """The least cost, or None, and the rows of the table; nothing where the sets are too many."""
    whole = costs(rules, held)
    part = costs(useful(rules, asked), held)
    if whole is None or part is None:
        return None
    least = min((cost for names, cost in whole.items() if asked <= names), default=None)
    rows = sorted((cost, set_text(names)) for names, cost in part.items() if least is None or cost < least)
    return least, [f'row {weight_text(cost)} {names}' for cost, names in rows]


def random_object(random, name):
    """What is given to a polytope, and all that goes without saying of it as well; the commands that give it."""
    pool = list(GIVEN) + TRUTHS
    chosen = set(random.sample(['POINTS', 'INEQUALITIES', 'VERTICES', 'FACETS'], random.choice([0, 1, 1, 1, 2]))) | set(random.sample(pool, random.randint(0, 5)))
    chosen |= {PAIRS[one] for one in chosen if one in PAIRS}
    truths = {one: random.random() < 0.7 for one in chosen if one in TRUTHS}
    commands = [f'new {name} Polytope'] + [f'take {name} {one} {GIVEN.get(one) or spelled(truths[one]).lower()}' for one in sorted(chosen)]
    return commands, frozenset(chosen | {'CONE_AMBIENT_DIM'}), truths


def asks_of(random, rules):
    """Up to three names that rules find, not of fans; VERTICES where there are none."""
    names = sorted(set().union(*(rule.targets for rule in rules)) - OF_FANS) or ['VERTICES']
    return random.sample(names, min(len(names), random.choice([1, 1, 2, 3])))


def is_chain(rules, held, asked, weight, lines):
    """Whether lines `rule LABEL WEIGHT` are of a chain of these rules that leads to what is asked at this weight."""
    labels = {rule.label: rule for rule in rules}
    cost, reached = (0, 0), held
    for line in lines:
        _, label, told_weight = line.split(' ')
        rule = labels.get(label)
        if rule is None or not rule.is_open(reached) or told_weight != weight_text(rule.weight):
            return False
        reached, cost = reached | rule.targets, tuple(map(sum, zip(cost, rule.weight)))
    return asked <= reached and cost == weight


def check_reply(runs, rules, held, asked, lines, name):
    """The reply to one `explain`: a chain of useful rules with the least weight, and the table."""
    wanted = told(rules, held, asked)
    if wanted is None:
        return
    least, rows = wanted
    runs.wants([line for line in lines if line.startswith('row ')], rows, f'{name}: the table')
    if least is None:
        runs.wants(lines[0], 'no 10 NoChain', name)
    else:
        runs.wants(lines[0], f'plan {weight_text(least)}', name)
        runs.wants(is_chain(useful(rules, asked), held, asked, least, [line for line in lines if line.startswith('rule ')]), True, f'{name}: the chain {lines}')


def check_book(random, runs, rules, place):
    """A book, which is printed as it is written here, and plans over it for objects and their linear programs."""
    book = '\n'.join(rule.text() for rule in rules) + '\n'
    commands, asked_of = ['rules'], []
    for number in range(4):
        name = f'p{number}'
        given, held, truths = random_object(random, name)
        off = random.sample([rule.label for rule in rules], random.choice([0, 0, 1, 2]) if len(rules) > 2 else 0)
        commands += given + [f'new {name}.a LP'] + [f'disable {name} {label}' for label in off]
        has_objective = random.random() < 0.8
        if has_objective:
            commands.append(f'take {name}.a LINEAR_OBJECTIVE [0,1,1]')
        wrong = {rule.label for rule in rules if any(truths.get(one) is False for one in rule.must) or any(truths.get(one) is True for one in rule.must_not)}
        left = [rule for rule in rules if rule.label not in off and rule.label not in wrong]
        for _ in range(3):
            asked = asks_of(random, rules)
            of_program = any(one.startswith('LP.') for one in asked)
            asked = frozenset(one for one in asked if one.startswith('LP.') == of_program)
            names = set(TAGS) - OF_FANS if of_program else {one for one in TAGS if not one.startswith('LP.')} - OF_FANS
            of = f'{name}.a' if of_program else name
            commands += ['lookup nobody VERTICES', f'explain {of} ' + ' '.join(one.replace('LP.', '') for one in sorted(asked))]
            asked_of.append(([rule for rule in left if rule.is_in_use(names)], held | ({'LP.LINEAR_OBJECTIVE'} if of_program and has_objective else set()), asked, commands[-1]))
    # an object of the name that marks where a reply ends is never made
    _, wrote = runs.run('\n'.join(commands) + '\n', ['--rules', 'book'], {'book': book})
    parts = wrote.decode().split('no 2 UnknownName\n')
    runs.wants(parts[0].startswith(f'rules {len(rules)}\n{book}'), True, f'book {place}: its text')
    runs.wants(len(parts) - 1, len(asked_of), f'book {place}: how many replies')
    for (left, held, asked, command), part in zip(asked_of, parts[1:]):
        check_reply(runs, left, frozenset(held), asked, part.split('\n')[:-1], f'book {place}: {command}')


def check_books(random, runs, standard, count):
    for place in range(count):
        check_book(random, runs, random_book(random, standard), place)


def check_standard(random, runs, standard, count):
    """The standard book, of which some rules are disabled."""
    for place in range(count):
        commands, asked_of = [], []
        for number in range(8):
            name = f'p{number}'
            given, held, truths = random_object(random, name)
            off = random.sample([rule.label for rule in standard], random.choice([0, 5, 20]))
            wrong = {rule.label for rule in standard if any(truths.get(one) is False for one in rule.must)}
            names = {one for one in TAGS if not one.startswith('LP.')} - OF_FANS
            left = [rule for rule in standard if rule.label not in off and rule.label not in wrong and rule.is_in_use(names)]
            asked = frozenset(one for one in asks_of(random, standard) if not one.startswith('LP.')) or frozenset({'DIAMETER'})
            commands += given + [f'disable {name} {label}' for label in off] + ['lookup nobody VERTICES', f'explain {name} ' + ' '.join(sorted(asked))]
            asked_of.append((left, held, asked, commands[-1]))
        _, wrote = runs.run('\n'.join(commands) + '\n')
        parts = wrote.decode().split('no 2 UnknownName\n')
        runs.wants(len(parts) - 1, len(asked_of), f'standard book {place}: how many replies')
        for (left, held, asked, command), part in zip(asked_of, parts[1:]):
            lines = part.split('\n')
            check_reply(runs, left, frozenset(held), asked, [line for line in lines if re.match('plan |rule |row |barred |no 1', line)], f'standard book {place}: {command}')
