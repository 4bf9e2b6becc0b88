"""Printed plans over random books of rules: what the checker of plans says of them as they are printed and turned at one place, beside the definition of a certificate."""
import re

from check_plans import NUMBERS, OF_FANS, TAGS, asks_of, costs, random_book, random_object, useful

BY_NUMBER = {number: name for name, number in NUMBERS.items()}


def cost_of(text):
    """A cost as it is printed, or None."""
    if not re.fullmatch(r'(0|[1-9][0-9]*)|[1-9][0-9]*\.(0|[1-9][0-9]*)', text):
        return None
    parts = tuple(map(int, text.split('.')))
    return parts if len(parts) == 2 else (0, parts[0])


def set_of(text):
    """A set as it is printed, or None."""
    if not re.fullmatch(r'[0-9a-f]{32}', text) or int(text, 16) >> len(TAGS):
        return None
    return frozenset(BY_NUMBER[k] for k in range(len(TAGS)) if int(text, 16) >> k & 1)


def read(lines, labels):
    """What the lines are printed of: (weight or None, labels of the chain or of barred rules, rows); None where they are printed of nothing."""
    if not lines:
        return None
    weight = None
    if lines[0] != 'no 10 NoChain':
        weight = cost_of(lines[0][5:]) if lines[0].startswith('plan ') else None
        if weight is None:
            return None
    first = 'barred' if weight is None else 'rule'
    told, rows = [], []
    for line in lines[1:]:
        words = line.split(' ')
        if words[0] == first and not rows and len(words) > 2 and words[1] in labels:
            if first == 'rule' and (len(words) != 3 or words[2] != labels[words[1]]):
                return None
            told.append(words[1])
        elif words[0] == 'row' and len(words) == 3 and cost_of(words[1]) is not None and set_of(words[2]) is not None:
            rows.append((cost_of(words[1]), set_of(words[2])))
        else:
            return None
    return weight, told, rows


def plus(cost, rule):
    return tuple(map(sum, zip(cost, rule.weight)))


def is_certificate(rules, held, asked, least, rows):
    """The definition, word for word: the start, no row that ends, and each useful rule leads on."""
    def within(cost):
        return least is None or cost < least
    if within((0, 0)) and ((0, 0), held) not in rows:
        return False
    cheapest = {}
    for cost, names in rows:
        cheapest[names] = min(cost, cheapest.get(names, cost))
    for cost, names in rows:
        if not within(cost):
            continue
        if asked <= names:
            return False
        for rule in useful(rules, asked):
            if rule.is_open(names):
                behind = plus(cost, rule)
                if within(behind) and not cheapest.get(names | rule.targets, behind + (1,)) <= behind:
                    return False
    return True


def leads(rules, held, asked, weight, chain):
    """Whether the rules of these labels are enabled in turn, lead to what is asked, and weigh so much."""
    by_label = {rule.label: rule for rule in rules}
    cost, names = (0, 0), held
    for label in chain:
        rule = by_label.get(label)
        if rule is None or not rule.is_open(names):
            return False
        names, cost = names | rule.targets, plus(cost, rule)
    return asked <= names and cost == weight


def wanted(book, in_use, off, held, asked, lines):
    """Whether the lines prove something, and what: the answer of the checker, or None for a no."""
    found = read(lines, {rule.label: weight_text(rule.weight) for rule in book})
    if found is None:
        return None
    weight, told, rows = found
    barred = set(off) | (set(told) if weight is None else set())
    rules = [rule for rule in in_use if rule.label not in barred]
    if weight is None:
        return 'no chain' if is_certificate(rules, held, asked, None, rows) else None
    if leads(rules, held, asked, weight, told) and is_certificate(rules, held, asked, weight, rows):
        return f'least {weight_text(weight)}'
    return None


def weight_text(weight):
    return f'{weight[0]}.{weight[1]}' if weight[0] else str(weight[1])


def least_cost(rules, held, asked):
    """The least cost of a chain by brute force; None where there is none, and False where there are too many sets."""
    found = costs(rules, held)
    return False if found is None else min((cost for names, cost in found.items() if asked <= names), default=None)


def turned(random, lines, asked):
    """The lines and the asked names with one change: a cost, a bit, a row left out or twice, or an asked name more."""
    lines, asked = list(lines), set(asked)
    places = [k for k, line in enumerate(lines) if line.startswith('row ')]
    way = random.choice(['cost', 'bit', 'out', 'name', 'weight', 'digit', 'chain', 'class'])
    if way == 'name' or not places:
        pool = sorted(one for one in TAGS if one not in OF_FANS and one.startswith('LP.') == next(iter(asked)).startswith('LP.'))
        return lines, asked | {random.choice(pool)}
    place = random.choice(places)
    word, cost, names = lines[place].split(' ')
    parts = cost_of(cost)
    if way == 'cost':
        lines[place] = f'{word} {weight_text((parts[0], max(0, parts[1] + random.choice([-5, -1, 1, 5]))))} {names}'
    elif way == 'class':
        lines[place] = f'{word} {weight_text((max(0, parts[0] + random.choice([-1, 1])), parts[1]))} {names}'
    elif way == 'bit':
        lines[place] = f'{word} {cost} {int(names, 16) ^ 1 << random.randrange(len(TAGS)):032x}'
    elif way == 'out':
        del lines[place]
    elif way == 'digit':
        lines[place] = f'{word} {cost} {random.choice([names[1:], "0" + names, names.upper() + " "])}'
    elif way == 'weight' and lines[0].startswith('plan '):
        whole = cost_of(lines[0][5:])
        lines[0] = f'plan {weight_text((whole[0], max(0, whole[1] + random.choice([-1, 1]))))}'
    else:
        rules = [k for k, line in enumerate(lines) if line.startswith(('rule ', 'barred '))]
        if rules:
            del lines[random.choice(rules)]
    return lines, asked


def check_one(runs, checks, book, text, in_use, off, of_program, held, asked, lines, name):
    """What the checker says of these lines."""
    words = ['check-plan'] + (['--program'] if of_program else []) + ['--rules', 'book', 'Polytope', *sorted(held), ':', *sorted(asked)] + (['!', *sorted(off)] if off else [])
    status, wrote = checks.run(''.join(line + '\n' for line in lines), words, {'book': text})
    answer = wrote.decode()
    want = wanted(book, in_use, off, held, asked, lines)
    if want is None:
        runs.wants((status, bool(re.fullmatch(r'no [1-9][0-9]*\n', answer))), (1, True), f'{name}: {answer!r} of {lines}')
        number = int(answer[3:] or 0) if re.fullmatch(r'no [0-9]+\n', answer) else 0
        runs.wants(1 <= number <= len(lines) + 1, True, f'{name}: the number of a line')
    else:
        runs.wants((status, answer), (0, want + '\n'), name)
        left = [rule for rule in in_use if rule.label not in off and not (want == 'no chain' and f'barred {rule.label} ' in '\n'.join(lines) + ' ')]
        least = least_cost(left, held, asked)
        if least is not False:
            runs.wants('no chain' if least is None else f'least {weight_text(least)}', want, f'{name}: brute force over all chains')


def check_printed(random, runs, checks, standard, books, turns):
    """Plans that the program prints over random books, as they are and turned at one place; how many of each."""
    plans = 0
    for place in range(books):
        book = random_book(random, standard)
        text = '\n'.join(rule.text() for rule in book) + '\n'
        commands, asked_of = [], []
        for number in range(3):
            name = f'p{number}'
            given, held, truths = random_object(random, name)
            commands += given + [f'new {name}.a LP', f'take {name}.a LINEAR_OBJECTIVE [0,1,1]']
            wrong = {rule.label for rule in book if any(truths.get(one) is False for one in rule.must) or any(truths.get(one) is True for one in rule.must_not)}
            for _ in range(3):
                asked = asks_of(random, book)
                of_program = any(one.startswith('LP.') for one in asked)
                asked = frozenset(one for one in asked if one.startswith('LP.') == of_program)
                names = set(TAGS) - OF_FANS if of_program else {one for one in TAGS if not one.startswith('LP.')} - OF_FANS
                of = f'{name}.a' if of_program else name
                commands += ['lookup nobody VERTICES', f'explain {of} ' + ' '.join(one.replace('LP.', '') for one in sorted(asked))]
                asked_of.append(([rule for rule in book if rule.is_in_use(names)], sorted(wrong), of_program, held | ({'LP.LINEAR_OBJECTIVE'} if of_program else set()), asked))
        _, wrote = runs.run('\n'.join(commands) + '\n', ['--rules', 'book'], {'book': text})
        parts = wrote.decode().split('no 2 UnknownName\n')[1:]
        for k, ((in_use, off, of_program, held, asked), part) in enumerate(zip(asked_of, parts)):
            lines = [line for line in part.split('\n')[:-1] if line.startswith(('plan ', 'rule ', 'row ', 'barred ', 'no 10'))]
            if not lines or len(lines) > 400:
                continue
            plans += 1
            held = frozenset(held)
            name = f'printed {place}.{k}'
            check_one(runs, checks, book, text, in_use, off, of_program, held, asked, lines, name)
            runs.wants(wanted(book, in_use, off, held, asked, lines) is not None, True, f'{name}: as it is printed')
            for turn in range(turns):
                other, more = turned(random, lines, asked)
                check_one(runs, checks, book, text, in_use, off, of_program, held, frozenset(more), other, f'{name}, turned {turn}')
    return plans, plans * turns
