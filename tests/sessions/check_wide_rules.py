#!/usr/bin/env python3
"""Asks the built program of the book wide.rules: check_wide_rules.py PROGRAM tells what is wrong and nothing else.

- The program reads the book, and prints it as it stands. It begins with the standard rules, as it prints those.
- Behind them stand the wide rules: each is the standard rule of its name without "_wide", and weighs one more.
- It has the rules of the table of the code, one by one.
- The program has one client for each wide rule, and no wide client for another rule.
- Each wide rule answers in a session of tests/sessions/wide after its standard rule failed there.
"""
import glob
import os
import re
import shutil
import sys
from itertools import zip_longest

sys.dont_write_bytecode = True
TOP = os.path.dirname(os.path.dirname(os.path.dirname(os.path.abspath(__file__))))
sys.path.insert(0, f'{TOP}/tests/random')

from running import Runs

BOOK = 'wide.rules'
WIDE = '_wide'
RULE = re.compile(r'(\w+) : rule (.+?) : (.+?) \{ (\w+) \} weight (\d+);(?: precondition : (.+);)?')
ROW = re.compile(r'^ *rule!\("(\w+)": (.+?) from (.+?)(?: if (.+?))?; (\d+)\),$', re.M)
ROUND = re.compile(r'round \d+( @\w+)?: (.+) -> (.+)')


def read(path):
    with open(f'{TOP}/{path}', encoding='utf-8') as file:
        return file.read()


def listed(names):
    return names.split(', ') if names else []


class Rule:
    """A rule as a line of a book has it."""

    def __init__(self, line):
        label, targets, sources, client, weight, conditions = RULE.fullmatch(line).groups()
        self.label, self.client, self.weight = label, client, int(weight)
        self.finds = [listed(it) for it in (targets, sources, conditions)]


def twin_of(label):
    """The label of the standard rule of a wide one."""
    return label.removesuffix(WIDE)


# ---- the tables
def wants_list(runs, got, wanted, name):
    """Tells the first place where the lists differ."""
    differ = (pair for pair in enumerate(zip_longest(got, wanted)) if pair[1][0] != pair[1][1])
    place, (ours, theirs) = next(differ, (None, (None, None)))
    runs.wants(ours, theirs, f'{name}: place {place}')


def printed_book(runs, words):
    """The lines of the book that the program prints, without the one that counts them."""
    return runs.run('rules\n', words)[1].decode().splitlines()[1:]


def check_book(runs, lines):
    """The program prints the file as it stands; it begins with the standard book. Answers how many rules that has."""
    standard = printed_book(runs, [])
    wants_list(runs, printed_book(runs, ['--rules', BOOK]), lines, f'{BOOK}, as the program prints it')
    wants_list(runs, lines[:len(standard)], standard, f'{BOOK} and the standard book')
    return len(standard)


def check_twins(runs, standard, wide):
    by_label = {it.label: it for it in standard}
    for it in wide:
        twin = by_label.get(twin_of(it.label))
        runs.wants(it.label.endswith(WIDE) and twin is not None, True, f'{it.label} is wide, and has a standard rule')
        if twin is not None:
            wanted = (it.label, twin.finds, twin.weight + 1)
            runs.wants((it.client, it.finds, it.weight), wanted, f'the client, the names and the weight of {it.label}')


def variants(names):
    """Names of properties as the code has them, in any order: LP.MAXIMAL_VALUE is MaximalValue."""
    return sorted(''.join(part.capitalize() for part in name.removeprefix('LP.').split('_')) for name in names)


def check_table(runs, rules):
    """The rows of the code, which is proved to have those of its definition."""
    rows = ROW.findall(read('crates/pm_standard/src/standard.rt'))
    table = [(label, [sorted(listed(it)) for it in names], int(weight)) for label, *names, weight in rows]
    book = [(it.label, [variants(names) for names in it.finds], it.weight) for it in rules]
    wants_list(runs, book, table, f'{BOOK} and the table of the code')


def check_clients(runs, standard, wide):
    """A client that is let go was there, and is not there a second time."""
    names = [it.label + WIDE for it in standard]
    script = ''.join(f'unload {name}\nunload {name}\n' for name in names)
    replies = runs.run(script)[1].decode().splitlines()
    found = [(name, replies[2 * i:2 * i + 2]) for i, name in enumerate(names)]
    labels, absent = {it.label for it in wide}, 'no 16 UnknownRule'
    wanted = [(name, ['ok' if name in labels else absent, absent]) for name in names]
    wants_list(runs, found, wanted, 'wide clients that are let go')


# ---- the sessions
def round_lists(lines):
    """The lists of rounds in replies: those whose lines follow each other are of one command, and so of one object."""
    rounds = []
    for line in [*lines, '']:
        match = ROUND.fullmatch(line)
        if match:
            rounds.append(match.groups())
        elif rounds:
            yield rounds
            rounds = []


def answered(rounds):
    """The wide rules that answer in a round, of an object or a program, after their standard rule failed in one."""
    failed, found = set(), set()
    for of, labels, end in rounds:
        if end == 'done':
            found |= {label for label in labels.split() if label.endswith(WIDE) and (of, twin_of(label)) in failed}
        elif end.startswith('failed '):
            failed.add((of, end.split()[1]))
    return found


def check_sessions(runs, wide):
    """The replies themselves are compared with those of the session where all sessions are run."""
    shutil.copytree(f'{TOP}/tests/sessions/data', runs.room, dirs_exist_ok=True)
    found = set()
    for path in sorted(glob.glob(f'{TOP}/tests/sessions/wide/*.session')):
        lines = read(os.path.relpath(path, TOP)).splitlines(keepends=True)
        script = ''.join(line for line in lines if not line.startswith('> '))
        replies = runs.run(script, ['--rules', BOOK])[1].decode().splitlines()
        found = found.union(*map(answered, round_lists(replies)))
    silent = [it.label for it in wide if it.label not in found]
    runs.wants(silent, [], 'wide rules that answer in no session of tests/sessions/wide after their standard rule failed there')


def main(program):
    runs = Runs(program)
    text = read(BOOK)
    runs.run('', files={BOOK: text})
    lines = [line for line in text.splitlines() if not line.startswith('#')]
    count = check_book(runs, lines)
    rules = [Rule(line) for line in lines]
    standard, wide = rules[:count], rules[count:]
    runs.wants(len(wide) > 0, True, f'{BOOK} has wide rules')
    check_twins(runs, standard, wide)
    check_table(runs, rules)
    check_clients(runs, standard, wide)
    check_sessions(runs, wide)
    runs.end()
    return 1 if runs.faults else 0


if __name__ == '__main__':
    sys.exit(main(os.path.abspath(sys.argv[1])))
