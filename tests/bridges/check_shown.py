#!/usr/bin/env python3
"""Asks for the evidence of each rule that failed in the sessions and in docs/when-it-refuses.md, and checks that it holds, by
bridge/check-evidence over the saved object; with one entry of a row turned it does not. Usage: check_shown.py PROGRAM"""
import json
import os
import re
import shutil
import subprocess
import sys
import tempfile

sys.dont_write_bytecode = True
TOP = os.path.dirname(os.path.dirname(os.path.dirname(os.path.abspath(__file__))))
sys.path.insert(0, f'{TOP}/bridge')

from session import Session

EXCLUDED = re.compile(r'excluded (\S+) failed E[1-5]( @\S+)?')
LINE = re.compile(r'(evidence \S+(?: @\S+)?) (E[1-5]) (\{.*\})')
FAULTS = []


def scripts():
    """The scripts in which a rule fails, each with a name."""
    for name in sorted(os.listdir(f'{TOP}/tests/sessions')):
        if name.endswith('.session'):
            with open(f'{TOP}/tests/sessions/{name}', encoding='utf-8') as file:
                text = file.read()
            if re.search(r'^> .*failed \S+ E[1-5]', text, re.M) or re.search(r'^> excluded \S+ failed', text, re.M):
                yield name, text
    with open(f'{TOP}/docs/when-it-refuses.md', encoding='utf-8') as file:
        blocks = re.findall(r'^```session\n(.*?)^```', file.read(), re.M | re.S)
    for number, text in enumerate(blocks):
        yield f'when-it-refuses.md, script {number + 1}', text


def names_of(commands):
    """The names that objects may have after these commands."""
    found = []
    for command in commands:
        words = command.split(' ')
        if words[0] in ('new', 'load', 'make'):
            found.append(words[1].split('.')[0])
        elif words[0] == 'copy':
            found.append(words[-1])
    return list(dict.fromkeys(found))


def said_of(folder, lines):
    """What bridge/check-evidence says of the lines, over the object that was saved."""
    ran = subprocess.run([f'{TOP}/bridge/check-evidence', f'{folder}/shown.json'], input=''.join(f'{it}\n' for it in lines), capture_output=True, text=True)
    return ran.stdout.splitlines() if ran.returncode < 2 else [f'status {ran.returncode}: {ran.stderr}']


def first_entry(shown, path=()):
    """The path to the first entry of a row in the evidence, if it has one: a text."""
    for key in shown if isinstance(shown, dict) else range(len(shown)):
        at = shown[key]
        if isinstance(at, str) and key != 'list':
            return (*path, key)
        if isinstance(at, (dict, list)):
            found = first_entry(at, (*path, key))
            if found:
                return found
    return None


def turned(line):
    """The line with the first entry of its first row turned, if it has rows."""
    found = LINE.fullmatch(line)
    shown = json.loads(found[3])
    path = first_entry(shown)
    if path is None:
        return None
    at = shown
    for step in path[:-1]:
        at = at[step]
    at[path[-1]] = str(int(at[path[-1]]) + 1)
    return f'{found[1]} {found[2]} {json.dumps(shown)}'


def check_lines(folder, where, lines):
    """Each evidence that is shown whole holds, and turned it does not."""
    shown = [it for it in lines if LINE.fullmatch(it)]
    for line, said in zip(shown, said_of(folder, shown)):
        if not said.endswith(' holds'):
            FAULTS.append(f'{where}: {said}: {line[:200]}')
    others = [it for it in map(turned, shown) if it is not None]
    for line, said in zip(others, said_of(folder, others) if others else []):
        if not said.endswith(' does not hold'):
            FAULTS.append(f'{where}: turned: {said}: {line[:200]}')
    return len(shown)


def check_object(session, folder, where, name):
    """How many evidences of an object were shown."""
    told = [EXCLUDED.fullmatch(it) for it in session.ask(f'history {name}')]
    labels = list(dict.fromkeys(it[1] for it in told if it))
    if not labels:
        return 0
    if session.ask(f'save {name} shown.json') != ['ok']:
        FAULTS.append(f'{where}: {name} is not saved')
        return 0
    count = 0
    for label in labels:
        lines = session.ask(f'evidence {name} {label}')
        wanted = sum(1 for it in told if it and it[1] == label)
        if lines[0] != f'ok {wanted}' or len(lines) != wanted + 1:
            FAULTS.append(f'{where}: evidence {name} {label}: {lines[0]} and {len(lines) - 1} lines, not {wanted}')
        count += check_lines(folder, where, lines[1:])
    return count


def check_script(program, where, text):
    lines = text.splitlines()
    behind = [*lines[1:], '']
    # (what is no command is left out: its reply is the one that ends a reply here)
    commands = [it for it, reply in zip(lines, behind) if it and not it.startswith(('> ', '#')) and reply != '> no 1 BadCommand']
    folder = tempfile.mkdtemp()
    try:
        shutil.copytree(f'{TOP}/tests/sessions/data', folder, dirs_exist_ok=True)
        with Session(program, [], folder) as session:
            for command in commands:
                session.ask(command)
            return sum(check_object(session, folder, where, name) for name in names_of(commands))
    finally:
        shutil.rmtree(folder)


def main(words):
    program = os.path.abspath(words[0])
    count = sum(check_script(program, where, text) for where, text in scripts())
    for fault in FAULTS[:20]:
        print(f'evidence that is shown: {fault}')
    if count < 20:
        print(f'evidence that is shown: {count} only')
    return 1 if FAULTS or count < 20 else 0


if __name__ == '__main__':
    sys.exit(main(sys.argv[1:]))
