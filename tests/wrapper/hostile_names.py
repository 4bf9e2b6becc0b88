#!/usr/bin/env python3
"""Gives the program and the bridges files whose names are hostile: no name becomes a line of its own, or reaches a terminal.

Usage: hostile_names.py PROGRAM. It tells what is wrong and nothing else. Each file has one hostile name at one place: a key,
a key or the name of a linear program, an attachment, a type. What is written of it is compared with what is written of the
same file without the name, and a name may stand in one line alone, as a word or as JSON.
"""
import contextlib
import io
import itertools
import json
import os
import re
import subprocess
import sys
import tempfile
from dataclasses import dataclass, field

sys.dont_write_bytecode = True
TOP = os.path.dirname(os.path.dirname(os.path.dirname(os.path.abspath(__file__))))
sys.path[:0] = [f'{TOP}/bridge', f'{TOP}/bench']

import ask
import bridges
from session import Ended, Session

POINTS = '[["1","0","0"],["1","2","0"],["1","0","2"],["1","1","1"]]'
TYPE = '"_type":"polytope::Polytope<Rational>"'
SAVED = '"_profile":2,"_computed":[],"_excluded":[]'
OBJECTIVE = '"LINEAR_OBJECTIVE":["0","1","0"]'
ASKED = ('VERTICES', 'FACETS')
WORD = re.compile('[A-Za-z_][A-Za-z0-9_.]*', re.ASCII)
GOOD = re.compile('[A-Za-z][A-Za-z0-9_]{0,31}|[0-2]', re.ASCII)
VALUE = re.compile('[A-Za-z][A-Za-z0-9_]*(?:[.][A-Za-z][A-Za-z0-9_]*)? [A-Z][A-Z0-9_]* .+', re.ASCII)
READ_OVER = re.compile(r' ([A-Za-z_][A-Za-z0-9_.]*|"(?:[^"\\\x00-\x1f]|\\.)*")', re.ASCII)

# Names that write a value of their own, or an end of a reply, if they are written as they stand.
FORGED = 'p VERTICES [[1,7,7]]'
MARKS = ['\n', '\r', '\r\n', '\t', '\0', '\b', '\f', '\v', '\x1b', '\x1c', '\x1d', '\x1e', '\x7f', '\x85', '\x9b', '\u200e', '\u202e', '\u2028', '\u2029', '\u2066', '\ufeff']
ENDS = ['no 1 BadCommand', 'no 4 UnknownType', 'no 2 UnknownName', 'ok', 'undef']
NAMES = [
    *(f'X{mark}{FORGED}{mark}' for mark in MARKS),
    *(f'x\n{end}\n{FORGED}' for end in ENDS),
    'x' + '\nno 1 BadCommand' * 200 + f'\n{FORGED}',
    '\n' + FORGED, FORGED, f'ok\n{FORGED}', f'{FORGED} "', f'" {FORGED}', f'\\" {FORGED}', '\\n' + FORGED, "it's", '"', '\\', '\\\\"', '',
    ' ', 'two words', ' X', 'X ', 'give p VERTICES', 'load', '?', 'new a b', 'no 10 NoChain', 'round 1: a -> done', 'rule N_VERTICES 5', 'program: VERTICES 0',
    'is ignored', '0', '4', 'X' * 100000, '\n' * 100000, '\u202e' + 'X' * 3000, 'a-b', 'LP.X', '\x1b]0;title\x07', '\x1b[2J', '\U0001f600\u0301',
]


@dataclass
class Case:
    """A file with a name at one place, and the same file with none or a good one.

    The names that `load` reads over; the statuses of the program, of the bridges and of ./polymake FILE PROP..; whether the
    bridges tell the name.
    """

    place: str
    name: str
    text: str
    plain: str
    over: list = field(default_factory=list)
    loaded: int = 0
    bridged: int = 0
    asked: int = 0
    is_told: bool = True


def file_of(*members):
    return f'{{{",".join([TYPE, f"{chr(34)}POINTS{chr(34)}:{POINTS}", *members])}}}'


def of_keys(name):
    """The name as a key: it is read over, and told."""
    key, over = json.dumps(name), [] if name.startswith('_') else [name]
    yield Case('a key', name, file_of(f'{key}:0'), file_of(), over)
    yield Case('a key of a saved file', name, file_of(SAVED, f'{key}:[1]'), file_of(SAVED), over, is_told=False)
    programs = lambda more: f'"LP":[{{{OBJECTIVE}{more}}}]'
    over = [f'LP.{it}' for it in over]
    yield Case('a key of a program', name, file_of(programs(f',{key}:{{}}')), file_of(programs('')), over)
    named = lambda more: programs(f',"_name":"lp0","_excluded":[]{more}')
    yield Case('a key of a saved program', name, file_of(SAVED, named(f',{key}:1')), file_of(SAVED, named('')), over, is_told=False)


def of_values(name):
    """The name as a text that a file brings: of a program, an attachment, a type, a column, a label."""
    key = json.dumps(name)
    program = lambda more: f'"LP":{{{OBJECTIVE}{more}}}'
    yield Case('the name of a program', name, file_of(program(f',"_id":{key}')), file_of(program('')))
    saved = lambda told: file_of(SAVED, program(f',"_name":{told},"_excluded":[]'))
    yield Case('the name of a saved program', name, saved(key), saved('"lp0"'), loaded=1, asked=1, is_told=False)
    attached = file_of(f'"_attrs":{{{key}:{{"attachment":true}}}}', f'{key}:"a"')
    yield Case('an attachment', name, attached, file_of(), [name])
    yield Case('a type', name, f'{{"_type":{key},"POINTS":{POINTS}}}', file_of(), loaded=1, bridged=2, asked=2)
    yield Case('a column', name, file_of(f'"EQUATIONS":[{{{key}:"1","_dim":3}}]'), file_of(), loaded=1, bridged=2, asked=2)
    yield Case('a key that stands twice', name, file_of(f'{key}:0', f'{key}:1'), file_of(), [name], bridged=2, asked=2)
    computed = SAVED.replace('"_computed":[]', f'"_computed":[{key}]')
    yield Case('a computed name', name, file_of(computed), file_of(SAVED), loaded=1, asked=1, is_told=False)


def cases():
    """Each name at two of the places of keys, and every fourth, if it is no good name, at all other places."""
    for number, name in enumerate(NAMES):
        yield from itertools.islice(of_keys(name), number % 2, None, 2)
        if number % 4 == 0 and not GOOD.fullmatch(name):
            yield from of_values(name)


class Tried:
    """The program and a folder with the files, and what went wrong."""

    def __init__(self, program, folder):
        self.program, self.folder, self.faults, self.kept = program, folder, 0, {}

    def once(self, call, text, *words):
        """What a call answers of a file, which is asked once."""
        key = call, text, *words
        if key not in self.kept:
            self.kept[key] = call(self, text, *words)
        return self.kept[key]

    def tells(self, case, what):
        self.faults += 1
        if self.faults <= 20:
            print(f'hostile_names: {case.place}, {case.name!r:.60}: {what}'[:500])

    def wants(self, case, what, got, wanted):
        if got != wanted:
            self.tells(case, f'{what} is {got!r:.160}, where {wanted!r:.160} is wanted')

    def path(self, text):
        path = os.path.join(self.folder, 'f.json')
        with open(path, 'w', encoding='utf-8') as file:
            file.write(text)
        return path


def printable(text):
    """Whether all that is written is lines of printable ASCII."""
    return text.isascii() and all(it.isprintable() for it in text.split('\n'))


def names_of(line):
    """The names that a reply to `load` tells, or None where the line is none."""
    found, at = [], len('ok ignored')
    while name := READ_OVER.match(line, at):
        found.append(json.loads(name[1]) if name[1].startswith('"') else name[1])
        at = name.end()
    return [] if line == 'ok' else found if line.startswith('ok ignored ') and at == len(line) else None


def loaded(tried, text):
    """The status and the lines of the program that loads the file and is asked."""
    tried.path(text)
    script = 'load p f.json\n' + ''.join(f'give p {it}\n' for it in ASKED)
    ran = subprocess.run([tried.program], input=script.encode(), capture_output=True, cwd=tried.folder)
    return ran.returncode, ran.stdout.decode().split('\n')


def check_program(tried, case):
    """The program itself: a reply to `load` is one line, whose names are those of the file."""
    (status, lines), (_, plain) = tried.once(loaded, case.text), tried.once(loaded, case.plain)
    tried.wants(case, 'the status of the program', status, case.loaded)
    if case.loaded:
        tried.wants(case, 'the reply to load', lines[0].startswith('no 13 BadFile '), True)
        tried.wants(case, 'the replies behind it', lines[1:], ['no 2 UnknownName'] * len(ASKED) + [''])
        return '\n'.join(lines)
    tried.wants(case, 'the names that were read over', sorted(names_of(lines[0]) or []), sorted(case.over))
    tried.wants(case, 'the replies behind load', lines[1:], plain[1:])
    return '\n'.join(lines)


def asked(tried, text, properties, *words):
    """What ./polymake FILE PROP.. ends with, writes and tells, but for the wrapper."""
    path, out, told = tried.path(text), io.StringIO(), io.StringIO()
    with contextlib.redirect_stdout(out), contextlib.redirect_stderr(told):
        status = ask.main(['--program', tried.program, *words, '--', path, *properties])
    return status, out.getvalue(), told.getvalue()


def check_told(tried, case, what, told):
    """What is said on standard error: lines of their own, in which a name stands as a word or as JSON."""
    if not printable(told):
        tried.tells(case, f'{what} tells marks as they stand: {told!r:.200}')
    if any(VALUE.fullmatch(it) for it in told.split('\n')):
        tried.tells(case, f'{what} tells a line like a value: {told!r:.200}')
    shown = case.name if WORD.fullmatch(case.name) and len(case.name) <= 40 else json.dumps(case.name[:40])[:-1]
    if case.is_told and shown not in told and f"'{case.name}'" not in told:
        tried.tells(case, f'{what} does not name {shown}: {told!r:.200}')


def check_asked(tried, case):
    """./polymake FILE and ./polymake FILE PROP.. write what they write of the plain file, but for names in the first line."""
    for properties in ((), ASKED):
        status, wrote, told = asked(tried, case.text, properties)
        plain = tried.once(asked, case.plain, properties)
        if not printable(wrote):
            tried.tells(case, f'./polymake writes marks as they stand: {wrote!r:.200}')
        check_told(tried, case, './polymake', told)
        wanted = case.asked if properties else case.bridged
        tried.wants(case, f'the status of ./polymake with {properties}', status, wanted)
        if wanted:
            tried.wants(case, 'a value beside a refusal', any(VALUE.fullmatch(it) for it in wrote.split('\n')), False)
        elif not properties:
            tried.wants(case, 'what the file holds', wrote, plain[1])
        else:
            tried.wants(case, 'what is found', wrote.split('\n')[1:], plain[1].split('\n')[1:])
            tried.wants(case, 'the first line', names_of(wrote.split('\n')[0]) is not None, True)


def bridged(tried, text, bridge, *words):
    """How a bridge ends that reads the file, by its name or, with both halves of a description, from standard input."""
    if bridge.startswith('from-'):
        return bridges.bridged(bridge, [*words, tried.path(text)])
    return bridges.bridged(bridge, words, text.replace('"POINTS"', '"INPUT_LINEALITY":[],"POINTS"'))


def check_bridges(tried, case, replies):
    """Each bridge that reads such a file writes what it writes of the plain file; and of replies, of the values alone."""
    for words in (('from-polymake',), ('from-polymake', '--data'), ('to-polymake',), ('to-cdd',)):
        got, plain = bridged(tried, case.text, *words), tried.once(bridged, case.plain, *words)
        check_told(tried, case, words[0], got.told)
        tried.wants(case, f'the status of {words[0]}', got.status, case.bridged)
        tried.wants(case, f'what {words[0]} writes', got.wrote, '' if case.bridged else plain.wrote)
    if not case.loaded:
        shown = bridges.bridged('to-cdd', ['--ext'], replies + '\np LINEALITY_SPACE []\n')
        tried.wants(case, 'the rows that to-cdd reads of replies', re.findall('^\\d+ \\d+ rational$', shown.wrote, re.M), ['3 3 rational'])


OTHERS = [
    ('from-cdd', '{name}\nH-representation\nbegin\n1 2 rational\n1 0\nend\n{name}\n'),
    ('from-cdd', 'H-representation\nbegin\n1 2 {name}\n1 0\nend\n'),
    ('from-normaliz', 'amb_space 2\ncone 1\n1 0\n{name}\n'),
    ('from-rows', '1 2\n{name} 3\n'),
]


def check_others(tried, name):
    """A text that is hostile in files of the other programs: it is refused or left out, and told in lines of printable ASCII."""
    for bridge, text in OTHERS:
        case = Case(f'a text of {bridge}', name, '', '')
        got = bridges.bridged(bridge, [tried.path(text.replace('{name}', name))])
        for what, written in (('writes', got.wrote), ('tells', got.told)):
            if not printable(written):
                tried.tells(case, f'it {what} marks as they stand: {written!r:.200}')


def check_evidence(tried, name):
    """bridge/check-evidence, with the name as a type and as a label."""
    case = Case('what check-evidence reads', name, '', '')
    for text, line, status in ((json.dumps({'_type': name}), 'evidence a stored E1', 2), (file_of(), f'evidence {name} stored E1', None)):
        ran = subprocess.run([f'{TOP}/bridge/check-evidence', tried.path(text)], input=f'{line}\n'.encode(), capture_output=True)
        tried.wants(case, 'its status', ran.returncode in (1, 2) if status is None else ran.returncode == status, True)
        told = (ran.stdout + ran.stderr).decode()
        if not printable(told):
            tried.tells(case, f'it tells marks as they stand: {told!r:.200}')


def check_wrapper(tried, case):
    """The wrapper itself, as a process, ends, writes and tells the same."""
    ran = subprocess.run([f'{TOP}/polymake', tried.path(case.text), *ASKED], capture_output=True)
    got = (ran.returncode, ran.stdout.decode(), ran.stderr.decode())
    tried.wants(case, 'what the wrapper does', got, asked(tried, case.text, ASKED, '--book', f'{TOP}/wide.rules'))


# A program whose reply is the same to each line but two, which are refused; it may end after so many lines.
STAND_IN = """
import sys
refused = {"?": "no 1 BadCommand", "new a b": "no 4 UnknownType"}
for count, line in enumerate(sys.stdin):
    if str(count) in sys.argv[2:]:
        sys.exit(5)
    print(refused.get(line.rstrip("\\n"), sys.argv[1]), flush=True)
"""


def check_session(tried):
    """A reply with many lines like those that end one is read whole."""
    for ends in (ENDS, ENDS[:1] * 100, ENDS[1:2] * 100):
        name = '\n'.join(ends)
        case = Case('a reply', name, '', '')
        with Session(sys.executable, ['-c', STAND_IN, f'ok ignored {name}\n{FORGED}'], tried.folder) as session:
            wanted = f'ok ignored {name}\n{FORGED}'.split('\n')
            tried.wants(case, 'the first reply', session.ask('load p f.json'), wanted)
            tried.wants(case, 'the second reply', session.ask('give p VERTICES'), wanted)


def check_ended(tried):
    """Where the program ends before a reply is whole, what it wrote of it is known, without the end in part."""
    case, wanted = Case('a reply in part', '', '', ''), ['ok', 'no 1 BadCommand', 'undef']
    for count in (1, 2, 40):
        session = Session(sys.executable, ['-c', STAND_IN, '\n'.join(wanted), str(count)], tried.folder)
        try:
            tried.wants(case, 'the reply', session.ask('load p f.json'), None)
        except Ended as ended:
            tried.wants(case, 'what was written', (ended.status, ended.lines), (5, wanted))
        session.close()


def main(words):
    program = os.path.abspath(words[0])
    if not os.path.isfile(program):
        print(f'hostile_names: there is no program {program}')
        return 1
    with tempfile.TemporaryDirectory() as folder:
        tried = Tried(program, folder)
        check_session(tried)
        check_ended(tried)
        for number, case in enumerate(cases()):
            replies = check_program(tried, case)
            check_asked(tried, case)
            check_bridges(tried, case, replies)
            if number % 40 == 1 and program == f'{TOP}/crates/pm_shell/out/pm_shell':
                check_wrapper(tried, case)
        for number, name in enumerate(NAMES):
            check_others(tried, name)
            if number % 6 == 2:
                check_evidence(tried, name)
    if tried.faults:
        print(f'hostile_names: {tried.faults} faults')
    return 1 if tried.faults else 0


if __name__ == '__main__':
    sys.exit(main(sys.argv[1:]))
