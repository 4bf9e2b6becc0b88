"""Scripts with what their replies have to be, run by the built program."""
import os
import shutil
import subprocess
import tempfile


class Script:
    """Commands, each with the one line that has to be its reply, or a function that tells whether a line may be it."""

    def __init__(self, name, words=(), files=()):
        self.name, self.words, self.files = name, list(words), dict(files)
        self.commands, self.wanted = [], []

    def says(self, command, wanted='ok'):
        self.commands.append(command)
        self.wanted.append(wanted)

    def gives(self, of, name, value):
        self.says(f'give {of} {name}', f'{of} {name} {value}')


class Runs:
    """The program that is tried, and how many of its replies were looked at; `room` is a folder that it runs in."""

    def __init__(self, program):
        self.program, self.room, self.faults, self.count = program, tempfile.mkdtemp(), 0, 0

    def end(self):
        shutil.rmtree(self.room)

    def tells(self, what):
        self.faults += 1
        if self.faults <= 20:
            print(f'{self.program}: {what}'[:1000])

    def run(self, text, words=(), files=()):
        """The exit status, and what the program writes, in its folder with these files."""
        for name, content in dict(files).items():
            with open(os.path.join(self.room, name), 'wb') as file:
                file.write(content if isinstance(content, bytes) else content.encode())
        done = subprocess.run([self.program, *words], input=text if isinstance(text, bytes) else text.encode(), capture_output=True, cwd=self.room)
        return done.returncode, done.stdout

    def file(self, name):
        with open(os.path.join(self.room, name), 'rb') as file:
            return file.read()

    def wants(self, got, wanted, name):
        self.count += 1
        if got != wanted:
            self.tells(f'{name}: {wanted!r} is wanted, and it is {got!r}')

    def tries(self, script):
        """Runs a script, and tells the replies that differ."""
        status, wrote = self.run('\n'.join(script.commands) + '\n', script.words, script.files)
        lines = wrote.decode().split('\n')[:-1]
        self.wants(len(lines), len(script.wanted), f'{script.name}: how many replies')
        refused = any(line.startswith('no ') for line in lines)
        self.wants(status, int(refused), f'{script.name}: the exit status')
        for command, wanted, line in zip(script.commands, script.wanted, lines):
            self.count += 1
            if not (wanted(line) if callable(wanted) else wanted == line):
                told = 'another reply' if callable(wanted) else wanted
                self.tells(f'{script.name}: {command}: {told} is wanted, and it is {line}')
                break


def spelled(value):
    """A list of lists and numbers as the program writes it: without blanks."""
    return str(value).replace(' ', '')


def fractions_spelled(rows):
    return '[' + ','.join('[' + ','.join(f'"{x}"' for x in row) + ']' for row in rows) + ']'


def sets_spelled(sets, count):
    return spelled(sets)[:-1] + (',' if sets else '') + f'{{"cols":{count}}}]'


def truth(value):
    return 'true' if value else 'false'
