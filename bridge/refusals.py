"""What is refused, and where: a file, a line, and what is wrong there."""

import json
import re

# What stands in a message as it is: this program writes such names so too.
WORD = re.compile(r"[A-Za-z_][A-Za-z0-9_.]*", re.ASCII)
PLAIN = re.compile(r"[ !-&(-\[\]-~]*", re.ASCII)

# How much of a text that a file brings is shown.
MOST_SHOWN = 60


def quoted(text, most=MOST_SHOWN):
    """A text as JSON in ASCII, cut where it is long: nothing of it changes a line or a terminal."""
    return json.dumps(text) if len(text) <= most else f"{json.dumps(text[:most])}.."


def told_name(name):
    """A name that a file brings: as it stands where it is a word, else as JSON."""
    return name if WORD.fullmatch(name) and len(name) <= MOST_SHOWN else quoted(name)


def told_path(path):
    """A file as its user named it, or as JSON where it would not be printed as it stands."""
    return path if str(path).isprintable() else json.dumps(str(path))


def shown(entry, most=40):
    """What stands in a file in place of a number or a word."""
    text = entry if isinstance(entry, str) else str(entry)
    if not PLAIN.fullmatch(text):
        return quoted(text, most)
    return f"'{text}'" if len(text) <= most else f"'{text[:most]}..'"


class Fault(Exception):
    """A value that is not understood: what is wrong, and in which row, from 0, if in one."""

    def __init__(self, text, row=None):
        super().__init__(text)
        self.text = text
        self.row = row


class Refusal(Exception):
    """A file that is not understood, at a line counted from 1, or as a whole where that is None."""

    def __init__(self, line, text):
        super().__init__(text)
        self.line = line
        self.text = text


class Notes:
    """What was left out without harm: pairs of a line and a text, told once each in their order."""

    def __init__(self):
        self.told = []

    def tell(self, line, text):
        if (line, text) not in self.told:
            self.told.append((line, text))
