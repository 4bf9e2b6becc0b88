"""Plain rows of numbers: points or inequalities, read into a script or a data file."""

import re
from dataclasses import dataclass, field
from fractions import Fraction

import command
from calls import bridge
from entries import decimal_of
from polymake_files import data_text
from properties import Program, Thing
from refusals import Fault, Refusal, shown
from scripts import script_lines

# What a line of one word says of the rows below it: the property, and the entry before each row.
HEADINGS = {
    "points": ("POINTS", 1),
    "directions": ("POINTS", 0),
    "lines": ("INPUT_LINEALITY", 0),
    "inequalities": ("INEQUALITIES", None),
    "equations": ("EQUATIONS", None),
    "POINTS": ("POINTS", None),
    "INPUT_LINEALITY": ("INPUT_LINEALITY", None),
    "INEQUALITIES": ("INEQUALITIES", None),
    "EQUATIONS": ("EQUATIONS", None),
    "maximize": ("LINEAR_OBJECTIVE", None),
    "minimize": ("LINEAR_OBJECTIVE", None),
}

# What the rows are called where they are counted, and what their entries are.
KINDS = {
    "points": ("point", "coordinate"),
    "directions": ("direction", "coordinate"),
    "lines": ("line", "coordinate"),
    "inequalities": ("inequality", "entry"),
    "equations": ("equation", "entry"),
}

PLURALS = {"inequality": "inequalities", "entry": "entries"}

GENERATORS, HALF_SPACES = ("POINTS", "INPUT_LINEALITY"), ("INEQUALITIES", "EQUATIONS")

# What a program is called here.
PROGRAM = "lp"

NUMBER = re.compile(r"[-+]?\.?[0-9]")

# A row may stand in brackets, and rows in brackets around them; a number or a name of a column in quotes.
CLOSING = {"[": "]", "(": ")"}
QUOTED = re.compile(r"""(["'])([^"']*)\1""")
NAME = re.compile(r"""["']?[A-Za-z_][^\s,]*""")


@dataclass
class Part:
    """The rows below a heading, or above all of them: what they are, and their lines."""

    heading: str
    line: int
    is_said: bool
    rows: list = field(default_factory=list)


def kept_lines(text):
    """The lines that have something beside a comment, each with its number."""
    for number, line in enumerate(command.lines_of(text), 1):
        kept = line.partition("#")[0].strip()
        if kept:
            yield number, kept


class Brackets:
    """Rows in brackets: each group without a group in it is one."""

    def __init__(self):
        self.open, self.row, self.line, self.is_row = [], "", 0, False

    def rows(self, number, line):
        """The rows that end in this line, each with the line in which it began."""
        for mark in line:
            if mark in CLOSING:
                self.check_between(number)
                self.open.append((CLOSING[mark], number))
                self.row, self.line, self.is_row = "", number, True
            elif mark not in CLOSING.values():
                self.row += mark
            elif not self.open or mark != self.open.pop()[0]:
                raise Refusal(number, f"'{mark}' closes nothing")
            else:
                yield from self.ended(number)
        self.row += " "

    def check_between(self, number):
        beside = self.row.strip(" \t,")
        if beside:
            raise Refusal(number, f"{shown(beside)} stands beside rows in brackets")

    def ended(self, number):
        """The row that is closed, if it is one: brackets around rows, or around none, are not."""
        if not self.is_row:
            self.check_between(number)
        elif self.row.strip():
            yield self.line, QUOTED.sub(r"\2", self.row).strip()
        elif self.open:
            raise Refusal(self.line, "an empty row")
        self.row, self.is_row = "", False


def lines_of(text):
    """The headings and the rows, each with the number of its line."""
    brackets = Brackets()
    for number, line in kept_lines(text):
        if line[0] in CLOSING or brackets.open or brackets.line and line[0] in "]),":
            yield from brackets.rows(number, line)
            continue
        brackets.check_between(number)
        brackets = Brackets()
        yield number, line
    if brackets.open:
        raise Refusal(brackets.open[-1][1], "a bracket is not closed")
    brackets.check_between(brackets.line)


def heading_of(line):
    word = line.removesuffix(":")
    return word if word in HEADINGS else None


def nearly_heading(line):
    """The heading that a line is but for capitals, or None."""
    word = line.removesuffix(":").lower()
    return word if word in HEADINGS and not heading_of(line) else None


def is_header(line, below):
    """Whether a line has the names of columns, of as many as the row below it has."""
    entries = lambda text: text.replace(",", " ").split()
    if nearly_heading(line):
        return False
    return all(map(NAME.fullmatch, entries(line))) and len(entries(line)) == len(entries(below))


def are_rows(text):
    """Whether a text looks like rows: its first line is a number, a heading or in brackets, or has names of columns."""
    lines = kept_lines(text)
    first, second = (next(lines, (0, ""))[1] for _ in range(2))
    if heading_of(first) or NUMBER.match(first) or first[:1] in CLOSING:
        return True
    return bool(NUMBER.match(second)) and is_header(first, second)


def without_header(lines, notes):
    """The lines below one of names of columns, which is told; all lines where there is none."""
    if len(lines) > 1 and not heading_of(lines[0][1]) and NUMBER.match(lines[1][1]) and is_header(lines[0][1], lines[1][1]):
        notes.tell(lines[0][0], f"{shown(lines[0][1])} is left out, as names of columns")
        return lines[1:]
    return lines


def row_of(line, number, count):
    """The fractions of a line, with blanks, tabs or one comma between them."""
    entries = []
    for part in line.split(","):
        if not part.strip():
            raise Refusal(number, f"row {count}: an entry is missing beside a comma")
        entries += part.split()
    try:
        return [decimal_of(it) for it in entries]
    except Fault as fault:
        raise Refusal(number, f"row {count}: {fault.text}") from None


def parts_of(text, heading, notes):
    """The rows by their headings; those above the first heading are of the kind that is named."""
    parts = []
    for number, line in without_header(list(lines_of(text)), notes):
        word = heading_of(line)
        if word:
            parts.append(Part(word, number, True))
            continue
        if not parts:
            parts.append(Part(heading, number, False))
        rows = parts[-1].rows
        row = row_of(line, number, len(rows) + 1)
        if rows and len(row) != len(rows[0]):
            told = f"{counted(len(row), 'entry')}, where the first row has {len(rows[0])}"
            raise Refusal(number, f"row {len(rows) + 1}: {told}")
        rows.append(row)
    return parts


def counted(count, what):
    return f"{count} {what if count == 1 else PLURALS.get(what, what + 's')}"


def tell_part(part, type_name, notes):
    """How the rows are taken, and what they might have been."""
    if part.heading not in KINDS or not part.rows:
        return
    what, entry = KINDS[part.heading]
    if type_name == "Cone" and what in ("point", "direction"):
        what = "ray"
    told = f"{counted(len(part.rows), what)} with {counted(len(part.rows[0]), entry)} each"
    notes.tell(part.line, told)
    if what == "point" and not part.is_said and is_like_homogeneous(part.rows):
        meant = f"rows (1, x) stand below a line 'POINTS', or are read by {bridge('from-rows')} --homogeneous"
        notes.tell(part.line, f"each row begins with 1, which is taken as a coordinate: {meant}")


def is_like_homogeneous(rows):
    return len(rows) > 1 and len(rows[0]) > 1 and all(it[0] == 1 for it in rows)


def put_part(thing, part):
    """Holds the rows of a part, each with what comes before it."""
    name, before = HEADINGS[part.heading]
    head = [] if before is None or thing.type_name == "Cone" else [Fraction(before)]
    rows = [head + it for it in part.rows]
    if rows and thing.columns not in (None, len(rows[0])):
        told = f"rows of {counted(len(part.rows[0]), 'entry')} do not suit what stands before"
        raise Refusal(part.line, f"{part.heading}: {told}")
    if name == "LINEAR_OBJECTIVE":
        put_objective(thing, part, rows)
        return
    thing.put(name, [*thing.rows(name), *rows], len(rows[0]) if rows else thing.columns)


def put_objective(thing, part, rows):
    if thing.programs:
        raise Refusal(part.line, "a second objective")
    if len(rows) != 1:
        raise Refusal(part.line, f"{part.heading}: one row is wanted below it")
    if thing.type_name == "Cone":
        raise Refusal(part.line, "a linear program is one of a polytope, and not of a cone")
    thing.programs.append(Program(PROGRAM, {"LINEAR_OBJECTIVE": rows[0]}))


def check_together(parts):
    """Generators and half-spaces are two descriptions, and one of both is wanted."""
    made = [it for it in parts if HEADINGS[it.heading][0] in GENERATORS]
    cut = [it for it in parts if HEADINGS[it.heading][0] in HALF_SPACES]
    if not made and not cut:
        raise Refusal(None, "no rows of points or inequalities")
    if made and cut:
        line = max(made[0].line, cut[0].line)
        raise Refusal(line, f"'{made[0].heading}' and '{cut[0].heading}' are two descriptions")


def check_points(thing, parts):
    """A polytope with directions has a point."""
    if thing.type_name == "Polytope" and thing.rows("POINTS"):
        if not any(it[0] > 0 for it in thing.rows("POINTS")):
            raise Refusal(parts[0].line, "directions without a point; a cone is read by --cone")


def read_rows(text, notes, heading="points", type_name="Polytope"):
    """The polytope or the cone of rows."""
    parts, thing = parts_of(text, heading, notes), Thing(type_name)
    check_together(parts)
    for part in parts:
        put_part(thing, part)
        tell_part(part, type_name, notes)
    pair = GENERATORS if any(thing.has(it) for it in GENERATORS) else HALF_SPACES
    for name in pair:
        thing.values.setdefault(name, [])
    if thing.columns is None:
        raise Refusal(None, "no row tells how many columns there are")
    check_points(thing, parts)
    return thing


def from_words():
    words = command.parser(
        "from-rows", "Writes rows of numbers as a script of this program, or as a data file of it."
    )
    command.add_file(words, needed=True)
    command.add_object(words)
    command.add_type(words, "rows are of a cone: rays, or inequalities without a constant")
    words.add_argument("--data", action="store_true", help="write a data file that `load` reads")
    which = words.add_mutually_exclusive_group()
    for word, heading, told in (
        ("--inequalities", "inequalities", "rows above any heading say a0 + a1 x1 + .. >= 0"),
        ("--homogeneous", "POINTS", "rows above any heading are (1, x), or (0, d) of directions"),
    ):
        which.add_argument(word, dest="heading", action="store_const", const=heading, help=told)
    words.set_defaults(heading="points")
    return words


def from_rows(options, text, notes):
    thing = read_rows(text, notes, options.heading, options.type_name)
    if options.data:
        return data_text(thing)
    return command.joined(script_lines(options.name, thing))
