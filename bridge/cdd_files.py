"""Files of cddlib and lrslib (.ine, .ext): read into a script, and written from replies."""

import re
from dataclasses import dataclass, field

import command
from entries import WHOLE, decimal_of, row_of, row_text
from properties import Program, Thing
from refusals import Fault, Refusal, shown
from polymake_files import read_shown
from scripts import script_lines

HALF_SPACES, GENERATORS = "H-representation", "V-representation"

# How a file of cddlib goes on where its representation is left out: 'begin' on a line, and the size below it.
SIZE = r"[0-9*]+[ \t]+[0-9]+[ \t]+(?:integer|rational|real)\b"
BEGIN = re.compile(rf"^[ \t]*begin[ \t]*(?:\r\n|\r|\n)\s*{SIZE}", re.M | re.A)

# Options that steer a computation or what is printed.
HARMLESS = set(
    """adjacency allbases cache debug digits dualperturb dynout_off dynout_on estimates facet_listing
    find_interior geometric getvolume incidence initbasis_at_bottom input_adjacency input_incidence
    lexmax lexmin logfile_off logfile_on lponly maxcobases maxcutoff maxdepth maxindex maxoutput
    mincutoff mindepth minindex mixcutoff output_adjacency output_incidence postanalysis printcobasis
    printslack random redund redund_list seed startingcobasis stdout_off stdout_on verbose
    verify_input volume""".split()
)

# Options that change which polyhedron or program is meant.
CHANGING = set(
    """bound eliminate equality hull partial_enumeration preprojection project
    projection restart strict_inequality testin truncate voronoi""".split()
)


# What a program is called here, which has no name in these files.
PROGRAM = "lp"

# What lrslib writes for a number of rows that it does not know yet, and how its lines of a dictionary begin.
UNTOLD = "*****"
DICTIONARY = re.compile(r"[VRF]#[0-9]+")
ENTRY = re.compile(r"-?[0-9]+(?:/[0-9]+)?", re.ASCII)


@dataclass
class CddFile:
    """What a file says, with the lines of its rows."""

    what: str | None = None
    linear: list | None = None
    linear_line: int | None = None
    kind: str | None = None
    columns: int = 0
    count: int | None = None
    rows: list = field(default_factory=list)
    lines: list = field(default_factory=list)
    objective: list | None = None
    objective_line: int | None = None
    is_nonnegative: bool = False


def words_of_lines(text):
    """The lines that have words and are no comments: their numbers and words."""
    is_size = False
    for number, line in enumerate(command.lines_of(text), 1):
        words = line.split()
        if words and DICTIONARY.fullmatch(words[0]):
            continue
        if words and (not words[0].startswith("*") or is_size and words[0] == UNTOLD):
            yield number, words
            is_size = words == ["begin"]


def count_of(word, line, what):
    if not WHOLE.fullmatch(word) or word.startswith("-") or len(word) > 9:
        raise Refusal(line, f"{shown(word)} is no {what}")
    return int(word)


def without_last_end(lines):
    return [it for it in lines if it[1] != ["end"]]


class Runs:
    """What lrslib writes where its numbers grow too long: it begins again with longer ones, and goes on.

    Each run has a head, 'begin', and the rows that it found; the last one has 'end'. All these rows are
    of one polyhedron, and some may stand in more than one run.
    """

    def __init__(self, lines):
        self.begins = [at for at, (_, words) in enumerate(lines) if words == ["begin"]]
        self.lines = lines

    def are_several(self):
        """Whether there is more than one run, each of which leaves the number of its rows open."""
        sizes = [self.lines[at + 1][1] for at in self.begins if at + 1 < len(self.lines)]
        is_open = lambda words: len(words) == 3 and words[0] == UNTOLD
        return len(self.begins) > 1 and len(sizes) == len(self.begins) and all(map(is_open, sizes)) and len({it[1] for it in sizes}) == 1

    def parts(self):
        """The lines of each run: a head, and what stands from 'begin' to 'end', which is added where it is missing."""
        found, start = [], 0
        for place, at in enumerate(self.begins):
            is_last = place == len(self.begins) - 1
            end = len(self.lines) if is_last else self.end_of_rows(at)
            part = self.lines[start:end]
            found.append(part if is_last else [*without_last_end(part), (part[-1][0], ["end"])])
            start = end
        return found

    def end_of_rows(self, begin):
        """Where the rows behind a 'begin' end: at the first line that has no row of so many numbers."""
        columns, at = self.lines[begin + 1][1][1], begin + 2
        while all(map(ENTRY.fullmatch, self.lines[at][1])) and str(len(self.lines[at][1])) == columns:
            at += 1
        return at + (self.lines[at][1] == ["end"])


def joined_runs(files):
    """One file of several runs: each row once, the linear ones first."""
    linear, others = {}, {}
    for file in files:
        for at, (row, line) in enumerate(zip(file.rows, file.lines), 1):
            (linear if at in (file.linear or []) else others).setdefault(tuple(row), line)
    last = files[-1]
    pairs = [*linear.items(), *others.items()]
    last.rows, last.lines = [list(row) for row, _ in pairs], [line for _, line in pairs]
    last.linear = list(range(1, len(linear) + 1))
    return last


class Reader:
    """Reads the lines of a file, in three parts: before 'begin', up to 'end', and behind it."""

    def __init__(self, lines, last, notes, what=None):
        self.lines = lines
        self.at = 0
        self.last = last
        self.notes = notes
        self.file = CddFile(what)
        self.before = what
        self.is_named = False

    def next(self, what):
        """The next line, or a refusal that names what is missing."""
        if self.at == len(self.lines):
            raise Refusal(self.last, f"{what} is missing")
        self.at += 1
        return self.lines[self.at - 1]

    def read(self):
        self.read_head()
        self.read_size()
        self.read_rows()
        self.read_tail()
        return self.file

    def read_head(self):
        """The representation and the linear rows; the first other line is a name."""
        while True:
            line, words = self.next("'begin'")
            if words == ["begin"]:
                break
            self.read_head_line(line, words)
        if self.file.what is None:
            self.file.what = HALF_SPACES
            told = f"neither {HALF_SPACES} nor {GENERATORS} stands before 'begin'"
            self.notes.tell(line, f"{told}: read as {HALF_SPACES}, that is as inequalities, as cddlib does")

    def read_head_line(self, line, words):
        if words in ([HALF_SPACES], [GENERATORS]):
            if self.file.what not in (None, self.before) or self.before not in (None, words[0]):
                raise Refusal(line, "a second representation")
            self.file.what, self.before = words[0], None
        elif words[0] == "linearity":
            self.read_linearity(line, words)
        elif words[0] in CHANGING or words[0] in HARMLESS or words == ["nonnegative"]:
            self.read_option(line, words)
        elif self.may_be_name():
            self.is_named = True
        else:
            raise Refusal(line, f"{shown(' '.join(words))} is not understood")

    def may_be_name(self):
        """Whether a line may be a name: the first one, before the representation and the linear rows."""
        return not self.is_named and self.file.what in (None, self.before) and self.file.linear is None

    def read_linearity(self, line, words):
        """How many rows are linear, and which, from 1."""
        if self.file.linear is not None:
            raise Refusal(line, "a second 'linearity'")
        if len(words) < 2:
            raise Refusal(line, "'linearity' without a count")
        numbers = [count_of(it, line, "number of a row") for it in words[1:]]
        if numbers[0] != len(numbers) - 1:
            raise Refusal(line, f"'linearity' says {numbers[0]} rows, and names {len(numbers) - 1}")
        if len(set(numbers[1:])) != len(numbers) - 1:
            raise Refusal(line, "'linearity' names a row twice")
        self.file.linear, self.file.linear_line = numbers[1:], line

    def read_size(self):
        """How many rows and columns, and of which numbers; lrslib leaves the first count open."""
        line, words = self.next("the size")
        if len(words) != 3:
            raise Refusal(line, "no size: rows, columns, and 'integer' or 'rational'")
        self.file.kind = words[2]
        if words[2] not in ("integer", "rational", "real"):
            told = f"numbers of the kind {shown(words[2])}: not 'integer', 'rational' or 'real'"
            raise Refusal(line, told)
        if words[2] == "real":
            self.notes.tell(line, "real: each number is taken as it stands, 0.1 as 1/10")
        self.file.columns = count_of(words[1], line, "number of columns")
        if self.file.columns == 0:
            raise Refusal(line, "no columns")
        if words[0] != UNTOLD:
            self.file.count = count_of(words[0], line, "number of rows")

    def read_rows(self):
        """The lines up to 'end', a row on each, or rows that run over their ends."""
        file, found = self.file, []
        while True:
            line, words = self.next("'end'")
            if words == ["end"]:
                break
            if words[0] == "begin":
                raise Refusal(line, "a second 'begin'")
            found.append((line, words))
        for at, (row_line, words) in enumerate(self.unwrapped(found), 1):
            file.rows.append(self.read_row(row_line, words, at))
            file.lines.append(row_line)
        if file.count is not None and len(file.rows) != file.count:
            raise Refusal(line, f"{len(file.rows)} rows, where {file.count} are announced")
        over = next((it for it in file.linear or [] if not 1 <= it <= len(file.rows)), None)
        if over is not None:
            raise Refusal(file.linear_line, f"'linearity' names row {over} of {len(file.rows)}")

    def unwrapped(self, lines):
        """The rows with their lines, also where rows run over ends of lines."""
        columns, count = self.file.columns, self.file.count
        entries = [(line, it) for line, words in lines for it in words]
        are_rows = all(len(words) == columns for _, words in lines)
        if are_rows or count is None or len(entries) != count * columns:
            return lines
        told = "rows run over ends of lines: read by the count of their entries"
        self.notes.tell(lines[0][0], told)
        rows = [entries[it : it + columns] for it in range(0, len(entries), columns)]
        return [(row[0][0], [it for _, it in row]) for row in rows]

    def row_of(self, words):
        """A row of fractions, and of decimals where the numbers are 'real'."""
        if self.file.kind == "real":
            return [decimal_of(it) for it in words]
        return row_of(words)

    def read_row(self, line, words, number):
        if len(words) != self.file.columns:
            raise Refusal(
                line,
                f"row {number}: {len(words)} entries, where there are {self.file.columns} columns",
            )
        try:
            row = self.row_of(words)
        except Fault as fault:
            raise Refusal(line, f"row {number}: {fault.text}") from None
        if self.file.kind == "integer" and any("/" in it for it in words):
            raise Refusal(line, f"row {number}: a fraction among 'integer' numbers")
        return row

    def read_tail(self):
        while self.at < len(self.lines):
            line, words = self.next("an option")
            if words[0] in ("maximize", "minimize"):
                self.read_objective(line, words)
            elif words[0] in ("begin", "end", "linearity", HALF_SPACES, GENERATORS):
                raise Refusal(line, f"'{words[0]}' behind 'end'")
            else:
                self.read_option(line, words)

    def read_objective(self, line, words):
        """The objective stands on the same line or on the next ones."""
        if self.file.objective is not None:
            raise Refusal(line, "a second objective")
        entries = words[1:] or self.next("the objective")[1]
        while len(entries) < self.file.columns and self.begins_with_number():
            entries = entries + self.next("the objective")[1]
        if len(entries) != self.file.columns:
            raise Refusal(
                line,
                f"{words[0]}: {len(entries)} entries, where there are {self.file.columns} columns",
            )
        try:
            self.file.objective, self.file.objective_line = self.row_of(entries), line
        except Fault as fault:
            raise Refusal(line, f"{words[0]}: {fault.text}") from None
        asked = "MAXIMAL_VALUE" if words[0] == "maximize" else "MINIMAL_VALUE"
        self.notes.tell(line, f"{words[0]}: the program {PROGRAM}, whose {asked} is meant")

    def begins_with_number(self):
        """Whether a next line goes on with numbers."""
        return self.at < len(self.lines) and self.lines[self.at][1][0][0] in "+-.0123456789"

    def read_option(self, line, words):
        if words == ["nonnegative"]:
            self.read_nonnegative(line)
            return
        if words == ["hull"] and self.file.what == GENERATORS:
            self.notes.tell(line, "hull: of generators it is what is meant anyway: left out")
            return
        if words[0] in CHANGING:
            raise Refusal(line, f"the option '{words[0]}' changes what the file means")
        if words[0] not in HARMLESS:
            raise Refusal(line, f"the option {shown(words[0])} is not known here")
        self.notes.tell(line, f"{words[0]}: an option of a computation: left out")

    def read_nonnegative(self, line):
        if self.file.what == GENERATORS:
            raise Refusal(line, "'nonnegative' is of inequalities alone")
        self.file.is_nonnegative = True
        self.notes.tell(line, "nonnegative: a row x >= 0 is added for each coordinate")


def without_first(row, line):
    """A row of a cone: its first entry is 0 and is dropped."""
    if row[0] != 0:
        raise Refusal(line, "the first entry of a row of a cone is 0")
    return row[1:]


def parted(file):
    """The rows that are not linear and those that are, each with its line."""
    linear = set(file.linear or [])
    pairs = list(zip(file.rows, file.lines))
    if file.is_nonnegative:
        unit = lambda at: [row_of([int(it == at)])[0] for it in range(file.columns)]
        pairs += [(unit(it), None) for it in range(1, file.columns)]
    kept = [it for at, it in enumerate(pairs, 1) if at not in linear]
    return kept, [it for at, it in enumerate(pairs, 1) if at in linear]


def check_generators(kept, linear, file):
    """First entries are 0 or 1, and 0 of lines; a polyhedron with directions has a point."""
    for row, line in kept:
        if row[0] not in (0, 1):
            raise Refusal(line, "the first entry of a generator is 0 or 1")
    for row, line in linear:
        if row[0] != 0:
            raise Refusal(line, "the first entry of a linear generator is 0")
    if (kept or linear) and not any(row[0] == 1 for row, _ in kept):
        line = file.lines[0]
        raise Refusal(line, "directions without a point; a cone is read by --cone")


def is_first_unit(row):
    """The origin among generators, and 1 >= 0 among half-spaces."""
    return row[0] == 1 and not any(row[1:])


def cone_of(file):
    """A cone: rows whose first entry is 0; the origin, or 1 >= 0, says nothing more."""
    if file.columns == 1:
        raise Refusal(None, "a cone without coordinates")
    kept, linear = parted(file)
    kept = [it for it in kept if not is_first_unit(it[0])]
    names = (
        ("POINTS", "INPUT_LINEALITY") if file.what == GENERATORS else ("INEQUALITIES", "EQUATIONS")
    )
    thing = Thing("Cone")
    for name, pairs in zip(names, (kept, linear)):
        thing.put(name, [without_first(*it) for it in pairs], file.columns - 1)
    return thing


def polytope_of(file):
    """A polyhedron."""
    kept, linear = parted(file)
    names = ("INEQUALITIES", "EQUATIONS")
    if file.what == GENERATORS:
        names = ("POINTS", "INPUT_LINEALITY")
        check_generators(kept, linear, file)
    thing = Thing("Polytope")
    for name, pairs in zip(names, (kept, linear)):
        thing.put(name, [row for row, _ in pairs], file.columns)
    if file.objective is not None:
        thing.programs.append(Program(PROGRAM, {"LINEAR_OBJECTIVE": file.objective}))
    return thing


def read_runs(text, notes):
    """What a file says, or all runs of a file of lrslib together."""
    lines, last = list(words_of_lines(text)), text.count("\n") + 1
    runs = Runs(without_repeated_name(lines, text))
    if not runs.are_several():
        return Reader(runs.lines, last, notes).read()
    files = []
    for part in runs.parts():
        files.append(Reader(part, last, notes, files[-1].what if files else None).read())
    told = "lrslib began anew with longer numbers: the rows of all runs are taken, each once"
    notes.tell(runs.lines[runs.begins[1]][0], f"{told}, {len(runs.begins)} runs")
    return joined_runs(files)


def without_repeated_name(lines, text):
    """The lines without a name that lrslib writes again where it begins anew before the representation."""
    if "*lrs" not in text or len(lines) < 2 or lines[0][1] != lines[1][1]:
        return lines
    return without_repeated_name(lines[1:], text)


def read_cdd(text, type_name, notes):
    """The polyhedron with its linear program, or the cone, of a file."""
    file = read_runs(text, notes)
    if type_name == "Polytope":
        return polytope_of(file)
    if file.objective is not None:
        told = "a linear program is one of a polytope, and not of a cone"
        raise Refusal(file.objective_line, told)
    return cone_of(file)


DESCRIPTIONS = {
    HALF_SPACES: (("FACETS", "AFFINE_HULL"), ("INEQUALITIES", "EQUATIONS")),
    GENERATORS: (("VERTICES", "LINEALITY_SPACE"), ("POINTS", "INPUT_LINEALITY")),
}


def whole_pair(thing, what):
    """The first of the pairs of a representation that is held whole, or None."""
    return next((it for it in DESCRIPTIONS[what] if thing.has(*it)), None)


def described(thing, asked):
    """The representation that is written, and its pair of matrices."""
    found = [it for it in DESCRIPTIONS if whole_pair(thing, it)]
    if asked is not None and asked not in found or not found:
        what = (asked,) if asked else tuple(DESCRIPTIONS)
        pairs = [" with ".join(it) for name in what for it in DESCRIPTIONS[name]]
        raise Refusal(None, f"no pair is shown whole of {', '.join(pairs)}")
    if asked is None and len(found) > 1:
        raise Refusal(None, "facets and generators are shown: say which by --ine or --ext")
    what = asked or found[0]
    return what, whole_pair(thing, what)


def affine(row):
    """A generator whose first entry is 0 or 1."""
    return [it / row[0] for it in row] if row[0] > 0 else row


def cdd_rows(thing, what, pair):
    """Linear rows, and the others."""
    kept, linear = thing.rows(pair[0]), thing.rows(pair[1])
    if thing.type_name == "Cone":
        apex = [[1, *[0] * thing.columns]] if what == GENERATORS else []
        return [[0, *it] for it in linear], apex + [[0, *it] for it in kept]
    return linear, [affine(it) for it in kept] if what == GENERATORS else kept


def cdd_text(thing, asked, name):
    """A file of cddlib: linear rows come first, and are named by 'linearity'."""
    what, pair = described(thing, asked)
    if thing.columns is None:
        raise Refusal(None, "nothing tells how many columns: show CONE_AMBIENT_DIM too")
    linear, kept = cdd_rows(thing, what, pair)
    columns = thing.columns + (thing.type_name == "Cone")
    lines = [name, what]
    if linear:
        lines.append(f"linearity {len(linear)} {row_text(range(1, len(linear) + 1))}")
    size = f"{len(linear) + len(kept)} {columns} rational"
    return command.joined([*lines, "begin", size, *map(row_text, [*linear, *kept]), "end"])


def from_words():
    words = command.parser(
        "from-cdd", "Writes a file of cddlib or lrslib as a script of this program."
    )
    command.add_file(words, needed=True)
    command.add_object(words)
    command.add_type(
        words, "a cone: all rows begin with 0, but for the origin; that entry is dropped"
    )
    return words


def from_cdd(options, text, notes):
    thing = read_cdd(text, options.type_name, notes)
    return command.joined(script_lines(options.name, thing))


def to_words():
    words = command.parser(
        "to-cdd",
        "Writes the values that replies show, or those of a data file, as a file of cddlib.",
    )
    command.add_file(words, needed=False)
    command.add_type(words, "replies are of a cone; else of a polytope")
    words.add_argument("--name", metavar="NAME", help="the object, where replies show several")
    which = words.add_mutually_exclusive_group()
    for word, what in (("--ine", HALF_SPACES), ("--ext", GENERATORS)):
        which.add_argument(word, dest="what", action="store_const", const=what, help=what)
    return words


def to_cdd(options, text, notes):
    thing = read_shown(options, text, notes)
    if thing.type_name == "Fan":
        raise Refusal(None, "a fan has no file of cddlib")
    if thing.programs:
        names = ", ".join(it.name for it in thing.programs)
        notes.tell(1, f"the linear programs {names}: left out")
    return cdd_text(thing, options.what, options.name or "replies")
