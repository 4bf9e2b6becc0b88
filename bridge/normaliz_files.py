"""Files of Normaliz: read into a script."""

import re
from dataclasses import dataclass, field

import command
from entries import WHOLE, fraction_of
from normaliz_results import are_results, read_results
from properties import Thing
from refusals import Fault, Refusal, shown
from scripts import script_lines

TOKEN = re.compile(r"/\*.*?\*/|[\[\]]|[^\s\[\],;]+|[,;\n]", re.S)

# How many entries a row has beyond the ambient dimension.
SECTIONS = {
    "cone": 0,
    "subspace": 0,
    "inequalities": 0,
    "equations": 0,
    "polytope": -1,
    "vertices": 1,
    "inhom_inequalities": 1,
    "inhom_equations": 1,
}

GENERATORS = {"cone", "subspace", "vertices", "polytope"}
INHOMOGENEOUS = {"vertices", "inhom_inequalities", "inhom_equations"}

# Goals and options of computations: they do not change which cone or polyhedron is meant.
GOALS = set(
    """AffineDim AllGeneratingSets BigInt ClassGroup ConeDecomposition DefaultMode Deg1Elements
    Descent DualFaceLattice DualFVector DualIncidence DualMode EhrhartSeries EmbeddingDim Equations
    EuclideanVolume ExternalIndex ExtremeRays FaceLattice FVector GeneratorOfInterior
    HilbertBasis HilbertSeries HSOP Incidence InternalIndex IsPointed KeepOrder LatticePoints
    MaximalSubspace ModuleGenerators Multiplicity NoGradingDenom NumberLatticePoints PrimalMode Rank
    RecessionRank Sublattice SupportHyperplanes Triangulation TriangulationSize VerticesFloat
    VerticesOfPolyhedron Volume total_degree""".split()
)


# Sections that say how lattice points are counted, and do not change the cone.
GRADINGS = {"grading"}


@dataclass
class Section:
    """A matrix of an input file: its name and line, and its rows with their lines."""

    name: str
    line: int
    rows: list = field(default_factory=list)
    lines: list = field(default_factory=list)


@dataclass
class Lines:
    """The tokens of each line, comments left out, and the place that is read next."""

    lines: list
    last: int
    at: int = 0

    def is_done(self):
        return self.at == len(self.lines)

    def next(self, what):
        if self.is_done():
            raise Refusal(self.last, f"{what} is missing")
        self.at += 1
        return self.lines[self.at - 1]

    def put_back(self, line, tokens):
        """What is left of a line is read next."""
        if tokens:
            self.at -= 1
            self.lines[self.at] = (line, tokens)


def lines_of(text):
    """The tokens of the lines that have some."""
    found, line = {}, 1
    for token in TOKEN.findall(text):
        if token.startswith("/*"):
            line += token.count("\n")
        elif token == "\n":
            line += 1
        else:
            found.setdefault(line, []).append(token)
    return Lines(list(found.items()), text.count("\n") + 1)


def row_at(line, tokens, length, number):
    """A row of fractions of this length."""
    if length is not None and len(tokens) != length:
        raise Refusal(line, f"row {number}: {len(tokens)} entries, where {length} are meant")
    try:
        return [fraction_of(it) for it in tokens]
    except Fault as fault:
        raise Refusal(line, f"row {number}: {fault.text}") from None


class Reader:
    """Reads the ambient dimension, and then sections and goals."""

    def __init__(self, text, notes):
        self.lines = lines_of(text)
        self.notes = notes
        self.dimension = None
        self.sections = {}

    def read(self):
        self.read_dimension()
        while not self.lines.is_done():
            line, tokens = self.lines.next("a section")
            name = tokens[0]
            if name in GOALS and len(tokens) == 1:
                self.notes.tell(line, f"{name}: a goal or an option of Normaliz: left out")
            elif name in SECTIONS:
                self.read_section(line, name, tokens[1:])
            elif name in GRADINGS:
                self.read_grading(line, name, tokens[1:])
            elif name == "amb_space":
                raise Refusal(line, "a second 'amb_space'")
            else:
                raise Refusal(line, f"{shown(' '.join(tokens))} is not understood")
        return self

    def read_dimension(self):
        line, tokens = self.lines.next("'amb_space'")
        if tokens[0] != "amb_space" or len(tokens) != 2:
            raise Refusal(line, "'amb_space' with a number or 'auto' comes first")
        if tokens[1] == "auto":
            return
        if not WHOLE.fullmatch(tokens[1]) or not 1 <= int(tokens[1][:9]) or len(tokens[1]) > 9:
            raise Refusal(line, f"{shown(tokens[1])} is no dimension")
        self.dimension = int(tokens[1])

    def length(self, name):
        return None if self.dimension is None else self.dimension + SECTIONS[name]

    def read_grading(self, line, name, tokens):
        """A row, here or on the next line, in brackets or not; or 'unit_vector' and its place."""
        told = "it counts lattice points, and does not change the cone: left out"
        self.notes.tell(line, f"{name}: {told}")
        if not tokens:
            line, tokens = self.lines.next(f"the row of '{name}'")
        if tokens[0] == "unit_vector":
            if len(tokens) != 2 or not WHOLE.fullmatch(tokens[1]):
                raise Refusal(line, f"{shown(' '.join(tokens))} is no unit vector")
            return
        row = [it for it in tokens if it not in ("[", "]", ",", ";")]
        row_at(line, row, self.dimension, 1)

    def read_section(self, line, name, tokens):
        """A matrix by the count of its rows, or in brackets, which may begin on the next line."""
        if name in self.sections:
            raise Refusal(line, f"a second '{name}'")
        section = self.sections[name] = Section(name, line)
        if not tokens:
            begin, tokens = self.lines.next(f"the matrix of '{name}'")
            if tokens[0] != "[":
                raise Refusal(begin, f"'{name}' without a count of rows or a bracket")
            line = begin
        if tokens[0] == "[":
            self.read_brackets(section, line, tokens)
        else:
            self.read_counted(section, line, tokens)

    def read_counted(self, section, line, tokens):
        if (
            len(tokens) != 1
            or not WHOLE.fullmatch(tokens[0])
            or len(tokens[0]) > 9
            or tokens[0][0] == "-"
        ):
            raise Refusal(line, f"{shown(' '.join(tokens))} is no count of rows")
        if self.dimension is None:
            raise Refusal(line, "'amb_space auto' asks for matrices in brackets")
        for number in range(1, int(tokens[0]) + 1):
            at, row = self.lines.next(f"row {number} of '{section.name}'")
            if row[0] in SECTIONS or row[0] in GOALS or row[0] == "amb_space":
                raise Refusal(at, f"row {number} of '{section.name}' is missing")
            self.add_row(section, at, row)

    def read_brackets(self, section, line, tokens):
        """Rows in brackets with commas, semicolons or nothing between them, and a last bracket."""
        tokens, row, begun = tokens[1:], None, line
        while True:
            if not tokens:
                line, tokens = self.lines.next(f"']' of '{section.name}'")
            token, tokens = tokens[0], tokens[1:]
            if token == "[" and row is None:
                row, begun = [], line
            elif token == "]" and row is not None:
                self.add_row(section, begun, row)
                row = None
            elif token == "]":
                break
            elif row is not None and token not in ("[", ",", ";"):
                row.append(token)
            elif token not in (",", ";"):
                raise Refusal(line, f"{shown(token)} between rows of '{section.name}'")
        self.lines.put_back(line, tokens)

    def add_row(self, section, line, tokens):
        number = len(section.rows) + 1
        row = row_at(line, tokens, self.length(section.name), number)
        if self.dimension is None:
            self.dimension = len(row) - SECTIONS[section.name]
            if self.dimension < 1:
                raise Refusal(line, f"row {number}: {len(row)} entries")
        section.rows.append(row)
        section.lines.append(line)


def check_together(sections):
    """Sections whose meaning together is one description."""
    names = list(sections)
    made = [it for it in names if it in GENERATORS]
    cut = [it for it in names if it not in GENERATORS]
    if not names:
        raise Refusal(None, "neither generators nor constraints")
    if made and cut:
        line = max(sections[made[0]].line, sections[cut[0]].line)
        raise Refusal(line, f"'{made[0]}' and '{cut[0]}': an intersection has no description here")
    if "polytope" in names and len(names) > 1:
        other = next(it for it in names if it != "polytope")
        raise Refusal(sections[other].line, f"'{other}' beside 'polytope'")
    if cut and not {"inequalities", "inhom_inequalities"} & set(cut):
        line = sections[cut[0]].line
        raise Refusal(
            line,
            "equations alone: Normaliz adds that no coordinate is negative; say 'inequalities'",
        )


def last_first(row):
    """A row of Normaliz has the constant, or the denominator, at its end."""
    return [row[-1], *row[:-1]]


def vertex(row, line):
    if row[-1] <= 0:
        raise Refusal(line, "the denominator of a vertex is not positive")
    return [1, *(it / row[-1] for it in row[:-1])]


def rows_of(sections, name, change):
    """The rows of a section, each changed; none where it is not there."""
    section = sections.get(name)
    return [change(*it) for it in zip(section.rows, section.lines)] if section else []


def polyhedron_of(sections, dimension):
    """A polyhedron: vertices with the recession cone, or constraints."""
    direction = lambda row, _: [0, *row]
    thing = Thing("Polytope")
    if "vertices" in sections:
        points = rows_of(sections, "vertices", vertex) + rows_of(sections, "cone", direction)
        thing.put("POINTS", points, dimension + 1)
        thing.put("INPUT_LINEALITY", rows_of(sections, "subspace", direction), dimension + 1)
        return thing
    constant = lambda row, _: last_first(row)
    for name, first in (("INEQUALITIES", "inequalities"), ("EQUATIONS", "equations")):
        rows = rows_of(sections, first, direction) + rows_of(sections, f"inhom_{first}", constant)
        thing.put(name, rows, dimension + 1)
    return thing


def cone_of(sections, dimension):
    """A cone: generators, or constraints."""
    names = {"INEQUALITIES": "inequalities", "EQUATIONS": "equations"}
    if GENERATORS & set(sections):
        names = {"POINTS": "cone", "INPUT_LINEALITY": "subspace"}
    thing = Thing("Cone")
    for name, section in names.items():
        thing.put(name, rows_of(sections, section, lambda row, _: row), dimension)
    return thing


def read_normaliz(text, notes):
    """What a file of Normaliz describes: one that it reads, or one that it wrote."""
    return read_results(text, notes) if are_results(text) else read_input(text, notes)


def read_input(text, notes):
    """A polyhedron where a section is inhomogeneous or 'polytope', else a cone."""
    found = Reader(text, notes).read()
    sections, dimension = found.sections, found.dimension
    check_together(sections)
    if dimension is None:
        raise Refusal(None, "'amb_space auto', and no row tells the dimension")
    if "polytope" in sections:
        thing = Thing("Polytope")
        thing.put("POINTS", rows_of(sections, "polytope", lambda row, _: [1, *row]), dimension)
        return thing
    if "vertices" in sections and not sections["vertices"].rows:
        raise Refusal(sections["vertices"].line, "'vertices' without a row")
    inhomogeneous = INHOMOGENEOUS & set(sections)
    return (polyhedron_of if inhomogeneous else cone_of)(sections, dimension)


def from_words():
    words = command.parser(
        "from-normaliz", "Writes a file of Normaliz, .in or .out, as a script of this program."
    )
    command.add_file(words, needed=True)
    command.add_object(words)
    return words


def from_normaliz(options, text, notes):
    thing = read_normaliz(text, notes)
    return command.joined(script_lines(options.name, thing))
