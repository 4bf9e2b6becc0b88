"""Polytopes, cones, fans and linear programs: objects of a session, whose properties are asked of the program."""

import difflib
import json
import re
from dataclasses import dataclass, replace
from itertools import count
from operator import index

from . import files, shown
from .absent import ABSENT
from .faults import columns_in, parsed
from .refusals import BadValue, Evidence, Failure, NoChain, Refused, advice, is_refused, is_tried, refusal_of, useful
from .session import FILE, HERE, Step, current, given_in
from .table import PROPERTIES
from .values import copied, read, rows_of, written

EVIDENCE = re.compile(r"evidence (\S+)(?: @(\S+))? (stored )?(E\d)(?: (.*))?")
BARRED = re.compile(r"barred (\S+) (false|disabled|no-client)(?: (\S+))?")
EXCLUDED = re.compile(r"excluded (\S+) (failed|false) (\S+)(?: @(\S+))?")

# The refusals whose text speaks of several things.
UNKNOWN_PROPERTY, UNKNOWN_RULE = 5, 16

# How many linear programs the program holds of a polytope.
MOST_PROGRAMS = 4

# Sets of places of rays: their column count is the number of rays, where these are given too.
OF_RAYS = ("VERTICES_IN_FACETS", "RAYS_IN_FACETS", "MAXIMAL_CONES", "PLACING_TRIANGULATION")


def properties_of(type_name):
    """The properties of a type by their names there."""
    return {it.names[type_name]: it for it in PROPERTIES if type_name in it.names}


def property_of(name, item):
    """A property of a class, whose value is asked of the program."""

    def get(self):
        return self._value(name, item.kind)

    return property(get, doc=f"{item.kind.capitalize()}. {item.meaning}")


def with_properties(cls):
    """A class with the properties of its type."""
    cls.type_name = cls.__name__
    cls._properties = properties_of(cls.type_name)
    for name, item in cls._properties.items():
        setattr(cls, name, property_of(name, item))
    return cls


@dataclass(frozen=True)
class Plan:
    """A least chain of rules: its weight, the rules with their weights, and the reply that `check-plan` reads."""

    weight: int
    rules: list
    lines: list

    def __str__(self):
        return "\n".join(self.lines)


def plan_of(lines):
    rules = [it.split(" ")[1:] for it in lines if it.startswith("rule ")]
    return Plan(int(lines[0].split(" ")[1]), [(label, int(weight)) for label, weight in rules], lines)


class Asked:
    """What has properties that are asked: those found are kept, so that each is asked once."""

    def _value(self, name, kind):
        with self._session._lock:
            if name not in self._values:
                lines = self._say(f"give {self._reference()} {name}", asked=name)
                self._values[name] = read(kind, lines[0].split(" ", 2)[2])
            return copied(self._values[name])

    def ensure(self, *names):
        """Finds up to four properties, planned together; the answer is the lines of the rounds."""
        return self._say(f"ensure {self._reference()} {' '.join(names)}", ", ".join(names))[1:]

    def explain(self, *names):
        """A least chain of rules to up to four properties, as a `Plan`; nothing is computed."""
        return plan_of(self._say(f"explain {self._reference()} {' '.join(names)}", ", ".join(names)))

    def lookup(self, name):
        """The value of a property if it is held, else None; nothing is computed."""
        text = self._say(f"lookup {self._reference()} {name}", changes=False)[0]
        return None if text == "undef" else read(self._properties[name].kind, text.split(" ", 2)[2])

    def origin(self, name):
        """Whether a held value is 'given', 'stored' or 'computed'; None where none is held."""
        text = self._say(f"origin {self._reference()} {name}", changes=False)[0]
        return None if text == "undef" else text

    def __getattr__(self, name):
        """What is said of a name that there is not."""
        raise AttributeError(f"a {self.type_name} has no {name!r}{self._near(name)}")

    @classmethod
    def _near(cls, name):
        """What is said of a name that is no property: what comes near, or that it is not had here."""
        if not name.isupper() and name.upper() not in cls._properties:
            return ""
        same = [it.names[cls.type_name] for it in cls._properties.values() if name in it.names.values()]
        if name in ABSENT and not same:
            return f": {ABSENT[name]}"
        near = same or difflib.get_close_matches(name.upper(), cls._properties, 1, 0.5)
        return f": is {near[0]} meant?" if near else ""


class Thing(Asked):
    """An object of a session. Rows of numbers are of int, Fraction, text, or what has a numerator and denominator.

    Each property of docs/properties.md that the type has is an attribute, found when it is asked for
    the first time; where it cannot be found, the exception is a `Refused`, and the object goes on.
    A property may be given too, by its name: it is believed as it stands.
    """

    # The names in lower case by which the constructor takes properties.
    _words = {}

    # What a bridge said of the file that it was read from, and what is believed of the file.
    notes, believed = [], []

    def __init__(self, *rows, session=None, **given):
        if rows:
            words = " or ".join(f"{self.type_name}({word}=[..])" for word in list(self._words)[:2])
            raise TypeError(f"a word says what the rows are: {words}")
        self._begin(session or current())
        steps = [Step(f"new {HERE} {self.type_name}")]
        for name, value in self._given(given):
            self._told.append(name)
            steps.append(Step(f"take {HERE} {name} {written(self._properties[name].kind, value, name)}"))
        self._make(steps)

    def _begin(self, session):
        """An object that the process does not hold yet."""
        self._session, self._name, self._steps = session, None, None
        self._values, self._before, self._end = {}, Step(""), None
        # the names of what was given
        self._told = []

    def _given(self, given):
        """The properties that are given, by their names, in the order of the table."""
        found = {}
        for word, value in given.items():
            name = self._name_of(word, given)
            if name not in self._properties:
                near = difflib.get_close_matches(word, [*self._words, *self._properties], 1, 0.5)
                told = f": is {near[0]} meant?" if near else ""
                raise TypeError(f"a {self.type_name} takes no {word!r}{told}")
            if name in found:
                raise TypeError(f"{name} is given twice")
            found[name] = value
        return self._counted(dict(sorted(found.items(), key=lambda it: self._properties[it[0]].number))).items()

    def _name_of(self, word, given):
        """The property that a word of the constructor names: `lineality` completes what it stands beside."""
        if word == "lineality" and word not in self._words:
            return "LINEALITY_SPACE" if {"vertices", "VERTICES", "RAYS"} & set(given) else "INPUT_LINEALITY"
        return self._words.get(word, word)

    def _counted(self, found):
        """Sets of places of rays get the number of rays, where these are given."""
        rays = next((found[it] for it in ("VERTICES", "RAYS") if it in found), None)
        for name in OF_RAYS:
            if rays is not None and name in found and not any(isinstance(it, dict) for it in found[name]):
                found[name] = [*found[name], {"cols": len([it for it in rays if not isinstance(it, dict)])}]
        return found

    def _make(self, steps):
        """Makes the object by these commands; where one is refused, there is no object."""
        session = self._session
        with session._lock:
            session._leave_room(sum(len(it.line) + 512 for it in steps))
            name = session._new_name()
            lines = session._repeat(steps, name)
            self._steps = steps
            session._put(self, name)
        return lines

    @classmethod
    def _made(cls, session, steps):
        """An object of this type by its commands."""
        thing = cls.__new__(cls)
        thing._begin(session)
        thing._make(steps)
        return thing

    # Questions.

    def _reference(self):
        return HERE

    def _say(self, line, asked="", changes=True):
        """The reply to a command about the object, which is made anew where the process does not hold it."""
        session = self._session
        with session._lock:
            session._ready(self, len(line))
            lines = session._ask(line.replace(HERE, self._name))
            step = Step(line)
            if changes and (not is_refused(lines) or is_tried(lines)) and self._steps and self._steps[-1] != step:
                self._steps.append(step)
            if is_refused(lines):
                raise self._refusal(lines, asked, line)
            return lines

    def _refusal(self, lines, asked="", line=""):
        """The exception of a refusal; of one for want of a chain, with what failed, what is held back, and what is held."""
        found = refusal_of(lines, self._given_by(line))
        found.when = self._why(found.number, line) or found.when
        if isinstance(found, NoChain):
            found.asked, found.failures, found.held = asked, self.failures, self.held
            found.barred = list(self._barred(line, {it.label for it in found.failures}))
            found.advice = list(advice(found.failures, found.barred, found.held, self._session.is_wide))
        return found

    def _why(self, number, line):
        """What a refusal says of a command about this object, where it says it of several things; or None."""
        words = line.split(" ")
        if number == UNKNOWN_PROPERTY:
            known = LinearProgram if "." in words[1] else type(self)
            unknown = next((it for it in words[2:] if it not in known._properties), "")
            return f"a {known.type_name} has no property {unknown!r}{known._near(unknown)}"
        return f"no rule of the book has the label {words[2]!r}" if number == UNKNOWN_RULE else None

    def _given_by(self, line):
        """The value that a command gives, beside the columns that the object has; None where it gives none."""
        if not line.startswith("take "):
            return None
        given = given_in([f"new {HERE} {self.type_name}", *(it.line for it in self._steps or []), line])
        for name in () if given.columns else self.held:
            item, reply = self._properties[name], self._say(f"lookup {HERE} {name}", changes=False)
            columns = columns_in(item.kind, item.first, parsed(reply[0].split(" ", 2)[2]))
            if columns is not None:
                return replace(given, columns={name: columns})
        return given

    def _barred(self, line, others):
        """The rules that `explain` tells to be held back from what a command asks, but the others."""
        command, _, asked = line.partition(" ")
        if command not in ("give", "ensure", "explain"):
            return
        reference, *names = asked.split(" ")
        labels = useful(self._session._ask("rules"), self._first_names(names, "." in reference))
        for it in self._session._ask(f"explain {asked}".replace(HERE, self._name)):
            found = BARRED.fullmatch(it)
            if found and found[1] in labels - others:
                yield Failure(found[1], found[2], found[3] or "")

    def _first_names(self, names, is_of_program):
        """The names that a book has for properties of this object, or of its linear programs."""
        if is_of_program:
            return {f"LP.{it}" for it in names}
        known = properties_of(self.type_name)
        return {known[it].first for it in names if it in known}

    @property
    def held(self):
        """Each property that is held, with its origin; nothing is computed."""
        lines = self._say(f"show {HERE}", changes=False)
        return dict(it.split(" ") for it in lines[1 : int(lines[0].split(" ")[2]) + 1])

    def disable(self, label):
        """Bars a rule of the book on this object from now on."""
        self._say(f"disable {HERE} {label}")

    # Why.

    @property
    def history(self):
        """The rounds, and the rules that are not tried again, as lines of docs/manual.md."""
        lines = self._say(f"history {HERE}", changes=False)
        return self._before.rounds + lines[1:]

    @property
    def failures(self):
        """The rules that failed, each with its evidence, or that were not tried since a condition is false."""
        found = [it.groups() for it in map(EXCLUDED.fullmatch, self.history) if it]
        return [self._failure(*it) for it in found]

    def _failure(self, label, how, what, program):
        """A rule that is not tried again."""
        evidence = self.evidence(label) if how == "failed" else []
        return Failure(label, how, what, program, tuple(it for it in evidence if it.program == program))

    def evidence(self, label):
        """The evidence by which a rule is barred on the object and its linear programs: a list of `Evidence`."""
        lines = self._say(f"evidence {HERE} {label}", changes=False)[1:]
        return [self._shown(it) for it in lines]

    def _shown(self, line):
        """One line of evidence; where the program has its number alone, what it showed before it was saved."""
        label, program, _, kind, text = EVIDENCE.fullmatch(line).groups()
        if text is None:
            same = (it for it in self._before.evidence if (it.label, it.program, it.kind) == (label, program, kind))
            return next(same, Evidence(label, program, kind, None, line))
        return Evidence(label, program, kind, json.loads(text), line)

    # Files, and what stays when the process does not hold the object.

    def save(self, path):
        """Writes the object to a file, with what was computed and which rules failed; `from_file` reads it."""
        with self._session._lock:
            self._say(f"save {HERE} {FILE}", changes=False)
            data = self._session.file().read_bytes()
        with open(path, "wb") as file:
            file.write(data)

    def _keep(self):
        """From now on the object is made anew by a text that is saved here; whether it is, since it may be too large."""
        with self._session._saving():
            if is_refused(self._session._ask(f"save {self._name} {FILE}")):
                return False
            data = self._session.file().read_bytes()
            rounds = [it for it in self.history if it.startswith("round ")]
            evidence = [it for failure in self.failures for it in failure.evidence]
        disabled = [it for it in self._steps or [] if it.line.startswith("disable ")]
        self._steps = [Step(f"load {HERE} {FILE}", data, rounds, evidence), *disabled]
        return True

    @classmethod
    def from_file(cls, path, session=None):
        """The object of a file: of one that `save` wrote, of polymake, cddlib, lrslib, Normaliz, or of plain rows.

        `notes` of the object has what the bridge said of the file, and `believed` the properties of
        it that are taken as they stand beside one plain description.
        """
        text = files.read(path)
        found = CLASSES[text.type_name]
        if not issubclass(found, cls) and not issubclass(cls, found):
            raise TypeError(f"{path} holds a {found.type_name}, and no {cls.__name__}")
        found = cls if issubclass(cls, found) else found
        thing = found.__new__(found)
        thing._begin(session or current())
        lines = thing._make([Step(f"load {HERE} {FILE}", text.data)])
        thing.notes, thing.believed = text.notes + files.read_over(lines), text.believed
        return thing

    def _built(self, line, cls, *others):
        """A new object, made by a command of this one and maybe others, which may find something of them."""
        session = self._session
        if any(it._session is not session for it in others):
            raise ValueError("the objects are of two sessions")
        with session._lock:
            things = [self, *others]
            for it in things + things:
                session._ready(it)
            name = session._new_name()
            lines = session._ask(line.format(*(it._name for it in things), new=name))
            for it in things:
                it._steps = it._steps if it._keep() else None
            if is_refused(lines):
                raise self._refusal_of_built(lines, things)
            return cls._found(session, name)

    @staticmethod
    def _refusal_of_built(lines, things):
        """The exception of a refusal; of one for want of a chain, of the last object of which a rule failed."""
        found = things[0]._refusal(lines)
        if isinstance(found, NoChain):
            for it in things[1:]:
                found = it._refusal(lines) if it.failures else found
        return found

    @classmethod
    def _found(cls, session, name):
        """The object that the process made under a name."""
        thing = cls.__new__(cls)
        thing._begin(session)
        session._put(thing, name)
        thing._keep()
        return thing

    def __reduce_ex__(self, protocol):
        raise TypeError("an object of a session is neither copied nor pickled: save it to a file, and load that")

    def __repr__(self):
        known = ", ".join(dict.fromkeys([*self._told, *self._values]))
        return f"<{type(self).__name__} {known}>" if known else f"<{type(self).__name__}>"

    def _repr_html_(self):
        return shown.table(self)


@with_properties
class Cone(Thing):
    """A cone, as `Cone(rays=[(1, 0), (1, 1)])` or `Cone(inequalities=[..], equations=[..])`.

    rays, lineality           rows that generate it, INPUT_RAYS and INPUT_LINEALITY; some may be redundant
    inequalities, equations   rows that cut it out; some may be redundant
    facets, linear_span       all and only its facets, in this order: believed as they stand
    RAYS=.., and any other property by its name: believed as it stands
    """

    _words = {
        "rays": "INPUT_RAYS",
        "inequalities": "INEQUALITIES",
        "equations": "EQUATIONS",
        "facets": "FACETS",
        "linear_span": "LINEAR_SPAN",
    }


@with_properties
class Fan(Thing):
    """A fan, as `Fan(rays=[(1, 0), (0, 1)], maximal_cones=[[0, 1]])`.

    rays, lineality   the extreme rays of its cones, RAYS, and LINEALITY_SPACE
    maximal_cones     each as the places of its rays, from 0
    """

    _words = {"rays": "RAYS", "lineality": "LINEALITY_SPACE", "maximal_cones": "MAXIMAL_CONES"}

    def refine(self, other):
        """The common refinement of two fans."""
        return self._built("refine {} {} {new}", Fan, other)


@with_properties
class Polytope(Thing):
    """A polytope, as `Polytope(points=[(1, 0, 0), (1, 1, 0), (1, 0, 1)])`; it may be unbounded, or empty.

    points, lineality         rows (1, x), or (0, d) of directions, and lines (0, d); some may be redundant
    inequalities, equations   rows (a0, a1, ..) of a0 + a1 x1 + .. >= 0, or = 0; some may be redundant
    vertices, lineality       all and only its vertices, in this order: believed as they stand
    facets, affine_hull       all and only its facets, in this order: believed as they stand
    sites, heights            points beside it, for DELAUNAY_CELLS and REGULAR_CELLS
    affine=True               points, vertices and sites are rows x, and lineality rows d, without first column
    any other property by its name: believed as it stands
    """

    _words = {
        "points": "POINTS",
        "inequalities": "INEQUALITIES",
        "equations": "EQUATIONS",
        "vertices": "VERTICES",
        "facets": "FACETS",
        "affine_hull": "AFFINE_HULL",
        "sites": "SITES",
        "heights": "SITE_HEIGHTS",
    }

    # The rows that affine=True completes, by their first entry.
    _first = {"POINTS": 1, "VERTICES": 1, "SITES": 1, "INPUT_LINEALITY": 0, "LINEALITY_SPACE": 0}

    def __init__(self, *rows, session=None, affine=False, **given):
        if affine:
            given = {word: self._homogeneous(self._name_of(word, given), rows) for word, rows in given.items()}
        try:
            super().__init__(*rows, session=session, **given)
        except BadValue as refusal:
            if affine and refusal.property in self._first:
                refusal.without_first_column()
            raise

    def _homogeneous(self, name, rows):
        """Rows with the first column that they lack."""
        if name not in self._first:
            return rows
        return [it if isinstance(it, dict) else [self._first[name], *it] for it in rows_of(rows, name)]

    def _begin(self, session):
        super()._begin(session)
        # the names of its linear programs, those of them that have no objective, and all that there were
        self._subs, self._spare, self._used = [], [], set()

    def lp(self, objective):
        """The linear program of an objective (c0, c1, ..), which is c0 + c1 x1 + .. at the point x.

        The program holds four of a polytope: before a fifth one the polytope is saved to a text without
        them and loaded, so that what was computed of it counts as stored from then on.
        """
        return LinearProgram(self, objective)

    @property
    def programs(self):
        """The linear programs that the polytope has now, by their names: those of a file too."""
        return {it: LinearProgram._of(self, it) for it in self._names_of_programs()}

    def _names_of_programs(self):
        lines = self._say(f"show {HERE}", changes=False)
        self._subs = [it.split(" ")[1] for it in lines if it.startswith("program: ")]
        return self._subs

    def _new_sub(self, name=None):
        """A linear program more, of this name or a new one, which holds no objective yet."""
        if self._spare and name is None:
            return self._spare.pop()
        self._used.update(self._names_of_programs())
        if len(self._subs) == MOST_PROGRAMS:
            self._without_programs()
        name = name or next(it for it in map("lp{}".format, count()) if it not in self._used)
        self._say(f"new {HERE}.{name} LP")
        self._subs.append(name)
        return name

    def _without_programs(self):
        """Lets the linear programs go: the object is made anew by its text without them."""
        session = self._session
        session._ready(self)
        if not self._keep():
            found = refusal_of(["no 9 ObjectsFull"])
            found.when = "a polytope has at most four linear programs, and this one is too large to be saved without them"
            raise found
        text = json.loads(self._steps[0].file)
        text.pop("LP", None)
        self._steps[0].file = json.dumps(text, separators=(",", ":")).encode()
        session._drop(self._name)
        self._subs, self._spare = [], []

    def polar(self):
        """The polar of a bounded polytope of full dimension with 0 in its interior."""
        return self._built("polar {} {new}", Polytope)

    def pyramid(self):
        """The pyramid over it, in one dimension more, with apex (0, .., 0, 1)."""
        return self._built("pyramid {} {new}", Polytope)

    def product(self, other):
        """The product of two polytopes."""
        return self._built("product {} {} {new}", Polytope, other)

    def minkowski(self, other):
        """The Minkowski sum of two polytopes."""
        return self._built("minkowski {} {} {new}", Polytope, other)

    def normal_fan(self):
        """The normal fan of a bounded polytope: for each vertex the cone of the objectives that are least there."""
        return self._built("normalfan {} {new}", Fan)

    def face_fan(self):
        """The fan of the cones over the facets of a bounded polytope with 0 in its interior."""
        return self._built("facefan {} {new}", Fan)


@with_properties
class LinearProgram(Asked):
    """A linear program over a polytope: `p.lp((0, 1, 1)).MAXIMAL_VALUE`."""

    def __init__(self, polytope, objective):
        self._begin(polytope, None)
        self._objective = written("row", objective, "LINEAR_OBJECTIVE")
        with self._session._lock:
            self._attach()
        self._values["LINEAR_OBJECTIVE"] = read("row", self._objective)

    def _begin(self, polytope, name):
        self._polytope, self._session, self._values = polytope, polytope._session, {}
        self._name, self._objective = name, None

    @classmethod
    def _of(cls, polytope, name):
        """The linear program of a name, which the polytope holds."""
        found = cls.__new__(cls)
        found._begin(polytope, name)
        objective = found.lookup("LINEAR_OBJECTIVE")
        if objective is not None:
            found._objective = written("row", objective)
            found._values["LINEAR_OBJECTIVE"] = objective
        return found

    def _attach(self):
        """The polytope holds the program."""
        self._name = self._polytope._new_sub(self._name)
        if self._objective is None:
            return
        try:
            self._polytope._say(f"take {self._reference()} LINEAR_OBJECTIVE {self._objective}")
        except Refused:
            self._polytope._spare.append(self._name)
            raise

    def _reference(self):
        return f"{HERE}.{self._name}"

    def _say(self, line, asked="", changes=True):
        """The reply to a question, for which the polytope holds the program."""
        with self._session._lock:
            if self._name not in self._polytope._subs:
                self._attach()
            return self._polytope._say(line, f"{self._name}.{asked}", changes)

    def __repr__(self):
        return f"<LinearProgram {self._name} of {self._polytope!r}>"

    def _repr_html_(self):
        return shown.program(self)


CLASSES = {"Polytope": Polytope, "Cone": Cone, "Fan": Fan}


def standard(session, words):
    """A polytope that `make` makes."""
    return Polytope._made(session or current(), [Step(f"make {HERE} {words}")])


def cube(dimension, session=None):
    """All points with coordinates from -1 to 1."""
    return standard(session, f"cube {index(dimension)}")


def simplex(dimension, session=None):
    """The simplex of 0 and the unit vectors."""
    return standard(session, f"simplex {index(dimension)}")


def cross(dimension, session=None):
    """The convex hull of the unit vectors and their opposites."""
    return standard(session, f"cross {index(dimension)}")


def cyclic(dimension, count, session=None):
    """That of so many points of the moment curve (t, t^2, ..)."""
    return standard(session, f"cyclic {index(dimension)} {index(count)}")
