"""Asks this program about a data file: what it holds, or the values of properties."""

import difflib
import json
import os
import re
import shutil
import sys
import tempfile
from pathlib import Path

import agreeing
import command
import looks
import plans
import value_faults
import why
from absent import ABSENT
from calls import wrapper
from polymake_files import data_text, read_polymake
from properties import PAIRS, PROGRAM_PROPERTIES, Kind, by_name
from refusals import WORD, Notes, Refusal, shown, told_path
from replies import names_read_over
from session import Ended, Session
from sizes import fits, largest, most_of
from values import compact, written

PROPERTY = re.compile(r"(?:([A-Za-z][A-Za-z0-9_]{0,31})\.)?([A-Z][A-Z0-9_]*)", re.ASCII)
OBJECT = "p"

# The plain descriptions, each by both halves; what describes a fan; and what is beside the object.
PLAIN = (("POINTS", "INPUT_LINEALITY"), ("INEQUALITIES", "EQUATIONS"))
PLAIN_OF_FANS = ("VERTICES", "LINEALITY_SPACE", "MAXIMAL_CONES")
GIVEN = ("CONE_AMBIENT_DIM", "SITES", "SITE_HEIGHTS")


class Asked:
    """A data file: its text as the program loads it, and what it holds."""

    def __init__(self, path, notes):
        self.path = path
        text = command.text_at(path)
        self.form = looks.form_of(text)
        is_saved = self.form is looks.SAVED
        self.thing = read_polymake(text, Notes()) if is_saved else looks.read_thing(text, notes)
        self.data = text if is_saved else data_text(self.thing)

    def no_name(self, word):
        """What is said of a word that has not the form of a property's name."""
        if Path(word).exists():
            return f"{told_path(word)} is a file, where a property is wanted: one file is asked about at a time"
        known = [*by_name(self.thing.type_name), *PROGRAM_PROPERTIES]
        near = difflib.get_close_matches(word.upper(), known, 1, 0.5)
        hint = f"is {near[0]} meant? " if near else ""
        told = "names of properties are in capitals, like N_FACETS"
        return f"there is no property {shown(word)}: {told}: {hint}docs/properties.md has all"

    def references(self, word):
        """The objects and properties that a word asks for: p VERTICES, or p.lp MAXIMAL_VALUE."""
        found = PROPERTY.fullmatch(word)
        if not found:
            raise Refusal(None, self.no_name(word))
        program, name = found.groups()
        names = [it.name for it in self.thing.programs]
        if program not in (None, "LP"):
            return [(f"{OBJECT}.{program}", name)]
        if name in PROGRAM_PROPERTIES and (names or program):
            if not names:
                raise Refusal(None, f"'{word}' is asked, and the file has no linear program")
            return [(f"{OBJECT}.{it}", name) for it in names]
        return [(OBJECT, name)]


def words():
    told = command.parser("ask", "Asks this program about a data file; ./polymake calls it.")
    told.add_argument("--program", required=True, metavar="PATH", help="the built program")
    told.add_argument("--trace", action="store_true", help="print the rounds behind each value")
    told.add_argument("--plan", metavar="PATH", help="print the plan of each property in place of its value, and what this checker says of it")
    told.add_argument("--check", action="store_true", help="say whether the values of the file agree with each other")
    told.add_argument("--rules", metavar="NAME", help="a book of this folder")
    told.add_argument("--book", metavar="PATH", help="the book that is taken where --rules names none")
    told.add_argument("file", metavar="FILE", help="the data file")
    told.add_argument("properties", metavar="PROP", nargs="*", help="what is asked")
    return told


def program_words(options, folder):
    """The words of the program, whose book stands in the folder that it runs in."""
    found = ["--trace"] if options.trace else []
    if options.rules is not None:
        if Path(options.rules).is_file():
            shutil.copy(options.rules, folder)
        found += ["--rules", options.rules]
    elif options.book is not None:
        shutil.copy(options.book, folder)
        found += ["--rules", Path(options.book).name]
    return found


def say(text):
    print(f"polymake: {text}", file=sys.stderr)


def count_of(thing, item):
    """How many rows a matrix or sets have."""
    value = thing.values[item.polytope]
    if item.kind not in (Kind.MATRIX, Kind.SETS):
        return ""
    return f" ({len(value[0] if item.kind is Kind.SETS else value)})"


# What is worth asking, by its first names.
WORTH_ASKING = ("VERTICES", "FACETS", "F_VECTOR", "FAN_DIM", "SIMPLICIAL", "PURE", "DIAMETER", "CONE_DIM")


def worth_asking(thing):
    """Two properties that the file does not hold, or that it holds where it holds all."""
    known = {it.polytope: name for name, it in by_name(thing.type_name).items()}
    names = [it for it in WORTH_ASKING if it in known]
    names += [it for it in known if it not in (*names, *PAIRS, *PAIRS.values(), *GIVEN)]
    return [known[it] for it in sorted(names, key=lambda it: it in thing.values)][:2]


def believed(thing):
    """The names of the values that are taken as they stand beside a plain description."""
    plain = PLAIN_OF_FANS if thing.type_name == "Fan" else ()
    for pair in PLAIN:
        if not plain and any(thing.has(it) for it in pair):
            plain = pair
    known, left = by_name(thing.type_name), (*plain, *GIVEN)
    return [k for k, it in known.items() if thing.has(it.polytope) and it.polytope not in left]


def tell_believed(asked):
    """Which values of the file count as given, beyond one description."""
    names = believed(asked.thing)
    if names:
        say(f"{told_path(asked.path)}: believed: {', '.join(names)}")


def load_reply(lines):
    """The reply to `load` in one line, whose names have no mark that a terminal would obey."""
    names = names_read_over(lines)
    if not names:
        return "\n".join(lines)
    told = [it if WORD.fullmatch(it) else json.dumps(it) for it in names]
    return f"ok ignored {' '.join(told)}"


# The descriptions, each by its lines or equations and its other rows.
DESCRIPTIONS = (
    ("INPUT_LINEALITY", "POINTS"),
    ("EQUATIONS", "INEQUALITIES"),
    ("LINEALITY_SPACE", "VERTICES"),
    ("AFFINE_HULL", "FACETS"),
)


# What the program takes: columns of a matrix, and rows.
MOST_COLUMNS, MOST_ROWS = 33, 2048


def beyond_lines(thing):
    """Why the program refuses a file for its shape, if it does."""
    if thing.columns > MOST_COLUMNS:
        yield f"{thing.columns} columns, of which the program takes at most {MOST_COLUMNS}"
    for lines, rows in DESCRIPTIONS:
        for item in by_name(thing.type_name).values():
            count = len(thing.rows(item.polytope)) if item.polytope in (lines, rows) else 0
            if count > MOST_ROWS:
                told = f"{count:,} rows, of which the program takes at most {MOST_ROWS:,}"
                yield f"{item.name(thing.type_name)} has {told}"


def size_lines(asked):
    """Whether the first description of the file fits by its size, before anything is computed."""
    thing = asked.thing
    beyond = list(beyond_lines(thing))
    if beyond:
        yield from beyond
        return
    for lines, rows in DESCRIPTIONS:
        if thing.type_name == "Fan" or not thing.rows(rows):
            continue
        most = most_of([*thing.rows(lines), *thing.rows(rows)])
        count = len(thing.rows(lines))
        bound = largest(lambda size: fits(thing.columns, size, count))
        told = f"{thing.columns} columns, whole entries of at most {most:,}"
        if most <= bound:
            yield f"it fits by its size ({told}): no number on the way to facets and vertices is too wide"
        else:
            yield f"it does not surely fit by its size ({told}): of at most {bound:,} it would"
        return


def held_lines(asked):
    """What a file holds, and what to type."""
    thing, path = asked.thing, told_path(asked.path)
    held = [
        f"{item.name(thing.type_name)}{count_of(thing, item)}"
        for name in by_name(thing.type_name)
        for item in [by_name(thing.type_name)[name]]
        if item.polytope in thing.values
    ]
    kind = f"a {thing.type_name.lower()} {asked.form}"
    yield f"{path}: {kind}, with {', '.join(held) or 'no values'}"
    for program in thing.programs:
        yield f"{path}: its linear program {program.name}, with {', '.join(program.values)}"
    for line in size_lines(asked):
        yield f"{path}: {line}"
    example = " ".join(worth_asking(thing))
    if thing.programs:
        example = f"{thing.programs[0].name}.MAXIMAL_VALUE"
    told = f"{wrapper()} {path} {example}; docs/properties.md has all of them"
    yield f"ask for properties: {told}"


def tell_unknown(asked, name, in_program):
    """A name that the type does not have, and the nearest one."""
    if name in PROGRAM_PROPERTIES and not in_program:
        say(f"{name} is a property of linear programs, and the file has none")
        return
    known = PROGRAM_PROPERTIES if in_program else by_name(asked.thing.type_name)
    kind = "linear programs" if in_program else f"{asked.thing.type_name.lower()}s"
    near = difflib.get_close_matches(name, known, 1, 0.5)
    hint = f"is {near[0]} meant? " if near else ""
    if name in ABSENT:
        hint = f"{ABSENT[name]}; "
    say(f"{name} is no property of {kind}: {hint}docs/properties.md has all of them")


def tell_refusal(asked, reference, name, reply):
    """What the reply to a property that was refused says, in words."""
    if reply.startswith("no 2 "):
        names = ", ".join(it.name for it in asked.thing.programs)
        known = f"it has {names}" if names else "it has none"
        say(f"the file has no linear program '{reference.partition('.')[2]}': {known}")
    elif reply.startswith("no 5 "):
        tell_unknown(asked, name, "." in reference)
    elif reply.startswith("no 11 "):
        say(f"{name}: too many chains cost less: ask first for what it is found from, like VERTICES")


def plan_all(session, asked, options, wanted, folder):
    """The plan of each property in short, with what the checker says of it; and the properties that have none."""
    refused = []
    for reference, name in wanted:
        found = plans.explained(session, reference, asked.thing.type_name, [name])
        print(f"{shown_name(reference, name)}: {found.short}")
        if found.lines[0].startswith(("plan ", "no 10 ")) and os.access(options.plan, os.X_OK):
            book = book_name(options)
            said = plans.verdict(options.plan, found, book, folder)
            print(f"    {said}: {plans.typed(found, options.rules or options.book)}", flush=True)
        if found.lines[0].startswith("no "):
            refused.append((reference, name, found.lines[0]))
    for it in refused:
        tell_refusal(asked, *it)
    tell_why(session, asked, options, refused)
    return refused


def shown_name(reference, name):
    """A property, with its linear program before it."""
    return f"{reference.partition('.')[2]}.{name}".lstrip(".")


def book_name(options):
    """The book as the folder of the run has it, or None."""
    return options.rules if options.rules is not None else options.book and Path(options.book).name


def give_all(session, asked, options, wanted):
    """The properties that are asked, and those that were refused."""
    refused = []
    for reference, name in wanted:
        lines = session.ask(f"give {reference} {name}")
        print("\n".join(lines), flush=True)
        if lines[0].startswith("no "):
            refused.append((reference, name, lines[0]))
    for it in refused:
        tell_refusal(asked, *it)
    tell_why(session, asked, options, refused)
    return refused


def tell_why(session, asked, options, refused):
    """Why no chain led to properties, in words."""
    no_chain = [(reference, name) for reference, name, reply in refused if reply.startswith("no 10 ")]
    if no_chain:
        is_standard = options.rules is None and options.book is None
        for line in why.lines(session, asked, OBJECT, no_chain, is_standard):
            say(line)


def value_fault(thing, reply):
    """What is wrong with the value that the refusal of a file names, or None."""
    words = reply.split(" ")
    item = by_name(thing.type_name).get(words[4]) if len(words) == 6 and words[3] == "BadProperty" else None
    if item is None or item.polytope not in thing.values:
        return None
    fault = value_faults.told(words[5], item, thing.type_name, compact(written(item.kind, thing.values[item.polytope])), None)
    return f"{fault}; round the numbers, or scale them" if "127 bits" in fault else fault


def run(asked, options, folder):
    """Exit status 0, or 1 where a line was refused."""
    wanted = [it for word in options.properties for it in asked.references(word)]
    (folder / "p.json").write_bytes(asked.data.encode())
    tell_believed(asked)
    with Session(options.program, program_words(options, folder), folder) as session:
        lines = session.ask(f"load {OBJECT} p.json")
        print(load_reply(lines), flush=True)
        if lines[0].startswith("no "):
            told = "; ".join(beyond_lines(asked.thing)) or value_fault(asked.thing, lines[0]) or "docs/from-polymake.md has what a file may hold"
            say(f"{told_path(asked.path)}: the program refuses it, {shown(lines[0], 60)}: {told}")
            return 1
        if options.plan is not None:
            return 1 if plan_all(session, asked, options, wanted, folder) else 0
        return 1 if give_all(session, asked, options, wanted) else 0


def check(asked, options, folder):
    """Exit status 0 where nothing in the file contradicts, and 1 where something does or nothing is compared."""
    path = told_path(asked.path)
    with Session(options.program, program_words(options, folder), folder) as session:
        lines, compared, left = agreeing.faults(session, asked.thing)
    for line in lines:
        print(f"{path}: {line}")
    if not lines and len(compared) < 2:
        print(f"{path}: nothing stands beside a description: there is nothing to compare")
    elif not lines:
        print(f"{path}: these agree: {', '.join(compared)}")
    if left:
        print(f"{path}: not compared: {', '.join(left)}")
    return 1 if lines else 0


def answered(options, notes):
    """The exit status of a call whose file is understood."""
    asked = Asked(options.file, notes)
    for line, text in notes.told:
        say(f"{told_path(options.file)}:{line}: {text}")
    if options.check:
        with tempfile.TemporaryDirectory() as folder:
            return check(asked, options, Path(folder))
    if not options.properties:
        print("\n".join(held_lines(asked)), flush=True)
        return 0
    with tempfile.TemporaryDirectory() as folder:
        return run(asked, options, Path(folder))


def main(arguments=None):
    options = words().parse_args(arguments)
    try:
        return answered(options, Notes())
    except Refusal as refusal:
        line = "" if refusal.line is None else f"{refusal.line}:"
        say(f"{told_path(options.file)}:{line} {refusal.text}")
        return 2
    except Ended as ended:
        print("".join(f"{load_reply([it])}\n" for it in ended.lines), end="")
        if ended.status == 2:
            say("the program does not take these words; ./polymake --help tells them")
        return ended.status
    except OSError:
        os.dup2(os.open(os.devnull, os.O_WRONLY), sys.stdout.fileno())
        return 4
