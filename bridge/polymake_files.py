"""Data files of polymake (JSON, since its version 4), from which scripts come and replies go."""

import json
import re

import command
import far_face
from json_places import line_of_row, members
from properties import (
    MOST_PROGRAMS,
    PAIRS,
    PROGRAM_PROPERTIES,
    PROPERTIES,
    TYPES,
    Kind,
    Program,
    Thing,
    by_name,
)
from refusals import Fault, Refusal, quoted, shown, told_name
from replies import read_replies
from scripts import NAME, script_lines
from values import compact, put_program_value, put_value, written

NAMESPACE = {"polymake": ["https://polymake.org", "4.6"]}
PROFILE = re.compile(r'"_profile"\s*:\s*2\s*[,}]')

# Why one description alone is taken of a cone of dimension 1.
OF_A_RAY = "of a cone of dimension 1, polymake's values depend on which was asked first"

H_VECTOR = "polymake's is the toric one, which is that of here where SIMPLICIAL is true"

# What polymake names a subobject that has no name.
UNNAMED = re.compile(r"unnamed#[0-9]+")

# What polymake holds of the empty polytope, and has another meaning here.
OF_THE_EMPTY = {
    "FACETS": "polymake's equations of the empty polytope are not those of here",
    "AFFINE_HULL": "of the empty polytope, each row vanishes on it here, and not in polymake",
    "CENTERED": "the empty polytope is centered in polymake, and here it is not",
}


def type_of(found):
    """The type's name here."""
    if "_type" not in found:
        raise Refusal(1, "no '_type': no data file of an object of polymake")
    member = found["_type"]
    named = next((it for it, full in TYPES.items() if full == member.value), None)
    if not named:
        *others, last = TYPES.values()
        known = f"{', '.join(others)} nor {last}"
        told = quoted(member.value) if isinstance(member.value, str) else "of '_type'"
        raise Refusal(member.line, f"the type {told} is neither {known}")
    return named


def attachments(found):
    """The names of what a user attached: no properties."""
    attributes = found["_attrs"].value if "_attrs" in found else {}
    if not isinstance(attributes, dict):
        raise Refusal(found["_attrs"].line, "'_attrs' is no object")
    return {k for k, it in attributes.items() if isinstance(it, dict) and it.get("attachment")}


def why_left(member, items, attached, saved):
    """Why a member is left out, or None where it is taken."""
    if member.key in attached:
        return "an attachment, which is no property"
    if member.key not in items:
        hint = f", and {member.key.upper()} is one" if member.key.upper() in items else ""
        return f"no property that this program takes{hint}"
    if not saved and not items[member.key].is_of_polymake:
        return "polymake has it in another form"
    return "it is undefined in the file" if member.value is None else None


def check_points(thing, found):
    """One generator of a polytope is a point: of directions polymake makes the empty polytope."""
    for name in ("POINTS", "VERTICES"):
        rows = thing.rows(name)
        if thing.type_name == "Polytope" and rows and not any(it and it[0] > 0 for it in rows):
            raise Refusal(found[name].line, f"{name}: no row has a positive first entry")


def leave_out_of_empty(thing, found, notes):
    """Leaves out what polymake holds of the empty polytope in another sense."""
    if not thing.is_said_empty():
        return
    is_whole = len(thing.rows("AFFINE_HULL")) == thing.columns
    kept = ("FACETS", "AFFINE_HULL") if is_whole else ()
    for name, why in OF_THE_EMPTY.items():
        if thing.values.get(name) not in (None, False) and name not in kept:
            del thing.values[name]
            notes.tell(found[name].line, f"{name}: {why}: left out")


def chosen(found, only, type_name, items):
    """The members that are asked for; a half of a pair alone would mean something else."""
    if only is None:
        return list(found.values())
    names = {it.polytope: it.name(type_name) for it in PROPERTIES}
    for name in only:
        if name not in items and not (name == "LP" and type_name == "Polytope"):
            told = "is asked for, and no property that this program takes"
            raise Refusal(None, f"{shown(name)} {told}")
        if name not in found:
            raise Refusal(None, f"{name}: it is asked for, and the file does not have it")
    for first, second in PAIRS.items():
        first, second = names[first], names[second]
        if first in only and second in found and second not in only:
            raise Refusal(
                found[second].line, f"{second}: it is left out beside {first}: ask for both"
            )
    return [found[it] for it in only]


def judged(found, items, type_name):
    """What tells whether a file's facets are all there are, whatever is asked of it."""
    thing = Thing(type_name)
    for member in found.values():
        if member.key in items and member.value is not None:
            try:
                put_value(thing, items[member.key], member.value)
            except Fault:
                thing.values.pop(items[member.key].polytope, None)
    return thing


def leave_out_in_doubt(thing, found, notes):
    """Where facets may be wanting, one description is taken, and what is left out is named."""
    names = {it.polytope: it.name(thing.type_name) for it in PROPERTIES}
    is_nothing = thing.is_said_empty() or thing.values.get("FACETS") == []
    left, pair = far_face.keep_description(thing)
    if pair is None or pair[0] == "FACETS" and is_nothing:
        first = names[next(iter(left), "FACETS")]
        told = "nothing that is taken is a description"
        raise Refusal(found[first].line, f"{first}: {far_face.IN_DOUBT}, and {told}")
    anew = f"found anew from {pair[0]}"
    for of_facets, why in ((True, far_face.IN_DOUBT), (False, anew)):
        told = [names[it] for it in left if (it in far_face.OF_FACETS) == of_facets]
        if told:
            notes.tell(found[told[0]].line, f"{', '.join(told)}: {why}: left out")
    if pair[0] == "FACETS":
        told = f"{far_face.IN_DOUBT}: taken as INEQUALITIES, with AFFINE_HULL as EQUATIONS"
        notes.tell(found["FACETS"].line, f"FACETS: {told}")


def keep_of_a_ray(thing, found, notes):
    """Keeps one description alone of a cone of dimension 1; else N_FACETS may be wrong alone."""
    names = {it.polytope: it.name(thing.type_name) for it in PROPERTIES}
    is_so = far_face.is_of_dimension_1(judged(found, by_name(thing.type_name), thing.type_name))
    if is_so and far_face.description_of(thing) is not None:
        left = [names[it] for it in far_face.keep_description(thing)[0]]
        if left:
            notes.tell(found[left[0]].line, f"{', '.join(left)}: {OF_A_RAY}: left out")
    elif is_so is not False and thing.values.get("N_FACETS") == 0:
        del thing.values["N_FACETS"]
        notes.tell(found["N_FACETS"].line, "N_FACETS: polymake has 0 of a ray too: left out")


def leave_out_toric(thing, found, notes):
    """Leaves out an h-vector that may be another one than here."""
    is_simplicial = "SIMPLICIAL" in found and found["SIMPLICIAL"].value is True
    if "H_VECTOR" in thing.values and not is_simplicial:
        del thing.values["H_VECTOR"]
        notes.tell(found["H_VECTOR"].line, f"H_VECTOR: {H_VECTOR}: left out")


def leave_out_other_senses(thing, found, notes):
    """Leaves out what polymake has in another sense than this program."""
    if thing.type_name == "Cone":
        keep_of_a_ray(thing, found, notes)
    elif far_face.are_whole(judged(found, by_name(thing.type_name), thing.type_name)):
        leave_out_of_empty(thing, found, notes)
    elif far_face.may_lack(thing):
        leave_out_in_doubt(thing, found, notes)
    leave_out_toric(thing, found, notes)


def is_saved(text):
    """Whether this program saved the file: then its values are meant as here."""
    if not PROFILE.search(text):
        return False
    try:
        profile = members(text).get("_profile")
    except Refusal:
        return False
    return profile is not None and profile.value == 2 and isinstance(profile.value, int)


def name_of(entry, at, taken, tell):
    """The name of a program here: that which the file has, where it is one, else lp0 and so on."""
    name = entry.get("_name", entry.get("_id"))
    if isinstance(name, str) and NAME.fullmatch(name) and name not in taken:
        return name
    others = (f"lp{it}" for it in range(at, at + 2 * MOST_PROGRAMS))
    new = next(it for it in others if it not in taken)
    if isinstance(name, str) and not UNNAMED.fullmatch(name):
        tell(f"the program {told_name(name)} is {new} here")
    return new


def put_objective(thing, program, entry):
    value = entry["LINEAR_OBJECTIVE"]
    try:
        put_program_value(thing, program, "LINEAR_OBJECTIVE", value)
    except Fault as fault:
        raise Fault(f"{program.name}: LINEAR_OBJECTIVE: {fault.text}") from None


def put_programs(thing, value, tell):
    """Holds the linear programs of a file by their objectives; the rest is found of them."""
    entries = value if isinstance(value, list) else [value]
    if not all(isinstance(it, dict) for it in entries):
        raise Fault("no linear programs")
    left = {}
    for at, entry in enumerate(entries[:MOST_PROGRAMS]):
        program = Program(name_of(entry, at, [it.name for it in thing.programs], tell))
        left |= {k: None for k in entry if not k.startswith("_") and k != "LINEAR_OBJECTIVE"}
        thing.programs.append(program)
        if "LINEAR_OBJECTIVE" in entry:
            put_objective(thing, program, entry)
    if left:
        names = ", ".join(told_name(it) for it in sorted(left))
        tell(f"{names}: found anew from LINEAR_OBJECTIVE: left out")
    if len(entries) > MOST_PROGRAMS:
        tell(f"{len(entries)} programs, of which {MOST_PROGRAMS} are taken, and the others left out")


def put_member(thing, member, items, notes):
    """Holds what a member says."""
    if member.key == "LP" and thing.type_name == "Polytope":
        put_programs(thing, member.value, lambda it: notes.tell(member.line, f"LP: {it}"))
    else:
        put_value(thing, items[member.key], member.value)


def check_fan(thing, found):
    """A fan is given by its rays and its maximal cones."""
    if thing.type_name != "Fan" or thing.has("VERTICES", "MAXIMAL_CONES"):
        return
    other = found.get("INPUT_RAYS", found["_type"])
    told = "a fan is read by RAYS and MAXIMAL_CONES: ask polymake for both, and save it anew"
    raise Refusal(other.line, told)


def read_polymake(text, notes, only=None):
    """The polytope, the cone or the fan of a data file."""
    if text.lstrip().startswith(("<", "_")):
        raise Refusal(
            1, "a file of polymake before version 4: let polymake load it and save it anew"
        )
    found, saved = members(text), is_saved(text)
    thing = Thing(type_of(found))
    items, attached = by_name(thing.type_name), attachments(found)
    for member in chosen(found, only, thing.type_name, items):
        if member.key.startswith("_"):
            continue
        is_program = member.key == "LP" and thing.type_name == "Polytope"
        why = None if is_program else why_left(member, items, attached, saved)
        if why:
            notes.tell(member.line, f"{told_name(member.key)}: {why}: left out")
            continue
        try:
            put_member(thing, member, items, notes)
        except Fault as fault:
            row = "" if fault.row is None else f"row {fault.row + 1}: "
            line = line_of_row(text, member, fault.row)
            raise Refusal(line, f"{member.key}: {row}{fault.text}") from None
    check_points(thing, found)
    check_fan(thing, found)
    if not saved:
        leave_out_other_senses(thing, found, notes)
    return thing


def with_far_row(thing, rows):
    """The inequalities of a polytope with x0 >= 0: in a file, polymake does not add it."""
    if thing.type_name != "Polytope":
        return rows
    far = [1, *[0] * (thing.columns - 1)]
    return rows if far in rows else [*rows, far]


def check_halves(thing):
    """Of a half of a description alone polymake thinks that it is all."""
    halves = [*PAIRS.items(), ("INPUT_LINEALITY", "POINTS"), ("EQUATIONS", "INEQUALITIES")]
    names = {it.polytope: it.name(thing.type_name) for it in PROPERTIES}
    if thing.type_name == "Fan":
        halves = [("VERTICES", "LINEALITY_SPACE"), ("MAXIMAL_CONES", "VERTICES")]
    for first, second in halves:
        if thing.has(first) and not thing.has(second):
            told = f"{names[first]} without {names[second]}"
            raise Refusal(None, f"{told} is all that there is to polymake: show both")


def leave_out_foreign(thing, notes):
    """Leaves out what polymake's files do not hold in this form, or in another sense."""
    if thing.has("H_VECTOR") and thing.values.get("SIMPLICIAL") is not True:
        del thing.values["H_VECTOR"]
        notes.tell(1, f"H_VECTOR: {H_VECTOR}, and this is not shown: left out")
    for item in PROPERTIES:
        if not item.is_of_polymake and thing.values.pop(item.polytope, None) is not None:
            notes.tell(1, f"{item.name(thing.type_name)}: polymake has it in another form: left out")
    for program in thing.programs:
        for name in [it for it in program.values if not why_none(thing, program, it) is None]:
            notes.tell(1, f"{program.name}.{name}: {why_none(thing, program, name)}: left out")
            del program.values[name]


def why_none(thing, program, name):
    """Why polymake's file holds no such value of a program, or None where it does."""
    if not PROGRAM_PROPERTIES[name][1]:
        return "polymake has none"
    if name.endswith("_FACE") and not thing.has("VERTICES"):
        return "it counts VERTICES, which are not shown"
    is_bounded = far_face.are_finite(thing.rows("VERTICES")) and not thing.rows("LINEALITY_SPACE")
    if name.endswith("_FACE") and not is_bounded:
        return "of an unbounded polyhedron, polymake counts other rays"
    if program.values[name] == {"MAXIMAL_VALUE": "-inf", "MINIMAL_VALUE": "inf"}.get(name):
        return "there is no point, and then polymake has none"
    return None


def program_entry(program):
    """A program as a subobject of polymake's file."""
    if "LINEAR_OBJECTIVE" not in program.values:
        told = "LINEAR_OBJECTIVE is not shown: look it up too"
        raise Refusal(None, f"the program {program.name} without its objective: {told}")
    held = {"_id": program.name}
    for name, (kind, _) in PROGRAM_PROPERTIES.items():
        if name in program.values:
            held[name] = written(kind, program.values[name])
    return held


def polymake_text(thing):
    """A data file that polymake loads."""
    check_halves(thing)
    held = {"_ns": NAMESPACE, "_type": TYPES[thing.type_name]}
    for item in PROPERTIES:
        name, value = item.name(thing.type_name), thing.values.get(item.polytope)
        if value is None:
            continue
        if value == [] and item.polytope in COLUMNED and thing.columns is None:
            raise Refusal(
                None,
                f"{name}: it has no rows, and nothing tells its columns: show CONE_AMBIENT_DIM too",
            )
        if item.polytope == "INEQUALITIES":
            value = with_far_row(thing, value)
        columns = thing.columns if item.polytope in COLUMNED else None
        held[name] = written(item.kind, value, columns)
    if thing.programs:
        held["LP"] = [program_entry(it) for it in thing.programs]
    return compact(held) + "\n"


COLUMNED = {it for pair in PAIRS.items() for it in pair}


def data_text(thing):
    """A data file of this program: keys in byte order, and all values are given."""
    held = {"_type": TYPES[thing.type_name]}
    for item in PROPERTIES:
        if item.polytope == "CONE_AMBIENT_DIM" and thing.columns is not None:
            held[item.name(thing.type_name)] = thing.columns
        elif item.polytope in thing.values:
            value = written(item.kind, thing.values[item.polytope])
            held[item.name(thing.type_name)] = value
    if thing.programs:
        held |= {"_profile": 2, "_computed": [], "_excluded": []}
        held["LP"] = [named_entry(it) for it in thing.programs]
    return compact(dict(sorted(held.items()))) + "\n"


def named_entry(program):
    """A program as this program saves it: its objective and its name."""
    objective = program.values.get("LINEAR_OBJECTIVE")
    held = {} if objective is None else {"LINEAR_OBJECTIVE": written(Kind.ROW, objective)}
    return {**held, "_excluded": [], "_name": program.name}


def list_of_names(text):
    return text.split(",")


def from_words():
    words = command.parser(
        "from-polymake",
        "Writes a data file of polymake as a script of this program, or as a data file of it.",
    )
    command.add_file(words, needed=True)
    command.add_object(words)
    told = "take these properties of the file alone, by its names, with commas between them"
    words.add_argument("--only", metavar="PROP,..", type=list_of_names, help=told)
    told = "write a data file that `load` reads, in place of a script"
    words.add_argument("--data", action="store_true", help=told)
    return words


def from_polymake(options, text, notes):
    thing = read_polymake(text, notes, options.only)
    if options.data:
        return data_text(thing)
    return command.joined(script_lines(options.name, thing))


def read_shown(options, text, notes):
    """What replies show of one object, or what a data file holds."""
    if text.lstrip().startswith("{"):
        return read_polymake(text, notes)
    return read_replies(text, options.type_name, options.name)


def to_words():
    words = command.parser(
        "to-polymake",
        "Writes the values that replies show, or those of a data file, as a data file of polymake.",
    )
    command.add_file(words, needed=False)
    command.add_type(words, "replies are of a cone; else of a polytope")
    told = "replies are of a fan"
    words.add_argument("--fan", dest="type_name", action="store_const", const="Fan", help=told)
    words.add_argument("--name", metavar="NAME", help="the object, where replies show several")
    return words


def to_polymake(options, text, notes):
    thing = read_shown(options, text, notes)
    if thing.is_said_empty() and "CENTERED" in thing.values:
        del thing.values["CENTERED"]
        notes.tell(1, f"CENTERED: {OF_THE_EMPTY['CENTERED']}: left out")
    leave_out_foreign(thing, notes)
    return polymake_text(thing)
