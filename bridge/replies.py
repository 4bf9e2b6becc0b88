"""Replies of this program: the lines `NAME PROP VALUE` of `give` and `lookup`, NAME.SUB of programs."""

import json
import re

from properties import PROGRAM_PROPERTIES, Program, Thing, by_name
from refusals import Fault, Refusal
from scripts import check_name
from values import READER, put_program_value, put_value

VALUE = re.compile(
    r"([A-Za-z][A-Za-z0-9_]*)(?:\.([A-Za-z][A-Za-z0-9_]*))? ([A-Z][A-Z0-9_]*) (.+)", re.ASCII
)

# Words that begin other replies, after which a label or a name stands that may look like a property.
OTHERS = ("rule", "excluded", "barred", "evidence")

# The names that `load` read over: words, or JSON texts of names that are none.
NAME_READ_OVER = re.compile(r' ([A-Za-z_][A-Za-z0-9_.]*|"(?:[^"\\\x00-\x1f]|\\.)*")', re.ASCII)


def names_read_over(lines):
    """The names of the reply `ok` or `ok ignored NAME ..` to `load`, or None where it is none.

    Older programs wrote each name as it stands: what is no list of names is then one name.
    """
    if lines == ["ok"]:
        return []
    told = "\n".join(lines)
    if not told.startswith("ok ignored "):
        return None
    found, at = [], len("ok ignored")
    while name := NAME_READ_OVER.match(told, at):
        found.append(name_of(name[1]))
        at = name.end()
    return found if at == len(told) and None not in found else [told[len("ok ignored ") :]]


def name_of(told):
    """A name by what a reply tells of it, or None."""
    if not told.startswith('"'):
        return told
    try:
        return json.loads(told)
    except json.JSONDecodeError:
        return None


def lines_of(text):
    """The lines of replies: a name in quotes may hold any mark but LF."""
    return [it.removesuffix("\r") for it in text.removesuffix("\n").split("\n")] if text else []


def value_lines(lines):
    """Of each line with a value: its number, the object, its program, the property and the text."""
    for number, line in enumerate(lines, 1):
        found = VALUE.fullmatch(line)
        if not found:
            continue
        if found[1] in OTHERS:
            raise Refusal(
                number, f"a value of an object '{found[1]}', or another reply: not to be told apart"
            )
        yield number, *found.groups()


def read_text(text):
    """The JSON value of a text, all of it."""
    try:
        return READER.decode(text)
    except (json.JSONDecodeError, RecursionError):
        raise Fault("no JSON") from None


def one_object(found, name):
    """The lines of the object of the name, or of the only one that there is."""
    if name is not None:
        check_name(name)
        found = [it for it in found if it[1] == name]
        if not found:
            raise Refusal(None, f"no value of an object '{name}' is shown")
    if not found:
        raise Refusal(None, "no value is shown")
    other = next((it for it in found if it[1] != found[0][1]), None)
    if other:
        raise Refusal(
            other[0], f"a value of '{other[1]}' after one of '{found[0][1]}': say which by --name"
        )
    return found


def put_shown(thing, sub, prop, value):
    """Holds a value of the object, or of a linear program of it."""
    if sub is None:
        put_value(thing, by_name(thing.type_name)[prop], value)
        return
    program = next((it for it in thing.programs if it.name == sub), None)
    if program is None:
        program = Program(sub)
        thing.programs.append(program)
    put_program_value(thing, program, prop, value)


def read_replies(text, type_name, name=None):
    """The values of one object that the replies show, and of its linear programs."""
    thing, texts = Thing(type_name), {}
    for number, _, sub, prop, shown in one_object(list(value_lines(lines_of(text))), name):
        known = by_name(type_name) if sub is None else PROGRAM_PROPERTIES
        if prop not in known or sub is not None and type_name != "Polytope":
            kind = type_name.lower() if sub is None else "linear program"
            raise Refusal(number, f"{prop}: no property of {kind}s that is known here")
        if texts.setdefault((sub, prop), shown) != shown:
            raise Refusal(number, f"{prop}: another value than before")
        try:
            put_shown(thing, sub, prop, read_text(shown))
        except Fault as fault:
            row = "" if fault.row is None else f"row {fault.row + 1}: "
            raise Refusal(number, f"{prop}: {row}{fault.text}") from None
    return thing
