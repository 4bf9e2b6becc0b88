"""Scripts of this program: `new` and a `take` for each value."""

import re

from properties import PROPERTIES, Kind
from refusals import Refusal, shown
from values import compact, written

NAME = re.compile(r"[A-Za-z][A-Za-z0-9_]{0,31}", re.ASCII)


def check_name(name):
    if not NAME.fullmatch(name):
        told = "is no name: a letter, then at most 31 letters, digits and _"
        raise Refusal(None, f"{shown(name)} {told}")


def script_lines(name, thing):
    """The column count comes first, so that matrices without rows have it too."""
    check_name(name)
    values = dict(thing.values)
    if thing.columns is not None:
        values["CONE_AMBIENT_DIM"] = thing.columns
    yield f"new {name} {thing.type_name}"
    for item in PROPERTIES:
        if item.polytope in values:
            value = compact(written(item.kind, values[item.polytope]))
            yield f"take {name} {item.name(thing.type_name)} {value}"
    for program in thing.programs:
        yield f"new {name}.{program.name} LP"
        if "LINEAR_OBJECTIVE" in program.values:
            value = compact(written(Kind.ROW, program.values["LINEAR_OBJECTIVE"]))
            yield f"take {name}.{program.name} LINEAR_OBJECTIVE {value}"
