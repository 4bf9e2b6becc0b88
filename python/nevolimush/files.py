"""Files: those that the program saved, and those that the bridges of the repository read."""

import json
import subprocess
import sys
from dataclasses import dataclass, field
from pathlib import Path

from . import finding
from .refusals import printable

TYPES = {"polytope::Polytope<Rational>": "Polytope", "polytope::Cone<Rational>": "Cone", "fan::PolyhedralFan<Rational>": "Fan"}

# What a Python of its own does with a bridge's modules, whose names are common ones.
BRIDGE = """
import sys
sys.path.insert(0, sys.argv[1])
import json, ask, refusals
notes = refusals.Notes()
try:
    asked = ask.Asked(sys.argv[2], notes)
except refusals.Refusal as refusal:
    line = "" if refusal.line is None else f"line {refusal.line}: "
    sys.exit(f"{line}{refusal.text}")
told = [f"line {line}: {text}" for line, text in notes.told]
print(json.dumps({"data": asked.data, "notes": told, "believed": ask.believed(asked.thing)}))
"""


class NoBridge(RuntimeError):
    """The bridges are not there, which read the files of other programs."""


class BadForm(ValueError):
    """A bridge does not understand the file."""


@dataclass
class Text:
    """A file as the program loads it: its type, its bytes, what the bridge said, and what is believed."""

    type_name: str
    data: bytes
    notes: list = field(default_factory=list)
    believed: list = field(default_factory=list)


def type_of(path, data):
    """The type that a data file names, if it is JSON, and whether it was saved here."""
    try:
        found = json.loads(data)
    except ValueError:
        return None, False
    if not isinstance(found, dict) or found.get("_type") not in TYPES:
        return None, False
    return TYPES[found["_type"]], found.get("_profile") == 2


def read(path):
    """A file, by the bridge where the program did not save it."""
    path = Path(path)
    data = path.read_bytes()
    type_name, is_saved = type_of(path, data)
    return Text(type_name, data) if is_saved else by_bridge(path)


def by_bridge(path):
    """A file of polymake, cddlib, lrslib, Normaliz, or of plain rows."""
    folder = finding.bridges()
    if folder is None:
        raise NoBridge(
            f"{path} was not saved by this program, and what reads other files is not there: the folder bridge/ "
            f"of the repository. Take the package from the repository, or let {finding.VARIABLE} name the program "
            "where the repository built it"
        )
    run = subprocess.run(
        [sys.executable, "-B", "-c", BRIDGE, str(folder), str(path)], capture_output=True, text=True, encoding="utf-8"
    )
    if run.returncode:
        raise BadForm(f"{path}: {run.stderr.strip().splitlines()[-1]}")
    told = json.loads(run.stdout)
    data = told["data"].encode()
    type_name, _ = type_of(path, data)
    return Text(type_name, data, told["notes"], told["believed"])


def read_over(lines):
    """What `load` says that it read over."""
    names = lines[0].removeprefix("ok ignored ")
    return [f"read over: {printable(names)}"] if names != lines[0] else []
