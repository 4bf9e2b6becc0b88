"""The frame of each bridge: its words, what it reads, what it tells, and its exit status."""

import argparse
import re
import sys
from dataclasses import dataclass, field

from refusals import Notes, Refusal, told_path


@dataclass
class Streams:
    """Where a bridge reads and writes."""

    given: object = field(default_factory=lambda: sys.stdin.buffer)
    out: object = field(default_factory=lambda: sys.stdout)
    told: object = field(default_factory=lambda: sys.stderr)


def parser(name, told):
    shape = argparse.RawDescriptionHelpFormatter
    return argparse.ArgumentParser(prog=f"bridge/{name}", description=told, formatter_class=shape)


def add_file(words, needed):
    told = "the file" if needed else "the file; standard input where none is named"
    words.add_argument("file", metavar="FILE", nargs=None if needed else "?", help=told)


def add_object(words):
    words.add_argument("name", metavar="NAME", nargs="?", default="p", help="the object's name (p)")


def add_type(words, told):
    words.add_argument(
        "--cone",
        dest="type_name",
        action="store_const",
        const="Cone",
        default="Polytope",
        help=told,
    )


def text_at(path, given=None):
    """All of a file, or of what is given where no file is named, as text, without the mark that it is UTF-8."""
    try:
        if path is None:
            return given.read().decode("utf-8").removeprefix("\ufeff")
        with open(path, "rb") as file:
            return file.read().decode("utf-8").removeprefix("\ufeff")
    except OSError as fault:
        raise Refusal(None, fault.strerror or "cannot be read") from None
    except UnicodeDecodeError as fault:
        line = fault.object[: fault.start].count(b"\n") + 1
        raise Refusal(line, "bytes that are no UTF-8") from None


def run(words, convert, arguments=None, streams=None):
    """Exit status 0, or 2 where something was refused; then nothing is written."""
    streams = streams or Streams()
    options, notes = words.parse_args(arguments), Notes()
    place = told_path(options.file) if options.file else "standard input"
    try:
        written = convert(options, text_at(options.file, streams.given), notes)
    except Refusal as refusal:
        line = "" if refusal.line is None else f"{refusal.line}:"
        print(f"{words.prog}: {place}:{line} {refusal.text}", file=streams.told)
        return 2
    for line, text in notes.told:
        print(f"{words.prog}: {place}:{line}: {text}", file=streams.told)
    streams.out.write(written)
    return 0


def lines_of(text):
    """The lines of a text, which end with LF, CR or both: no other mark ends a line of a file."""
    return re.split(r"\r\n|\n|\r", text)


def joined(lines):
    """Lines, each with its end."""
    return "".join(f"{it}\n" for it in lines)
