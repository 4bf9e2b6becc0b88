"""Files by their look: which program's they are, and what they hold."""

import re

from cdd_files import BEGIN, read_cdd
from normaliz_files import read_normaliz
from normaliz_results import are_results
from polymake_files import is_saved, read_polymake
from refusals import Refusal, shown
from rows_files import are_rows, kept_lines, nearly_heading, read_rows

SAVED, POLYMAKE, CDD, NORMALIZ = "saved here", "of polymake", "of cddlib or lrslib", "of Normaliz"
ROWS = "by plain rows"

REPRESENTATION = re.compile(r"^[ \t]*[HV]-representation", re.M)
NORMALIZ_HEAD = re.compile(r"(\s|/\*.*?\*/)*amb_space\b", re.S)


def form_of(text):
    """Which program's file a text is, by its look, or None."""
    if text.lstrip()[:1] in ("{", "<", "_"):
        return SAVED if is_saved(text) else POLYMAKE
    if REPRESENTATION.search(text) or BEGIN.search(text):
        return CDD
    if NORMALIZ_HEAD.match(text) or are_results(text):
        return NORMALIZ
    return ROWS if are_rows(text) else None


def read_thing(text, notes):
    """What a file of another program describes."""
    form = form_of(text)
    if form is POLYMAKE:
        return read_polymake(text, notes)
    if form is CDD:
        return read_cdd(text, "Polytope", notes)
    if form is NORMALIZ:
        return read_normaliz(text, notes)
    if form is ROWS:
        return read_rows(text, notes)
    number, first = next(kept_lines(text), (None, ""))
    if nearly_heading(first):
        raise Refusal(number, f"{shown(first)} is no heading of rows: is {nearly_heading(first)} meant?")
    raise Refusal(None, "no data file of a kind that is known here")
