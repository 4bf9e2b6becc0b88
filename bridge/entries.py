"""Single numbers: texts p and p/q, and whole JSON numbers; decimals where a file may have them."""

import json
import re
from fractions import Fraction

from refusals import Fault, shown

FRACTION = re.compile(r"-?[0-9]+(/[0-9]+)?", re.ASCII)
WHOLE = re.compile(r"-?[0-9]+", re.ASCII)
DECIMAL = re.compile(r"[-+]?(?:[0-9]+\.?[0-9]*|\.[0-9]+)(?:[eE]([-+]?[0-9]{1,4}))?", re.ASCII)
MOST_DIGITS = 4000

# How long a number may be that is written anew in a message.
MOST_SHOWN = 30


def hint(text):
    """The fraction that a number in another writing is, as .5, 0.5, 5., +1 and 1e-1, or nothing."""
    is_number = DECIMAL.fullmatch(text) or FRACTION.fullmatch(text.removeprefix("+"))
    try:
        return str(decimal_of(text)) if is_number and len(text) <= MOST_SHOWN else ""
    except Fault:
        return ""


def no_fraction(entry):
    """Why an entry is none, with the fraction that it is in another writing."""
    if isinstance(entry, bool) or entry is None:
        return f"{shown(json.dumps(entry))} is no fraction"
    found = hint(str(entry))
    written = found if isinstance(entry, str) else f'"{found}"'
    return f"{shown(entry)} is no fraction" + (f": write {written}" if found else "")


def fraction_of(entry):
    """The fraction of a text or of a whole JSON number."""
    if isinstance(entry, int) and not isinstance(entry, bool):
        return Fraction(entry)
    if not isinstance(entry, str) or not FRACTION.fullmatch(entry):
        raise Fault(no_fraction(entry))
    if len(entry) > MOST_DIGITS:
        raise Fault(f"a number of more than {MOST_DIGITS} digits")
    try:
        return Fraction(entry)
    except ZeroDivisionError:
        raise Fault(f"{shown(entry)} divides by zero") from None


def decimal_of(text):
    """The fraction that a text is, exactly: p, p/q, or a decimal, of which 0.1 is 1/10."""
    found = DECIMAL.fullmatch(text)
    if not found:
        return fraction_of(text.removeprefix("+"))
    if len(text) > MOST_DIGITS or abs(int(found[1] or 0)) > MOST_DIGITS:
        raise Fault(f"a number of more than {MOST_DIGITS} digits")
    return Fraction(text)


def whole_of(entry):
    """The whole number of a text or of a whole JSON number."""
    if isinstance(entry, int) and not isinstance(entry, bool):
        return entry
    if not isinstance(entry, str) or not WHOLE.fullmatch(entry):
        raise Fault(f"{shown(entry)} is no whole number")
    if len(entry) > MOST_DIGITS:
        raise Fault(f"a number of more than {MOST_DIGITS} digits")
    return int(entry)


def row_of(entries):
    """A row of fractions."""
    return [fraction_of(it) for it in entries]


def row_text(row):
    """A row as cddlib, lrslib and Normaliz read it."""
    return " ".join(map(str, row))
