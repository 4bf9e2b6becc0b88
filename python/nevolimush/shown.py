"""Objects as small tables of HTML, which notebooks show."""

from html import escape

# How many rows of a matrix, and how many characters of another value, are shown.
MOST_ROWS = 8
MOST_CHARACTERS = 80

# What tells the size of an object, where it is held.
DIMENSIONS = ("CONE_AMBIENT_DIM", "FAN_AMBIENT_DIM", "CONE_DIM", "FAN_DIM", "LINEALITY_DIM", "COMBINATORIAL_DIM")


def text_of(kind, value):
    """A value in a few words, as HTML: a matrix by its rows."""
    if kind == "matrix":
        rows = [" ".join(map(str, row)) for row in value]
        more = [f".. {len(rows)} rows"] if len(rows) > MOST_ROWS else []
        return "<br>".join(map(escape, rows[:MOST_ROWS] + more)) or "no rows"
    text = f"[{', '.join(map(str, value))}]" if isinstance(value, list) else str(value)
    return escape(text if len(text) <= MOST_CHARACTERS else f"{text[:MOST_CHARACTERS]}..")


def row(name, origin, text):
    return f"<tr><td>{escape(name)}</td><td>{escape(origin)}</td><td>{text}</td></tr>"


def heading(thing, held):
    """The type, and the dimensions that are held."""
    told = [f"{name} {thing.lookup(name)}" for name in DIMENSIONS if name in held]
    return escape(", ".join([type(thing).__name__, *told]))


def table(thing):
    """What an object holds; nothing is computed."""
    held = thing.held
    rows = [row(name, origin, text_of(thing._properties[name].kind, thing.lookup(name))) for name, origin in held.items()]
    return f"<table><caption>{heading(thing, held)}</caption>{''.join(rows)}</table>"


def program(lp):
    """What is known of a linear program."""
    names = [name for name in lp._properties if name in lp._values]
    rows = [row(name, "", text_of(lp._properties[name].kind, lp._values[name])) for name in names]
    return f"<table><caption>LinearProgram</caption>{''.join(rows)}</table>"
