"""The commands of scripts: their words, and why a line speaks none of them."""

import difflib
import re

NAME = re.compile(r"[A-Za-z][A-Za-z0-9_]{0,31}", re.ASCII)
REFERENCE = re.compile(rf"{NAME.pattern}(?:\.{NAME.pattern})?", re.ASCII)
PROPERTY = re.compile(r"[A-Z0-9_]{1,32}", re.ASCII)
TYPE = re.compile(r"[A-Za-z]+", re.ASCII)
NUMBER = re.compile(r"[1-9][0-9]{0,3}", re.ASCII)
FILE = re.compile(r"[A-Za-z0-9_][A-Za-z0-9_.-]{0,63}", re.ASCII)
LABEL = re.compile(r"(?!precondition$)[A-Za-z_][A-Za-z0-9_]{0,31}", re.ASCII)
CLIENT = re.compile(r"[A-Za-z_][A-Za-z0-9_.]*", re.ASCII)

MOST_PROPERTIES = 4
MOST_SHOWN = 60

# The words behind each command.
COMMANDS = {
    "new": ("reference", "type"),
    "take": ("reference", "property", "value"),
    "give": ("reference", "property"),
    "lookup": ("reference", "property"),
    "origin": ("reference", "property"),
    "ensure": ("reference", "properties"),
    "explain": ("reference", "properties"),
    "history": ("name",),
    "show": ("name",),
    "drop": ("name",),
    "evidence": ("name", "label"),
    "disable": ("name", "label"),
    "unload": ("client",),
    "rules": (),
    "copy": ("name", "name"),
    "load": ("name", "file"),
    "save": ("name", "file"),
    "make": ("name", "shape"),
    "polar": ("name", "name"),
    "pyramid": ("name", "name"),
    "normalfan": ("name", "name"),
    "facefan": ("name", "name"),
    "product": ("name", "name", "name"),
    "minkowski": ("name", "name", "name"),
    "refine": ("name", "name", "name"),
}

# A line that each command takes.
EXAMPLES = {
    "new": "new p Polytope",
    "take": 'take p POINTS [[1,0],[1,"1/2"]]',
    "ensure": "ensure p FACETS VERTICES",
    "explain": "explain p FACETS",
    "evidence": "evidence p dd_facets",
    "disable": "disable p dd_facets",
    "unload": "unload dd_facets",
    "rules": "rules",
    "copy": "copy p q",
    "load": "load p square.json",
    "save": "save p square.json",
    "make": "make c cube 3",
    "polar": "polar p q",
    "pyramid": "pyramid p q",
    "normalfan": "normalfan p f",
    "facefan": "facefan p f",
    "product": "product p q r",
    "minkowski": "minkowski p q r",
    "refine": "refine f g h",
}

# How many numbers stand behind the name of a shape.
SHAPES = {"cube": 1, "simplex": 1, "cross": 1, "cyclic": 2}

# How lines of polymake's own language begin.
PERL = re.compile(r"\s*(\$|@|%|use\s|my\s|print\b|application\s|save\s*\(|load\s*\(|for\s|foreach\s|if\s*\()")

UTF8_MARK = "\ufeff"


def cut(text, most=MOST_SHOWN):
    """A text of a script as it is shown: nothing of it obeys a terminal, and it is short."""
    text = "".join(it if it.isprintable() else "?" for it in text)
    return f"'{text}'" if len(text) <= most else f"'{text[:most]}..'"


def nearest(word, known):
    """The known word that is most like this one, or None."""
    found = difflib.get_close_matches(word, known, 1, 0.6)
    return found[0] if found else None


def is_meant(word, known):
    """A hint at the known word that is most like this one, or nothing."""
    near = nearest(word, known)
    return f": is {near} meant?" if near else ""


def is_silent(line):
    """Whether a line has no reply."""
    return line.startswith("#") or not line.strip(" \t")


def example(command):
    """A line that the command takes."""
    if command in EXAMPLES:
        return EXAMPLES[command]
    return f"{command} p" if COMMANDS[command] == ("name",) else f"{command} p FACETS"


def asked(command):
    return f"'{command}' is written like '{example(command)}'"


def fault_of_name(word):
    if NAME.fullmatch(word):
        return None
    return f"{cut(word)} is no name, which is a letter and then at most 31 letters, digits and _"


def fault_of_reference(word):
    name, dot, sub = word.partition(".")
    return fault_of_name(name) or (fault_of_name(sub) if dot else None)


def fault_of_property(word):
    if PROPERTY.fullmatch(word):
        return None
    if " " in word:
        return f"one property is wanted, and {cut(word)} stands there: 'ensure' takes up to four"
    if len(word) > 32 and re.fullmatch(r"[A-Z0-9_]+", word):
        return f"no property has a name of more than 32 letters, as {cut(word)} is"
    if word.upper() != word and PROPERTY.fullmatch(word.upper()):
        return f"{cut(word)} is no property, whose names have capitals: is {word.upper()} meant?"
    return f"{cut(word)} is no property, whose names are like N_FACETS"


def fault_of_properties(text):
    words = text.split(" ")
    if len(set(words)) > MOST_PROPERTIES:
        return f"{len(set(words))} properties are named, of which one line takes at most {MOST_PROPERTIES}"
    return next((fault for it in words if (fault := fault_of_property(it))), None)


def fault_of_type(word):
    if TYPE.fullmatch(word):
        return None
    return f"{cut(word)} is no type: the types are Polytope, Cone, Fan and, of NAME.SUB, LP"


def fault_of_label(word):
    return None if LABEL.fullmatch(word) else f"{cut(word)} is no label of a rule"


def fault_of_client(word):
    return None if CLIENT.fullmatch(word) else f"{cut(word)} is no name of a client"


def fault_of_file(word):
    if FILE.fullmatch(word):
        return None
    told = "1 to 64 letters, digits, _, - and ., in the current folder"
    return f"{cut(word)} is no name of a file, which has {told}"


def fault_of_shape(text):
    word, *numbers = text.split(" ")
    if word not in SHAPES:
        return f"{cut(word)} is no polytope that is made: cube, simplex, cross or cyclic{is_meant(word, SHAPES)}"
    if len(numbers) == SHAPES[word] and all(map(NUMBER.fullmatch, numbers)):
        return None
    if SHAPES[word] == 2:
        return f"two whole numbers, of dimensions and of points, stand behind '{word}', as in 'make c {word} 3 7'"
    return f"a whole number of dimensions stands behind '{word}', as in 'make c {word} 3'"


# The kinds of one word, of which no fault of their own speaks of two.
ONE_WORD = ("reference", "name", "type", "label", "client", "file")

FAULTS = {
    "reference": fault_of_reference,
    "name": fault_of_name,
    "property": fault_of_property,
    "properties": fault_of_properties,
    "type": fault_of_type,
    "label": fault_of_label,
    "client": fault_of_client,
    "file": fault_of_file,
    "shape": fault_of_shape,
    "value": lambda text: None,
}


def arguments_of(kinds, text):
    """Each word behind a command with its kind; the last one is all that is left."""
    for at, kind in enumerate(kinds):
        if at < len(kinds) - 1:
            word, _, text = text.partition(" ")
        else:
            word, text = text, ""
        yield kind, word


def fault_of(line):
    """Why a line speaks no command, by its words one after another, or None where it speaks one."""
    word, blank, text = line.partition(" ")
    if word not in COMMANDS:
        lower = word.lower()
        hint = f": is {lower} meant?" if lower in COMMANDS else is_meant(lower, COMMANDS)
        return f"{cut(word)} is no command{hint}"
    kinds = COMMANDS[word]
    if not kinds:
        return f"'{word}' stands alone" if blank else None
    for kind, found in arguments_of(kinds, text):
        if not found:
            return f"a word is missing: {asked(word)}"
        fault = FAULTS[kind](found)
        if fault and " " in found and kind in ONE_WORD:
            return f"{cut(found.partition(' ')[2])} is too much: {asked(word)}"
        if fault:
            return fault
    return None


def with_single_blanks(line):
    """The line with one blank between its words; a value stays as it is."""
    words = line.strip().split()
    if words[:1] == ["take"]:
        words = line.strip().split(None, 3)
    return " ".join(words)


def fault_of_parts(line):
    """What is said of commands on one line with ';' between or behind them, or None where they are none."""
    parts = [with_single_blanks(it) for it in line.split(";") if it.strip()]
    if ";" not in line or not parts or any(map(fault_of, parts)):
        return None
    if len(parts) == 1:
        return f"no ';' stands behind a command: {cut(parts[0])} is read"
    return f"each command takes a line of its own, without ';': {', '.join(map(cut, parts))} are read"


def fault_of_line(line):
    """Why a line is no command: an ordinary slip that mends it, or the first word that is wrong."""
    if "\ufffd" in line:
        return "the line has bytes that are no UTF-8"
    if fault_of(line) is None:
        return None
    if line.startswith(UTF8_MARK):
        return "the mark that a file is UTF-8 stands before the first command: save the script without it"
    mended = with_single_blanks(line)
    if mended != line and fault_of(mended) is None:
        return f"words stand one blank apart, without one before or behind: {cut(mended)} is read"
    before, mark, _ = line.partition("#")
    mended = with_single_blanks(before)
    if mark and before.strip() and fault_of(mended) is None:
        return f"a comment takes a line of its own: {cut(mended)} is read"
    parted = fault_of_parts(line)
    if parted:
        return parted
    if PERL.match(line) or line.rstrip().endswith(";"):
        told = "save the object there, and ./polymake FILE PROP.. reads the file"
        return f"this looks like polymake's own language, which is not read here: {told}"
    if re.match(r"\s*[-+.]?[0-9\[(]", line):
        return "a row of numbers is no command: 'take p POINTS [[1,0],[1,1]]' gives rows, and a file of rows has no commands"
    if ";" in line:
        fault = fault_of(line.partition(";")[0].rstrip()) or fault_of(line)
        return f"{fault}; each command takes a line of its own, without ';'"
    return fault_of(line)
