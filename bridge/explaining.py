"""What the refusals of a script say, in words: the line, the reason, and what is meant instead."""

import re
from collections import deque
from dataclasses import dataclass, field
from pathlib import Path

import value_faults
from absent import ABSENT
from calls import bridge
from properties import PAIRS, PROGRAM_PROPERTIES, TYPES, Property, by_name
from spoken import COMMANDS, cut, fault_of_line, is_meant, is_silent, nearest

REFUSED = re.compile(r"no ([0-9]+) ([A-Za-z]+)(?: (.*))?", re.ASCII | re.S)

# The lines that may follow the first one of a reply, by the command.
ROUND = re.compile(r"round [0-9.]+(?: @\w+)?: .* -> (?:done|failed \S+ E[1-5]|false \S+ \S+)")
TABLE = re.compile(r"(?:rule|barred) \S+ .+|row [0-9.]+ [0-9a-f]{32}")
EXCLUDED = re.compile(r"round .*|excluded \S+ .+")
MORE = {"explain": TABLE, "history": EXCLUDED}

# First lines that tell how many follow.
COUNTED = re.compile(r"(?:ok|rules|rounds|object \w+|program: \w+) ([0-9]+)")
COUNTING = ("ensure", "evidence", "show", "rules")

# What a condition says that a new object was not made by.
CONDITIONS = {
    "type": "it is made of objects of another type",
    "BOUNDED": "it is made of bounded polytopes alone",
    "FULL_DIM": "it is made of polytopes of full dimension alone",
    "CENTERED": "it is made of polytopes with the origin in their interior alone",
    "FEASIBLE": "it is made of polytopes with a point alone",
    "columns": "the objects have other dimensions, or the new one has more than 32",
    "rows": "the new object has more than 2,048 rows, or given values contradict each other",
    "size": "it is larger than is taken",
}

FILE_REASONS = {
    "Limit": "the file has more than 8,388,608 bytes",
    "NotJson": "the file is no JSON: ROWS --data writes one of rows of numbers, and ./polymake FILE PROP.. reads "
    "files of other programs too",
    "NoType": "the file has no text '_type'",
    "UnknownType": "its '_type' is none of " + ", ".join(TYPES.values()),
    "BadProperty": "the value of this key has a fault",
    "BadRow": "a row of this key is refused, or has other columns than those before",
    "BadProfile": "what it says of computed values is at fault",
}

OF_TYPE = re.compile(rb'"_type"\s*:\s*"([^"]*)"')
OF_FANS, OF_POLYTOPES = ("normalfan", "facefan", "refine"), ("make", "polar", "pyramid", "product", "minkowski")
PAGE = "docs/when-it-refuses.md"

# How long a line may be: a longer one is refused whatever stands in it.
MOST_BYTES = 1_048_576


@dataclass(frozen=True)
class Line:
    """A line that has a reply: its number, from 1, and its text."""

    number: int
    text: str

    @property
    def words(self):
        return self.text.split(" ")


@dataclass
class Object:
    """What a script has told of an object: its type, if known, its programs, and the columns and values given."""

    type_name: str | None
    programs: set = field(default_factory=set)
    columns: int | None = None
    given: set = field(default_factory=set)


class Pairing:
    """Which line each reply answers: lines are fed before their replies are heard."""

    def __init__(self):
        self.waiting = deque()
        self.command = ""
        self.left = 0
        self.is_refused = False

    def feed(self, line):
        self.waiting.append(line)

    def answered(self, reply):
        """The line that this first line of a reply answers, or None where it goes on with one."""
        if self.goes_on(reply):
            return None
        if not self.waiting:
            return None
        line = self.waiting.popleft()
        self.command = line.words[0]
        self.is_refused = REFUSED.fullmatch(reply) is not None
        self.count(reply)
        return line

    def goes_on(self, reply):
        if self.left:
            self.left -= 1
            return True
        if self.command == "show" and not self.is_refused and reply.startswith("program: "):
            self.count(reply)
            return True
        if self.command in COUNTING and not self.is_refused:
            return False
        return MORE.get(self.command, ROUND).fullmatch(reply) is not None and not self.is_value(reply)

    def is_value(self, reply):
        """Whether the next line asks for a value of an object that has such a name."""
        if not self.waiting or self.waiting[0].words[0] not in ("give", "lookup"):
            return False
        return reply.startswith(" ".join(self.waiting[0].words[1:3]) + " ")

    def count(self, reply):
        found = COUNTED.fullmatch(reply)
        self.left = int(found[1]) if found and self.command in COUNTING else 0


class Explainer:
    """What refusals say, by what the lines before have made and given."""

    def __init__(self):
        self.objects = {}

    def note(self, line):
        """A line that was not refused."""
        command, *words = line.words
        if command == "new":
            name, _, sub = words[0].partition(".")
            if sub:
                self.objects[name].programs.add(sub)
            else:
                self.objects[name] = Object(words[1])
        elif command == "drop":
            self.objects.pop(words[0], None)
        elif command == "copy":
            old = self.objects.get(words[0], Object(None))
            self.objects[words[1]] = Object(old.type_name, set(old.programs), old.columns, set(old.given))
        elif command == "load":
            self.objects[words[0]] = Object(type_in_file(words[1]))
        elif command == "make":
            self.objects[words[0]] = Object("Polytope", given={"POINTS"})
        elif command in OF_FANS + OF_POLYTOPES:
            self.objects[words[-1]] = Object("Fan" if command in OF_FANS else "Polytope", given={"POINTS"})
        elif command == "take":
            self.note_given(line)

    def note_given(self, line):
        _, reference, name, text = line.text.split(" ", 3)
        thing = self.objects.get(reference.partition(".")[0])
        if thing is None or "." in reference:
            return
        thing.given.add(name)
        found = re.match(r"\[\s*\[([^\]]*)\]", text)
        item = by_name(thing.type_name).get(name) if thing.type_name else None
        if found and item and item.kind is value_faults.Kind.MATRIX and name != "F2_VECTOR" and found[1].strip():
            thing.columns = thing.columns or found[1].count(",") + 1

    def told(self, line, reply):
        """What the reply to a line says in words, or None where it is no refusal."""
        found = REFUSED.fullmatch(reply)
        if not found:
            self.note(line)
            return None
        number, name, reason = int(found[1]), found[2], found[3] or ""
        text = TELLS.get(number, lambda *_: "it is refused")(self, line, reason)
        return f"no {number} {name}: {text}"

    def thing_of(self, word):
        return self.objects.get(word.partition(".")[0])

    # What each refusal says.

    def of_line(self, line, _):
        return fault_of_line(line.text) or "the line speaks no command"

    def unknown_name(self, line, _):
        words = [it for it in line.words[1:] if it.partition(".")[0] not in self.objects]
        for word in line.words[1:2]:
            name, _, sub = word.partition(".")
            if sub and name in self.objects:
                thing = self.objects[name]
                makes = f", and 'new {word} LP' makes one" if thing.type_name == "Polytope" else ""
                known = ", ".join(sorted(thing.programs)) or f"none{makes}"
                return f"{name} has no linear program {cut(sub)}: it has {known}"
        word = words[0] if words else line.words[1]
        known = ", ".join(sorted(self.objects)) or "none"
        return f"no object is called {cut(word.partition('.')[0])}: there are {known}"

    def name_taken(self, line, _):
        at = 1 if line.words[0] in ("new", "load", "make") else -1
        return f"{cut(line.words[at])} is there already: take another name, or 'drop' it first"

    def unknown_type(self, line, _):
        word = line.words[-1]
        if "." in line.words[1]:
            thing = self.thing_of(line.words[1])
            if word == "LP" and thing is not None:
                return f"a linear program is one of a polytope, and {line.words[1].partition('.')[0]} is a {str(thing.type_name).lower()}"
            return f"{cut(word)} is no type of a part: a linear program is made by 'new {line.words[1]} LP'"
        hint = nearest(word.capitalize(), TYPES)
        meant = f": is {hint} meant?" if hint else ""
        return f"{cut(word)} is no type, which are {', '.join(TYPES)}{meant}"

    def known_properties(self, reference):
        """The table in which a property of this object is looked up, and what it is of."""
        if "." in reference:
            return PROGRAM_PROPERTIES, "linear programs"
        thing = self.thing_of(reference)
        if thing is None or thing.type_name is None:
            return {name: it for type_name in TYPES for name, it in by_name(type_name).items()}, "this object"
        return by_name(thing.type_name), f"{thing.type_name.lower()}s"

    def unknown_property(self, line, _):
        known, of = self.known_properties(line.words[1])
        word = next((it for it in line.words[2 : 3 if line.words[0] == "take" else None] if it not in known), "")
        if word in PROGRAM_PROPERTIES and "." not in line.words[1]:
            return f"{word} is a property of a linear program: 'new {line.words[1]}.lp LP' makes one"
        other = self.name_here(line.words[1], word)
        if other:
            return f"{cut(word)} is no property of {of}: {other} is what it is called there"
        hint = f": {ABSENT[word]}" if word in ABSENT else is_meant(word, known)
        return f"{cut(word)} is no property of {of}{hint}"

    def name_here(self, reference, word):
        """What another type's property is called in the type of this object."""
        thing = self.thing_of(reference)
        for type_name in TYPES:
            item = by_name(type_name).get(word)
            if isinstance(item, Property) and thing is not None and thing.type_name:
                return item.name(thing.type_name)
        return None

    def bad_value(self, line, reason):
        _, reference, name, text = line.text.split(" ", 3)
        if "." in reference:
            item = Property(name, {}, PROGRAM_PROPERTIES[name][0])
            return f"{name}: {value_faults.told(reason, item, 'LP', text, None)}"
        thing = self.thing_of(reference)
        item = self.known_properties(reference)[0][name]
        told = value_faults.told(reason, item, thing.type_name if thing else None, text, thing and thing.columns)
        return f"{name}: {told}"

    def already_held(self, line, _):
        return f"{line.words[1]} holds {line.words[2]}, and no value is taken twice: give it to a new object"

    def sealed(self, line, _):
        name = line.words[1]
        return f"something was computed of {name}, or loaded as computed, and from then on it takes no values: give all values before the first question"

    def objects_full(self, line, _):
        if "." in line.words[1]:
            return "a polytope has at most four linear programs"
        return "there are 32 objects, which is the most: 'drop NAME' lets one go"

    def no_chain(self, line, _):
        if line.words[0] not in ("give", "ensure", "explain"):
            named = " or ".join(line.words[1:-1])
            return f"what it is made from is not found of {named}: 'history {line.words[1]}' tells which rules failed; {PAGE} what to do"
        reference, asked = line.words[1], " ".join(line.words[2:])
        thing, name = self.thing_of(reference), reference.partition(".")[0]
        known = by_name(thing.type_name) if thing is not None and thing.type_name else {}
        of = [it for it, item in known.items() if item.polytope in PAIRS or item.polytope == "MAXIMAL_CONES"]
        if thing is not None and of and not thing.given & set(of):
            wanted = [it for it in of if known[it].polytope != "MAXIMAL_CONES"]
            return f"{asked} is not found from what {name} holds: give a description, which is one of {', '.join(wanted)}"
        return f"no rule is left that leads to {asked}: 'explain {reference} {asked}' tells which are barred and why, and {PAGE} what to do"

    def crowded(self, line, _):
        return "too many chains cost less: ask first for what it is found from, like VERTICES"

    def store_fault(self, line, _):
        return f"the file {cut(line.words[-1])} cannot be read or written: its folder may be full, or forbid it"

    def bad_file(self, line, reason):
        first = reason.partition(" ")[0]
        told = FILE_REASONS.get(first, "it holds no object").replace("ROWS", bridge("from-rows"))
        return f"{cut(line.words[-1])}: {told} ({cut(reason)})"

    def no_such_file(self, line, _):
        return f"there is no file {cut(line.words[-1])} in this folder"

    def too_long(self, line, _):
        return "the line has more than 1,048,576 bytes: load a data file instead"

    def unknown_rule(self, line, _):
        return f"no rule or client is called {cut(line.words[-1])}: 'rules' prints all"

    def not_fit(self, line, reason):
        return f"{CONDITIONS.get(reason, 'a condition does not hold')} ({reason})"

    def not_made(self, line, reason):
        what = "the sum of two vertices" if reason == "combination" else "the intersection of two cones"
        return f"a number on the way to {what} leaves 127 bits, or too many rows come up ({reason}); {PAGE} what to do"


TELLS = {
    1: Explainer.of_line,
    2: Explainer.unknown_name,
    3: Explainer.name_taken,
    4: Explainer.unknown_type,
    5: Explainer.unknown_property,
    6: Explainer.bad_value,
    7: Explainer.already_held,
    8: Explainer.sealed,
    9: Explainer.objects_full,
    10: Explainer.no_chain,
    11: Explainer.crowded,
    12: Explainer.store_fault,
    13: Explainer.bad_file,
    14: Explainer.no_such_file,
    15: Explainer.too_long,
    16: Explainer.unknown_rule,
    17: Explainer.not_fit,
    18: Explainer.not_made,
}


def type_in_file(name):
    """The type that a data file says, if it says one."""
    try:
        found = OF_TYPE.search(Path(name).read_bytes())
    except OSError:
        return None
    said = found[1].decode("utf-8", "replace") if found else None
    return next((it for it, told in TYPES.items() if told == said), None)


class Telling:
    """Explains refusals as they come, the first ones of a script, by the lines that it hears."""

    most = 20

    def __init__(self, say, place):
        self.say, self.place = say, place
        self.pairing, self.explainer = Pairing(), Explainer()
        self.number, self.count, self.left, self.last = 0, 0, 0, ""

    def feed(self, line):
        """A line of the script as bytes, without its end."""
        self.number += 1
        text = line.removesuffix(b"\r").decode("utf-8", "replace")
        if len(line) > MOST_BYTES or not is_silent(text):
            self.pairing.feed(Line(self.number, text))

    def hear(self, reply):
        """A line that the program wrote."""
        line = self.pairing.answered(reply)
        told = self.told(line, reply) if line is not None else None
        if told is None:
            return
        if told == self.last or self.count == self.most:
            self.left += 1
            return
        self.count, self.last = self.count + 1, told
        self.say(f"{self.place(line.number)}: {told}")

    def told(self, line, reply):
        """What is said of a line; the refusal itself where its reply is not understood, since replies go on whatever is said."""
        try:
            return self.explainer.told(line, reply)
        except (LookupError, ValueError):
            return reply if REFUSED.fullmatch(reply) else None

    def end(self):
        """How many refusals were not told: those beyond the first ones, and those like the one before."""
        if self.left:
            self.say(f"{self.left} more lines were refused")


def place_in(name):
    """How a line of a script is named: by its file, or as one that was typed."""
    return lambda number: f"{name}:{number}" if name else f"line {number}"
