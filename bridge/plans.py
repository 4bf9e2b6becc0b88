"""Plans that `explain` printed: in short, the words by which check-plan checks them, and what is wrong with such words."""

import re
import subprocess
from dataclasses import dataclass

from calls import bridge, file, wrapper
from properties import PAIRS, PROGRAM_PROPERTIES, PROPERTIES, TYPES, by_name
from spoken import is_meant, nearest

# All properties in the order of their numbers: a set of names in a plan has a bit for each.
LAST_BEFORE_PROGRAMS = "PURE"
OF_PROGRAMS = "LP."

ROW = re.compile(r"row (\S+) ([0-9a-f]{32})")
EXCLUDED = re.compile(r"excluded (\S+) (?:failed|false) \S+(?: @(\S+))?")
RULE = re.compile(r"(\S+) : rule .* \{ (\S+) \} weight \S+;(?: precondition : (.*);)?")
PLAN_LINE = re.compile(r"plan [0-9.]+|rule \S+ [0-9.]+|barred \S+ .+|row [0-9.]+ [0-9a-f]{32}|no 10 NoChain|no 11 Crowded")
FIRST_LINE = re.compile(r"plan [0-9.]+|no 10 NoChain|no 11 Crowded")


def numbered():
    """The first name of each property, in the order of their numbers."""
    for item in PROPERTIES:
        yield item.polytope
        if item.polytope == LAST_BEFORE_PROGRAMS:
            yield from (OF_PROGRAMS + it for it in PROGRAM_PROPERTIES)


def names_in(bits):
    """The names of a set in a plan."""
    return [name for number, name in enumerate(numbered()) if int(bits, 16) >> number & 1]


@dataclass(frozen=True)
class Explained:
    """A reply to `explain`, and the words of check-plan that say of what it is."""

    lines: list
    words: list

    @property
    def short(self):
        """The plan in one line, without the table that proves it."""
        rules = [it.removeprefix("rule ") for it in self.lines if it.startswith("rule ")]
        return f"{self.lines[0]}: {', '.join(rules)}" if rules else self.lines[0]


def held_of(session, name, program):
    """The names that an object holds, and one of its linear programs, as check-plan has them."""
    lines = session.ask(f"show {name}")
    count = int(lines[0].split(" ")[2])
    held = [it.split(" ")[0] for it in lines[1 : count + 1]]
    is_of_program = False
    for line in lines[count + 1 :]:
        if line.startswith("program: "):
            is_of_program = line.split(" ")[1] == program
        elif is_of_program:
            held.append(OF_PROGRAMS + line.split(" ")[0])
    return held


def barred_by_rounds(session, name, program):
    """The labels of the rules that failed for the object, or for this program of it, or whose condition was found false."""
    found = map(EXCLUDED.fullmatch, session.ask(f"history {name}"))
    return [it[1] for it in found if it and it[2] in (None, program)]


def barred_by_values(session, name, type_name, held):
    """The labels of the rules that have a condition that is held with the wrong value."""
    known = {item.polytope: word for word, item in by_name(type_name).items()}
    for line in session.ask("rules"):
        rule = RULE.fullmatch(line)
        for condition in rule[3].split(", ") if rule and rule[3] else []:
            is_wanted, word = condition[:1] != "!", known.get(condition.lstrip("! "))
            if word in held and session.ask(f"lookup {name} {word}")[0].endswith("false" if is_wanted else "true"):
                yield rule[1]


def explained(session, reference, type_name, asked, disabled=()):
    """The reply to `explain`, with the words for check-plan."""
    name, _, program = reference.partition(".")
    lines = session.ask(f"explain {reference} {' '.join(asked)}")
    if not lines[0].startswith(("plan ", "no 10 ", "no 11 ")):
        return Explained(lines, [])
    held = held_of(session, name, program or None)
    barred = [*barred_by_rounds(session, name, program or None), *barred_by_values(session, name, type_name, held), *disabled]
    wanted = [OF_PROGRAMS + it if program else it for it in asked]
    words = [*(["--program"] if program else []), type_name, *held, ":", *wanted]
    if barred:
        words += ["!", *dict.fromkeys(barred)]
    return Explained(lines, words)


def call_words(found, book):
    """The words of the checker for a plan, by the standard rules or by a book."""
    return ["check-plan", *(["--rules", book] if book else []), *found.words]


def typed(found, book):
    """The call of the checker for a plan as it is typed in this folder; the book is a path, or None."""
    first, *words = call_words(found, None)
    return " ".join([wrapper(), first, *(["--rules", file(book)] if book else []), *words])


def verdict(checker, found, book, folder):
    """What the checker says of a plan."""
    given = "".join(f"{it}\n" for it in found.lines).encode()
    said = subprocess.run([checker, *call_words(found, book)], input=given, stdout=subprocess.PIPE, cwd=folder).stdout
    return said.decode("utf-8", "replace").rstrip("\n") or "nothing"


# What is wrong with the words of a call, or with what it read.


def parted(words):
    """The type, the held names, the asked ones, and the labels, of words behind check-plan."""
    words = list(words)
    while words and words[0].startswith("--"):
        words = words[2:] if words[0] == "--rules" else words[1:]
    before, _, after = " ".join(words).partition(" :")
    asked, _, labels = after.partition(" !")
    kind, *held = before.split() or [""]
    return kind, held, asked.split(), labels.split()


def word_faults(words):
    """What is wrong with words that the checker does not take."""
    kind, held, asked, _ = parted(words)
    if kind not in TYPES:
        near = nearest(kind.capitalize(), TYPES)
        yield f"'{kind}' is no type, which are {', '.join(TYPES)}" + (f": is {near} meant?" if near else "")
        return
    known = [*by_name(kind), *(OF_PROGRAMS + it for it in PROGRAM_PROPERTIES)]
    for word in [*held, *asked]:
        if word not in known:
            yield f"{word} is no property of {kind.lower()}s{is_meant(word, known)}"
        elif word.startswith(OF_PROGRAMS) and "--program" not in words:
            yield f"{word} is a property of linear programs, which '--program' before the type takes"
    if ":" not in words:
        yield "':' is missing, behind which the asked properties stand"
    elif not asked:
        yield "no property stands behind ':'"


def filled_in(kind, held):
    """The names that are filled in beside those that are held, and are not among them."""
    known = {item.polytope: name for name, item in by_name(kind).items()}
    first = [name for name, item in by_name(kind).items() if item.polytope == "CONE_AMBIENT_DIM"]
    pairs = [(known[one], known[other]) for one, other in PAIRS.items() if one in known and other in known]
    return [it for it in first if it not in held] + [b for a, b in pairs if a in held and b not in held]


def plan_faults(words, text):
    """What may be wrong with a plan that the checker does not take, and with the words beside it."""
    kind, held, _, _ = parted(words)
    lines = text.splitlines()
    if lines and not FIRST_LINE.fullmatch(lines[0]):
        yield f"other replies stand before the plan, which begins with 'plan' or 'no 10': {bridge('plan-of')} prints it alone"
        return
    row = next((ROW.fullmatch(it) for it in lines if it.startswith("row 0 ")), None)
    known = {item.polytope: name for name, item in by_name(kind).items()} if kind in TYPES else {}
    if row is None:
        more = filled_in(kind, held) if known else []
        if more:
            yield f"{', '.join(more)}: filled in before a plan is made, and so held: name them too"
        return
    in_plan = [known.get(it, it) for it in names_in(row[2])]
    lacking, beyond = [it for it in in_plan if it not in held], [it for it in held if it not in in_plan]
    if lacking:
        yield f"the plan begins with {', '.join(lacking)} as held too: name what is filled in, and what was found before"
    if beyond:
        yield f"the plan does not begin with {', '.join(beyond)} as held"


def plans_in(text):
    """The plans among replies, each with the number of its first line."""
    found, is_in = [], False
    for number, line in enumerate(text.splitlines(), 1):
        if FIRST_LINE.fullmatch(line):
            found.append((number, [line]))
            is_in = True
        elif is_in and PLAN_LINE.fullmatch(line):
            found[-1][1].append(line)
        else:
            is_in = False
    return [it for it in found if len(it[1]) > 1 or it[1][0].startswith("plan ")]
