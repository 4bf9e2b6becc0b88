"""Why a property was not found: which rules failed by what, what is held, and what to try."""

import json
import re
from dataclasses import dataclass

import lost_steps
from calls import bridge, wrapper
from evidence import Values
from properties import PAIRS, PROGRAM_PROPERTIES, by_name
from refusals import told_path

RULE = re.compile(r"(\S+) : rule (.*?) : (.*?) \{ (\S+) \} weight [0-9.]+;(?: precondition : (.*);)?")
EXCLUDED = re.compile(r"excluded (\S+) (failed|false) (\S+)(?: @(\S+))?")
BARRED = re.compile(r"barred (\S+) (false|disabled|no-client)(?: (\S+))?")

# What each kind of evidence shows.
EVIDENCE = {
    "E1": "the elimination of its rows leads to a number of more than 127 bits",
    "E2": "two rays that double description combines lead to a number of more than 127 bits",
    "E3": "a pivot of a linear program over its rows leads to a number of more than 127 bits",
    "E4": "the product of two of its rows has more than 127 bits",
    "E5": "more than 2,048 rays, facets or cells come up",
}
TOO_MANY_FACES = "more than 65,536 faces come up, or 4,000,000 indices in them"

PUT_ASIDE = {"disabled": "it was disabled", "no-client": "its client was let go, or the program has none"}

DESCRIPTIONS = ("POINTS", "INEQUALITIES", "VERTICES", "FACETS")
GENERATORS = ("POINTS", "VERTICES")

# The client that finds all faces, whose E5 speaks of these.
OF_FACES = "faces"

# What is said of a wide rule that failed by its numbers too: its evidence is that of the standard rule.
STILL_TOO_WIDE = (
    "it calculates with 512 bits, and these are not enough, or a number that it has to keep has more than 127 bits"
)

# What is said after all rules, and where rows are too many.
TOO_WIDE = (
    "if the wide rules fail too, mostly the answer itself has a number of more than 127 bits: "
    "no rule and no other order of the rows gives it then, and only smaller numbers help"
)
TOO_MANY = (
    "to try: a smaller object; where the answer itself has more than 2,048 rows no order of the given rows "
    "helps, and where it has fewer another order may: lrslib counts them"
)

# How the labels of the wide rules end, and what leaves 127 bits.
OF_WIDE = "_wide"
OF_NUMBERS = {"E1", "E2", "E3", "E4"}


@dataclass(frozen=True)
class Rule:
    """A rule of the book: its label, what it finds of what, its client, and the conditions that it asks for."""

    label: str
    targets: tuple
    sources: tuple
    client: str
    conditions: tuple = ()


@dataclass(frozen=True)
class Exclusion:
    """A rule that is not tried: it failed by evidence, a condition is false, or it was put aside."""

    rule: Rule
    how: str
    what: str
    program: str | None


def rules_of(lines):
    """The rules of a book as the program prints it, by their labels."""
    found = {}
    for line in lines:
        it = RULE.match(line)
        if it:
            names = [tuple(part.split(", ")) for part in it.group(2, 3)]
            conditions = tuple(one.lstrip("! ") for one in it[5].split(", ")) if it[5] else ()
            found[it[1]] = Rule(it[1], *names, it[4], conditions)
    return found


def exclusions_of(lines, rules):
    """The exclusions that a history tells."""
    for line in lines:
        it = EXCLUDED.fullmatch(line)
        if it and it[1] in rules:
            yield Exclusion(rules[it[1]], it[2], it[3], it[4])


def useful(rules, name):
    """The labels of the rules that find a property, or something that such a rule reads."""
    needed, found = {name}, set()
    while more := {it.label for it in rules.values() if needed & {*it.targets}} - found:
        found |= more
        for label in more:
            needed |= {*rules[label].sources, *rules[label].conditions}
    return found


def barred_of(lines, rules, name):
    """The rules that an explanation tells to be held back by what no round found: a condition, or a command."""
    labels = useful(rules, name)
    for line in lines:
        it = BARRED.fullmatch(line)
        if it and it[1] in labels:
            yield Exclusion(rules[it[1]], it[2], it[3], None)


class Told:
    """What the session tells of the object after a refusal."""

    def __init__(self, session, thing, name, refused):
        self.session, self.name = session, name
        self.type_name, self.columns = thing.type_name, thing.columns
        self.rules = rules_of(session.ask("rules"))
        self.exclusions = list(exclusions_of(session.ask(f"history {name}"), self.rules))
        labels = {it.rule.label for it in self.exclusions}
        for reference, asked in refused:
            first = f"LP.{asked}" if "." in reference else by_name(thing.type_name)[asked].polytope
            for it in barred_of(session.ask(f"explain {reference} {asked}"), self.rules, first):
                if it.rule.label not in labels:
                    self.exclusions.append(it)
                    labels.add(it.rule.label)
        self.held = {"given": [], "stored": [], "computed": []}
        for prop in by_name(thing.type_name):
            origin = session.ask(f"origin {name} {prop}")[0]
            if not prop.endswith("_AMBIENT_DIM"):
                self.held.get(origin, []).append(prop)

    def values(self, rule_names):
        """The values of a rule's sources that are held, by the first names of their properties."""
        found = {}
        for name in rule_names:
            reply = self.session.ask(f"lookup {self.name} {self.names([name])}")[0].split(" ", 2)
            if len(reply) == 3 and reply[0] == self.name:
                found[name] = json.loads(reply[2])
        return Values(self.type_name, self.columns, found)

    def lost_step(self, rule):
        """Where an elimination of the rule left 127 bits, in words, or None."""
        lines = self.session.ask(f"evidence {self.name} {rule.label}")[1:]
        sources = [it for it in rule.sources if not it.startswith("LP.")]
        if not self.columns:
            return None
        return lost_steps.told(self.values(sources), sources, lines, lambda it: self.names([it]))

    def names(self, rule_names):
        """The names of a rule, as the object's type has them."""
        known = {it.polytope: name for name, it in by_name(self.type_name).items()}
        return ", ".join(known.get(it, it.removeprefix("LP.")) for it in rule_names)


def finds(told, rule):
    return f"{rule.label} (finds {told.names(rule.targets)} from {told.names(rule.sources)})"


def reason(told, exclusion):
    """Why a rule is not tried again, in words."""
    rule = exclusion.rule
    place = f" for the program {exclusion.program}" if exclusion.program else ""
    if exclusion.how == "false":
        condition = told.names([exclusion.what])
        return f"{finds(told, rule)} was not tried: of this object {condition} is not as it asks"
    if exclusion.how in PUT_ASIDE:
        return f"{finds(told, rule)} was not tried: {PUT_ASIDE[exclusion.how]}"
    shown = EVIDENCE.get(exclusion.what, "it cannot go on")
    if exclusion.what == "E5" and rule.client == OF_FACES:
        shown = TOO_MANY_FACES
    if exclusion.what in OF_NUMBERS and rule.label.endswith(OF_WIDE):
        shown = STILL_TOO_WIDE
    elif exclusion.what == "E1":
        step = told.lost_step(rule)
        shown = f"a number of more than 127 bits comes up {step}" if step else shown
    return f"{finds(told, rule)} failed{place} by {exclusion.what}: {shown}"


def held_lines(told, path):
    """What is held all the same."""
    computed = told.held["computed"]
    if computed:
        yield f"found all the same: {', '.join(computed)}; {wrapper()} {path} {computed[0]} shows it"
    elif told.held["given"] or told.held["stored"]:
        yield f"held: {', '.join(told.held['stored'] + told.held['given'])}; nothing more was found"


def described(told):
    """The first descriptions that were given."""
    first = {it.polytope: name for name, it in by_name(told.type_name).items()}
    given = {*told.held["given"], *told.held["stored"]}
    return [it for it in DESCRIPTIONS if first.get(it) in given]


def other_program(told, path, given):
    """How a program without the limit is asked."""
    word = "--ext" if given in GENERATORS else "--ine"
    pair = " ".join(told.names([it]) for it in (given, PAIRS[given]))
    words = f"--cone {word}" if told.type_name == "Cone" else word
    asked = f"{wrapper()} {path} {pair} | {bridge('to-cdd')} {words} > rows && lrs rows"
    return f"to try: an answer that is not proved, by lrslib: {asked}"


def is_wide_failure(told):
    """Whether a wide rule failed by its numbers too."""
    return any(it.what in OF_NUMBERS and it.rule.label.endswith(OF_WIDE) for it in told.exclusions)


def next_lines(told, path, is_standard):
    """What to try, by the kinds of evidence, and by whether only the standard rules were taken."""
    given = described(told)
    kinds = {it.what for it in told.exclusions if it.how == "failed"}
    if not given and not kinds:
        yield f"to try: give a description, which is one of {told.names(DESCRIPTIONS)}"
        return
    if kinds & OF_NUMBERS and is_standard:
        yield "to try: the same words without --standard, which go on by numbers of 512 bits"
    elif is_wide_failure(told):
        yield TOO_WIDE
    if kinds & OF_NUMBERS:
        ways = "move it to the origin, round to fewer places, scale denominators away"
        yield f"to try: smaller numbers: {ways}"
    if "E2" in kinds:
        order = "double description takes them one by one"
        yield f"to try: the same rows in another order, sorted for instance: {order}"
    clients = {it.rule.client for it in told.exclusions if it.what == "E5"}
    if OF_FACES in clients:
        yield "to try: what needs no faces, as N_EDGES, GRAPH, DIAMETER, SIMPLE and SIMPLICIAL"
    if clients - {OF_FACES}:
        yield TOO_MANY
    if given and told.type_name != "Fan" and kinds:
        yield other_program(told, path, given[0])


def lines(session, asked, name, refused, is_standard):
    """What is said after refusals for want of a chain, a line each; `refused` has references with properties."""
    thing, path = asked.thing, told_path(asked.path)
    told = Told(session, thing, name, refused)
    names = ", ".join(f"{of.partition('.')[2]}.{prop}".lstrip(".") for of, prop in refused)
    yield f"{names}: not found, since no chain of rules is left that leads there"
    if not told.exclusions:
        what = told.held["given"] + told.held["stored"]
        yield f"no rule failed: nothing leads there from {', '.join(what) or 'nothing'}"
    for it in told.exclusions:
        yield reason(told, it)
    yield from held_lines(told, path)
    yield from next_lines(told, path, is_standard)
