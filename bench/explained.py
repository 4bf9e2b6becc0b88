"""What is told of refused lines: rows of a line, or of a script, with a part of what is said of it."""

import re
from types import SimpleNamespace

import bridges
import book_fault
import lost_steps
import plans
import why
from absent import ABSENT
from calls import bridge
from evidence import Values
from explaining import REFUSED, Explainer, Line, Pairing
from properties import PROGRAM_PROPERTIES, TYPES, Thing, by_name
from spoken import fault_of_line, is_silent

# Lines that speak no command.
SLIPS = [
    ("give  p FACETS", "words stand one blank apart, without one before or behind: 'give p FACETS' is read"),
    (" give p FACETS", "'give p FACETS' is read"),
    ("take  p POINTS [[1, 0]]", "'take p POINTS [[1, 0]]' is read"),
    ("disable p precondition", "'precondition' is no label of a rule"),
    ("give\tp FACETS", "'give p FACETS' is read"),
    ("give p FACETS # all of them", "a comment takes a line of its own: 'give p FACETS' is read"),
    ("make c cube", "a whole number of dimensions stands behind 'cube', as in 'make c cube 3'"),
    ("make c cyclic 3", "as in 'make c cyclic 3 7'"),
    ("make c kube 3", "is cube meant?"),
    ("giv p FACETS", "'giv' is no command: is give meant?"),
    ("GIVE p FACETS", "is give meant?"),
    ("give p facets", "is FACETS meant?"),
    ("give p A B", "one property is wanted, and 'A B' stands there: 'ensure' takes up to four"),
    ("give p MAXIMAL_CONES_LINEAR_SPAN_NORMALS", "no property has a name of more than 32 letters"),
    ("give 1p FACETS", "'1p' is no name, which is a letter and then at most 31 letters, digits and _"),
    ("take p POINTS", "a word is missing: 'take' is written like 'take p POINTS"),
    ("$p = cube(3);", "this looks like polymake's own language"),
    ("print $p->FACETS;", "this looks like polymake's own language"),
    ("make c cube 3;", "no ';' stands behind a command: 'make c cube 3' is read"),
    ("new p Polytope; give p FACETS", "each command takes a line of its own, without ';': 'new p Polytope', 'give p FACETS' are read"),
    ("make c cube 3 ;give c FACETS;", "'make c cube 3', 'give c FACETS' are read"),
    ("x;y", "'x' is no command; each command takes a line of its own, without ';'"),
    ("make c cube 3;giv c FACETS", "each command takes a line of its own, without ';'"),
    ("give p Inequalities", "'Inequalities' is no property, whose names have capitals: is INEQUALITIES meant?"),
    ("1 0 0", "a row of numbers is no command"),
    ("[[1,0]]", "a row of numbers is no command"),
    ("rules x", "'rules' stands alone"),
    ("ensure p A B C D E", "5 properties are named, of which one line takes at most 4"),
    ("history", "a word is missing: 'history' is written like 'history p'"),
    ("show p q", "'q' is too much: 'show' is written like 'show p'"),
    ("load p a/b", "'a/b' is no name of a file"),
    ("\ufeffnew p Polytope", "the mark that a file is UTF-8 stands before the first command"),
]

# The first lines of the scripts below.
POLYTOPE, CONE = "new p Polytope\nok\n", "new c Cone\nok\n"

# Scripts with the reply to each line behind it, the last of which is explained.
EXPLAINED = [
    (POLYTOPE + "give p FACET\nno 5 UnknownProperty", "'FACET' is no property of polytopes: is FACETS meant?"),
    (POLYTOPE + "give p RAYS\nno 5 UnknownProperty", "VERTICES is what it is called there"),
    (CONE + "take c POINTS [[1]]\nno 5 UnknownProperty", "'POINTS' is no property of cones: INPUT_RAYS is what"),
    (POLYTOPE + "give p MAXIMAL_VALUE\nno 5 UnknownProperty", "'new p.lp LP' makes one"),
    (POLYTOPE + "new p.a LP\nok\ngive p.a VALUE\nno 5 UnknownProperty", "no property of linear programs"),
    ("new p polytope\nno 4 UnknownType", "'polytope' is no type, which are Polytope, Cone, Fan: is Polytope meant?"),
    (POLYTOPE + "new p.a Cone\nno 4 UnknownType", "a linear program is made by 'new p.a LP'"),
    (POLYTOPE + "give q FACETS\nno 2 UnknownName", "no object is called 'q': there are p"),
    (POLYTOPE + "give p.a MAXIMAL_VALUE\nno 2 UnknownName", "p has no linear program 'a': it has none, and 'new p.a LP' makes one"),
    (CONE + "give c.a MAXIMAL_VALUE\nno 2 UnknownName", "c has no linear program 'a': it has none"),
    (POLYTOPE + "new p Cone\nno 3 NameTaken", "'p' is there already"),
    (POLYTOPE + "take p POINTS [[1,0.5]]\nno 6 BadValue number", "POINTS: row 1, entry 2: '0.5' is no fraction: write \"1/2\""),
    (POLYTOPE + "take p POINTS [[1,0],[1,1],]\nno 6 BadValue json", "behind row 2: a comma stands before the closing bracket"),
    (POLYTOPE + "take p POINTS [[1,.5],[1,1]]\nno 6 BadValue json", "row 1, entry 2: .5 is no number of JSON: write \"1/2\""),
    (POLYTOPE + "take p POINTS [[1,0],[1,5.]]\nno 6 BadValue json", "row 2, entry 2: 5. is no number of JSON: write 5"),
    (POLYTOPE + "take p POINTS [[1,+1/2]]\nno 6 BadValue json", "row 1, entry 2: +1/2 is no number of JSON: write \"1/2\""),
    (POLYTOPE + f"take p POINTS [[1,+{2**64}]]\nno 6 BadValue json", f"is no number of JSON: write \"{2**64}\""),
    (POLYTOPE + 'take p POINTS [[1,".5"]]\nno 6 BadValue number', "row 1, entry 2: '.5' is no fraction p or p/q: write \"1/2\""),
    (POLYTOPE + 'take p POINTS [[1,"5."]]\nno 6 BadValue number', "'5.' is no fraction p or p/q: write \"5\""),
    (POLYTOPE + 'take p POINTS [[1,"+5"]]\nno 6 BadValue number', "'+5' is no fraction p or p/q: write \"5\""),
    (POLYTOPE + 'take p POINTS [[1,"0.25"]]\nno 6 BadValue number', "'0.25' is no fraction p or p/q: write \"1/4\""),
    (POLYTOPE + "take p POINTS [[1,True]]\nno 6 BadValue json", "row 1, entry 2: True is true in JSON"),
    (POLYTOPE + "take p BOUNDED False\nno 6 BadValue json", "BOUNDED: False is false in JSON"),
    (POLYTOPE + 'take p BOUNDED "True"\nno 6 BadValue shape', "BOUNDED: \"True\" is no truth value: write true"),
    (POLYTOPE + "take p BOUNDED 0\nno 6 BadValue shape", "BOUNDED: 0 is no truth value: write false"),
    (POLYTOPE + "take p BOUNDED [1]\nno 6 BadValue shape", "BOUNDED is true or false"),
    (POLYTOPE + "take p N_FACETS 4.0\nno 6 BadValue shape", "'4.0' is no whole number that is taken: write 4"),
    (POLYTOPE + "take p N_FACETS None\nno 6 BadValue json", "None is no value: leave the property out"),
    (POLYTOPE + "take p POINTS [[1,0]]; give p FACETS\nno 6 BadValue json", "each command takes a line of its own, without ';'"),
    (POLYTOPE + "give p VOLUME\nno 5 UnknownProperty", "no property of polytopes: volumes are not computed here; PLACING_TRIANGULATION has simplices"),
    (POLYTOPE + "give p MAX_VALUE\nno 5 UnknownProperty", "of a linear program MAXIMAL_VALUE is meant"),
    (POLYTOPE + "new p.a LP\nok\ngive p.a MAX_VALUE\nno 5 UnknownProperty", "of a linear program MAXIMAL_VALUE is meant"),
    (POLYTOPE + "take p POINTS [[1,0],[1,1/2]]\nno 6 BadValue json", "row 2, entry 2: 1/2 without quotes: a fraction is a text, \"1/2\""),
    (POLYTOPE + "take p POINTS [[1,0],['1',1]]\nno 6 BadValue json", "row 2, entry 1: a quote ' where JSON has \""),
    (POLYTOPE + "take p POINTS [[1,0],[1,0]\nno 6 BadValue json", "the value ends before its brackets are closed"),
    (POLYTOPE + "take p POINTS [[1,0],[1]]\nno 6 BadValue shape", "row 2 has 1 entry, and row 1 has 2"),
    (POLYTOPE + "take p POINTS 7\nno 6 BadValue shape", "POINTS is a list of rows of one length, as [[1,0],[1,1]]"),
    (POLYTOPE + "take p POINTS [[1,1e3]]\nno 6 BadValue number", "'1e3' is no fraction: write \"1000\""),
    (POLYTOPE + "take p POINTS [[1,1e4000000000]]\nno 6 BadValue number", "'1e4000000000' is no fraction"),
    (POLYTOPE + 'take p POINTS [[1,"1/0"]]\nno 6 BadValue number', "'1/0' divides by zero"),
    (POLYTOPE + f"take p POINTS [[1,{2**64}]]\nno 6 BadValue number", "without quotes is beyond 64 bits"),
    (POLYTOPE + f'take p POINTS [[1,"{2**127}"]]\nno 6 BadValue number', "has more than 127 bits"),
    (POLYTOPE + 'take p VERTICES_IN_FACETS [[2],{"cols":2}]\nno 6 BadValue index', "row 1: 2 is not below the column count 2"),
    (POLYTOPE + "take p VERTICES [[1,0],[-1,0]]\nno 6 BadValue row", "row 2: its first entry is negative"),
    (POLYTOPE + "take p FACETS [[0,0]]\nno 6 BadValue row", "row 1: it is zero"),
    (POLYTOPE + "take p LINEALITY_SPACE [[1,0]]\nno 6 BadValue row", "row 1: its first entry is not 0"),
    (POLYTOPE + "take p VERTICES [[1,0]]\nok\ntake p FACETS [[1,0,0]]\nno 6 BadValue columns", "what the object holds has 2 columns"),
    (POLYTOPE + "take p VERTICES [[1,0]]\nok\ntake p VERTICES [[1,0]]\nno 7 AlreadyHeld", "p holds VERTICES"),
    ("make p cube 3\nok\ngive p N_FACETS\np N_FACETS 6\ntake p FACETS [[0,1]]\nno 8 Sealed", "give all values before the first question"),
    (POLYTOPE + "take p N_VERTICES 4\nok\ngive p FACETS\nno 10 NoChain", "give a description, which is one of POINTS, INEQUALITIES, VERTICES, FACETS"),
    ("make p cube 3\nok\npyramid p q\nok\nensure q H_VECTOR\nno 10 NoChain", "'explain q H_VECTOR' tells which are barred and why"),
    ("load p nowhere.json\nno 14 NoSuchFile", "there is no file 'nowhere.json' in this folder"),
    ("load p f\nno 13 BadFile BadProperty POINTS shape", "'f': the value of this key has a fault ('BadProperty POINTS shape')"),
    ("load p f\nno 13 BadFile NotJson", f"'f': the file is no JSON: {bridge('from-rows')} --data writes one of rows of numbers"),
    (POLYTOPE + "disable p nothing\nno 16 UnknownRule", "no rule or client is called 'nothing'"),
    ("make p simplex 2\nok\npolar p q\nno 17 NotFit CENTERED", "with the origin in their interior alone (CENTERED)"),
    ("make p cube 33\nno 17 NotFit size", "it is larger than is taken (size)"),
]


# The plan of a square's N_VERTICES, and what is said of words beside it that the checker does not take.
PLAN = """plan 41
rule dd_vertices 40
rule n_vertices 1
row 0 00000000000000000000000000000019
row 40 00000000000000000000000000000079
"""
PLAN_FAULTS = [
    ("Polytope INEQUALITIES : N_VERTICES", PLAN, "the plan begins with CONE_AMBIENT_DIM, EQUATIONS as held too"),
    ("Polytope CONE_AMBIENT_DIM INEQUALITIES EQUATIONS FACETS : N_VERTICES", PLAN, "the plan does not begin with FACETS as held"),
    ("Polytope CONE_AMBIENT_DIM INEQUALITIES EQUATIONS : N_VERTICES", "ok\n" + PLAN, "other replies stand before the plan"),
    ("Polytope POINTS : N_VERTICES", "no 10 NoChain\n", "CONE_AMBIENT_DIM, INPUT_LINEALITY: filled in before a plan is made"),
    ("--program Polytope CONE_AMBIENT_DIM POINTS INPUT_LINEALITY : LP.MAXIMAL_VALUE", "plan 6\nrow 0 00000000000000000000020000000007\n", "as held too"),
]
WORD_FAULTS = [
    ("Polytope POINTS : F_VECTER", "F_VECTER is no property of polytopes: is F_VECTOR meant?"),
    ("Polytope POINT : F_VECTOR", "POINT is no property of polytopes: is POINTS meant?"),
    ("Cone POINTS : F_VECTOR", "POINTS is no property of cones"),
    ("polytope POINTS : F_VECTOR", "'polytope' is no type, which are Polytope, Cone, Fan: is Polytope meant?"),
    ("Polytope POINTS F_VECTOR", "':' is missing"),
    ("Polytope POINTS :", "no property stands behind ':'"),
    ("Polytope POINTS : LP.MAXIMAL_VALUE", "'--program' before the type takes"),
]

# Faults of books, with the token that stands there and the text before it.
BOOK_FAULTS = [
    ("UnknownProperty", "FACTS", "", "no property is called 'FACTS': is FACETS meant?"),
    ("UnknownClient", "n_facet", "", "no client is called 'n_facet': is n_facets meant?"),
    ("SameLabel", "a", "", "a rule before has the label 'a'"),
    ("WeightRange", "0", "", "a weight is N or CLASS.N"),
    ("TooManyRules", "a", "", "at most 256 rules"),
    ("Syntax", "", "", "the text ends too soon"),
    ("Syntax", "}", "a : rule ", "'}' cannot stand there"),
    ("Syntax", "N_FACETS", "a : rule N : F { f } weight 1; precondition : ", "a precondition names truth values, as BOUNDED, and N_FACETS is none"),
    ("SignatureMismatch", "", "a : rule N_VERTICES : FACETS { n_facets } weight 1;", "the client n_facets finds other targets, or from other sources or conditions: LABEL : rule N_FACETS : FACETS { n_facets } weight 1;"),
    ("SignatureMismatch", "", "a : rule H_VECTOR : F_VECTOR { h_vector } weight 1;", "precondition : BOUNDED, SIMPLICIAL;"),
]


class Replies:
    """A session whose replies are known."""

    def __init__(self, history, explained, origins):
        self.history, self.explained, self.origins = history, explained, origins

    def ask(self, line):
        word, *words = line.split(" ")
        if word == "rules":
            return (bridges.TOP / "wide.rules").read_text().splitlines()
        if word == "history":
            return ["rounds 0", *self.history]
        return ["no 10 NoChain", *self.explained] if word == "explain" else [self.origins.get(words[1], "undef")]


# Why a property is not found: the property, what history and explain tell, and parts of what is said and is not said.
WHYS = [
    ("H_VECTOR", [], ["barred h_vector false BOUNDED"], ["h_vector (finds H_VECTOR from COMBINATORIAL_DIM, F_VECTOR) was not tried: of this object BOUNDED"], "no rule failed"),
    ("FACETS", [], ["barred h_vector false BOUNDED"], ["no rule failed: nothing leads there from POINTS"], "h_vector"),
    ("N_FACETS", [], ["barred n_facets disabled", "barred n_facets_sets no-client"], ["n_facets (finds N_FACETS from FACETS) was not tried: it was disabled", "its client was let go"], "no rule failed"),
    ("FACETS", ["excluded dd_facets failed E1", "excluded dd_facets_wide failed E1"], ["barred dd_facets failed E1"], ["no other order of the rows gives it then, and only smaller numbers help", "to try: smaller numbers", "dd_facets_wide (finds FACETS, AFFINE_HULL from POINTS, INPUT_LINEALITY) failed by E1: it calculates with 512 bits, and"], "another order"),
    ("FACETS", ["excluded dd_facets failed E5"], [], ["where the answer itself has more than 2,048 rows no order of the given rows helps"], "sorted for instance"),
    ("F_VECTOR", ["excluded faces failed E5"], [], ["what needs no faces", "more than 65,536 faces come up"], "no order of the given rows"),
]

# The values of an object, the sources of a rule, its evidence, and where the step is that is too wide.
STEP = 'evidence r E1 {"basis":[["1329227995784915872903807060280344576","-1"]],"by":0,"column":1,"front":1,"list":LIST,"part":["-1","1329227995784915872903807060280344576"]}'
OF_ROWS = STEP.replace("LIST", '"rows"')
WIDE_ROWS = [["1329227995784915872903807060280344576", -1], [-1, "1329227995784915872903807060280344576"]]
EXTENDED = 'evidence r E1 {"basis":[["1541964019372314166040657","0","0","1","0","0","0"],["0","881122296784179523451804","0","0","1","0","0"],["0","0","6167856077489256664162628","0","0","1","0"]],"by":0,"column":0,"front":3,"list":{"extended_without":0},"part":["2561100086025554985623421","-2347582625466347538259363","12638866480719164901008043","0","0","0","1"]}'
MIXED_POINTS = [[1, "13/717", "511/839", "77/953"], [1, "691/701", "257/541", "8/991"], [1, "403/877", "99/643", "619/823"], [1, "871/907", "715/937", "347/521"], [1, "5/769", "11/947", "523/727"]]
LOST_STEPS = [
    ({"POINTS": WIDE_ROWS, "INPUT_LINEALITY": []}, "POINTS, INPUT_LINEALITY", OF_ROWS, "at row 1 of POINTS in column 1, as the rows of POINTS are eliminated one after another, counted from 0"),
    ({"POINTS": [WIDE_ROWS[1], [0, 1]], "INPUT_LINEALITY": WIDE_ROWS[:1]}, "POINTS, INPUT_LINEALITY", OF_ROWS, "at row 0 of POINTS in column 1, as the rows of INPUT_LINEALITY and POINTS"),
    ({"POINTS": WIDE_ROWS, "INPUT_LINEALITY": []}, "VERTICES, LINEALITY_SPACE", OF_ROWS, None),
    ({"POINTS": WIDE_ROWS[::-1], "INPUT_LINEALITY": []}, "POINTS, INPUT_LINEALITY", OF_ROWS, None),
    ({"POINTS": WIDE_ROWS, "INPUT_LINEALITY": []}, "POINTS, INPUT_LINEALITY", "evidence r stored E1", None),
    ({"POINTS": [[2, 1], *WIDE_ROWS], "INPUT_LINEALITY": []}, "POINTS, INPUT_LINEALITY", STEP.replace("LIST", '{"without":0}'), "at row 2 of POINTS in column 1, as the rows of POINTS without row 0 of POINTS are"),
    ({"POINTS": MIXED_POINTS, "INPUT_LINEALITY": []}, "POINTS, INPUT_LINEALITY", EXTENDED, "at column 3, as the columns of POINTS without row 0 of POINTS are eliminated one after another, counted from 0"),
]


def check_lost_steps(check):
    """Where an elimination comes to a number that is too wide."""
    for held, sources, line, told in LOST_STEPS:
        values = Values("Cone", len(held["POINTS"][0]), held)
        said = lost_steps.told(values, sources.split(", "), [line])
        is_so = said is None if told is None else said is not None and told in said
        check.is_so(f"a step that is lost, of {held}", is_so, f"{said!r}, without {told!r}")
    many = Values("Cone", 2, {"POINTS": [*WIDE_ROWS, *([1, it] for it in range(lost_steps.MOST_ENTRIES // 2))], "INPUT_LINEALITY": []})
    check.same("a step among very many rows", lost_steps.told(many, ("POINTS", "INPUT_LINEALITY"), [OF_ROWS]), None)


def check_whys(check):
    """What is said of properties that no chain leads to."""
    asked = SimpleNamespace(path="p.json", thing=Thing("Polytope"))
    for name, history, explained, told, not_told in WHYS:
        session = Replies(history, explained, {"POINTS": "given"})
        said = "\n".join(why.lines(session, asked, "p", [("p", name)], False))
        for part in told:
            check.is_so(f"why {name} is not found", part in said, f"{said!r}, without {part!r}")
        check.is_so(f"why {name} is not found", not_told not in said, f"{said!r}, with {not_told!r}")


def check_plans_told(check):
    """What is said of plans and of books that are not taken."""
    for words, text, told in PLAN_FAULTS:
        said = " / ".join(plans.plan_faults(words.split(), text))
        check.is_so(f"a plan beside {words!r}", told in said, f"{said!r}, without {told!r}")
    for words, told in WORD_FAULTS:
        said = " / ".join(plans.word_faults(words.split()))
        check.is_so(f"the words {words!r}", told in said, f"{said!r}, without {told!r}")
    right = "Polytope CONE_AMBIENT_DIM INEQUALITIES EQUATIONS : N_VERTICES".split()
    check.same("a plan with its words", [*plans.word_faults(right), *plans.plan_faults(right, PLAN)], [])
    for fault, token, before, told in BOOK_FAULTS:
        said = book_fault.MEANINGS[fault](token, before)
        check.is_so(f"the fault {fault} at {token!r}", told in said, f"{said!r}, without {told!r}")
    ended = bridges.called("plan-of", [], f"ok\nok\n{PLAN}p N_VERTICES 4\n")
    check.same("a plan among replies", (ended.status, ended.wrote), (0, PLAN))
    ended = bridges.called("plan-of", ["--number", "2"], f"ok\n{PLAN}ok\n{PLAN.replace('41', '42')}p N_VERTICES 4\n")
    check.same("the second plan among replies", (ended.status, ended.wrote), (0, PLAN.replace("41", "42")))
    for given, told in (("ok\n", "no plan is among these lines"), (PLAN + "ok\n" + PLAN, "2 plans, at the lines 1, 7: --number says which")):
        ended = bridges.called("plan-of", [], given)
        check.is_so(f"plans in {given!r:.40}", ended.status == 2 and told in ended.told, ended.told)


def pairs(text):
    """The lines of a script with the lines that follow each: those of a session, or of the rows above."""
    for number, line in enumerate(text.splitlines(), 1):
        if not line.startswith("> ") and not is_silent(line):
            yield Line(number, line)


def replies(text):
    return [it[2:] for it in text.splitlines() if it.startswith("> ")]


def check_session(check, name, text):
    """Each reply of a session is of the line above it, the lines that are refused are explained, and no others."""
    pairing, explainer, found = Pairing(), Explainer(), []
    for line in pairs(text):
        pairing.feed(line)
    lines = text.splitlines()
    for at, shown in enumerate(lines):
        if not shown.startswith("> "):
            continue
        line = pairing.answered(shown[2:])
        if not lines[at - 1].startswith("> "):
            check.same(f"{name}:{at + 1}: the line of a reply", line and line.number, at)
        elif line is not None:
            check.is_so(f"{name}:{at + 1}", False, "it is taken as a reply of its own")
        if line is not None:
            found.append((line, shown[2:]))
    check.same(f"{name}: lines without a reply", len(pairing.waiting), 0)
    for line, reply in found:
        is_command = not reply.startswith("no 1 ")
        check.same(f"{name}:{line.number}: {line.text!r:.80} is a command", fault_of_line(line.text) is None, is_command)
        told = explainer.told(line, reply)
        check.same(f"{name}:{line.number}: explained", told is not None, REFUSED.fullmatch(reply) is not None)
        check.is_so(f"{name}:{line.number}: one line", told is None or told.isprintable(), repr(told))


def check_absent(check):
    """The names that are not had are none, and those that come near are properties."""
    known = {*PROGRAM_PROPERTIES, *(name for type_name in TYPES for name in by_name(type_name))}
    for word, told in ABSENT.items():
        near = set(re.findall(r"[A-Z][A-Z_]+", told))
        check.is_so(f"the absent property {word}", word not in known and near <= known, told)


def check_explained(check):
    """What is said of refused lines, and of each session of tests/sessions."""
    check_absent(check)
    for line, told in SLIPS:
        said = fault_of_line(line) or ""
        check.is_so(f"the line {line!r}", told in said, f"{said!r}, without {told!r}")
    for text, told in EXPLAINED:
        explainer, lines = Explainer(), text.split("\n")
        said = [explainer.told(Line(1, line), reply) for line, reply in zip(lines[::2], lines[1::2])][-1] or ""
        check.is_so(f"the script {text!r:.160}", told in said, f"{said!r}, without {told!r}")
    for path in sorted((bridges.TOP / "tests/sessions").rglob("*.session")):
        check_session(check, path.name, path.read_text())
    for path in sorted((bridges.TOP / "docs").glob("*.md")):
        for number, block in enumerate(re.findall(r"^```session\n(.*?)^```$", path.read_text(), re.M | re.S)):
            check_session(check, f"{path.name}, session {number}", block)
