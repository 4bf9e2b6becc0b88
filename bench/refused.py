"""Files that the bridges refuse, each with the line and a part of what is told of it."""

from dataclasses import dataclass


@dataclass(frozen=True)
class BadFile:
    """What a bridge is given, the line that it tells, None for the whole file, and its words."""

    bridge: str
    text: str
    line: int | None
    told: str
    words: tuple = ()


def data(text, type_text='"polytope::Polytope<Rational>"'):
    """A data file with the members that the text has from its second line on."""
    return f'{{"_type":{type_text},\n{text}}}\n'


def bad_polymake():
    bad = lambda text, line, told, *words: BadFile("from-polymake", text, line, told, words)
    yield bad("", 1, "an object")
    yield bad("[1]", 1, "an object")
    yield bad('<?xml version="1.0"?>\n', 1, "before version 4")
    yield bad("_application polytope\nPOINTS\n1 0\n", 1, "before version 4")
    yield bad('{"POINTS":[["1"]]}', 1, "no '_type'")
    yield bad('{\n"POINTS":[["1"]],\n"_type":"polytope::Polytope<Float>"}', 3, "Polytope<Float>")
    yield bad(data('"N_FACETS":1', '"fan::PolyhedralComplex<Rational>"'), 1, "PolyhedralComplex")
    yield bad(data('"N_FACETS":1', "1.5"), 1, "the type of '_type' is neither")
    yield bad(data('"POINTS":[["1","0"],["1"]]'), 2, "row 2: a row of 1 entries in a matrix of 2")
    yield bad(data('"POINTS":[["1","0"],\n["1","0"],\n["1"]]'), 4, "row 3")
    yield bad(data('"POINTS":[["1","0.5"]]'), 2, "'0.5' is no fraction")
    yield bad(data('"POINTS":[[1,0.5]]'), 2, "'0.5' is no fraction")
    yield bad(data('"POINTS":[[1,1e3]]'), 2, "'1e3' is no fraction")
    yield bad(data('"POINTS":[[1,NaN]]'), 2, "NaN")
    yield bad(data('"POINTS":[["1","inf"]]'), 2, "'inf' is no fraction")
    yield bad(data('"POINTS":[["1","1/0"]]'), 2, "divides by zero")
    yield bad(data('"POINTS":[["1","1/-2"]]'), 2, "is no fraction")
    yield bad(data('"POINTS":[["1"," 2"]]'), 2, "is no fraction")
    yield bad(data('"POINTS":[["1","\\u0662"]]'), 2, '"\\u0662" is no fraction')
    yield bad(data('"POINTS":[[1,true]]'), 2, "'true' is no fraction")
    yield bad(data('"POINTS":[["1","0.25"]]'), 2, "row 1: '0.25' is no fraction: write 1/4")
    yield bad(data('"POINTS":[["1",".5"]]'), 2, "'.5' is no fraction: write 1/2")
    yield bad(data('"POINTS":[["1","+3"]]'), 2, "'+3' is no fraction: write 3")
    yield bad(data('"POINTS":[["1",0.25]]'), 2, "'0.25' is no fraction: write \"1/4\"")
    yield bad(data('"POINTS":[[1,.5]]'), 2, 'no JSON: .5 is no number of JSON: write "1/2"')
    yield bad(data('"POINTS":[[1,5.]]'), 2, "no JSON: 5. is no number of JSON: write 5")
    yield bad(data('"POINTS":[[1,+1]]'), 2, "no JSON: +1 is no number of JSON: write 1")
    yield bad(data('"POINTS":[[1,1/2]]'), 2, 'no JSON: 1/2 without quotes: a fraction is a text, "1/2"')
    yield bad(data('"BOUNDED":True'), 2, "no JSON: True is true in JSON")
    yield bad(data('"N_FACETS":+4'), 2, "no JSON: +4 is no number of JSON: write 4")
    yield bad(data('"N_FACETS":4"BOUNDED":true'), 2, "no JSON: a comma or the end of the object is expected")
    yield bad(data('"BOUNDED":true"N_FACETS":4'), 2, "no JSON: a comma or the end of the object is expected")
    yield bad(data('"POINTS":[["1","0"],]'), 2, "no JSON: a comma stands before the closing bracket")
    yield bad(data('"POINTS":[["1","0"]],'), 2, "no JSON: a comma stands before the closing bracket")
    yield bad(data('"POINTS":[["1","0"],,["1","1"]]'), 2, "no JSON: Expecting value")
    yield bad(data('"POINTS":[[1,0.5"1"]]'), 2, "no JSON: Expecting ',' delimiter")
    yield bad(data('"N_FACETS":4.'), 2, "no JSON: 4. is no number of JSON: write 4")
    yield bad(data('"POINTS":[["1",null]]'), 2, "is no fraction")
    yield bad(data('"POINTS":[["1","' + "7" * 5000 + '"]]'), 2, "digits")
    yield bad(data('"POINTS":[[1,' + "7" * 5000 + "]]"), 2, "is no fraction")
    yield bad(data('"POINTS":{"0":"1"}'), 2, "no list of rows")
    yield bad(data('"POINTS":["1"]'), 2, "row 1: no row")
    yield bad(data('"POINTS":[{"0":"1"}]'), 2, "without '_dim'")
    yield bad(data('"POINTS":[{"2":"1","_dim":2}]'), 2, "'2' is no place in a row of 2")
    yield bad(data('"POINTS":[{"01":"1","_dim":2}]'), 2, "'01' is no place")
    yield bad(data('"POINTS":[{"0":"1","0":"2","_dim":2}]'), 2, "stands twice")
    yield bad(data('"POINTS":[{"0":"1","_dim":2},{"0":"1","_dim":3}]'), 2, "row 2: a row of 3")
    yield bad(
        data('"POINTS":[["1","0"],{"cols":3}]'), 2, "row 1: a row of 2 entries in a matrix of 3"
    )
    yield bad(data('"POINTS":[["1","0"],{"cols":2,"rows":1}]'), 2, "something else")
    yield bad(data('"POINTS":[["1","0"],{"cols":-2}]'), 2, "'cols' is no count")
    yield bad(data('"POINTS":[["0","1"]]'), 2, "no row has a positive first entry")
    yield bad(data('"POINTS":[["1","1"]],\n"EQUATIONS":[["1"]]'), 3, "EQUATIONS: 1 columns")
    yield bad(data('"POINTS":[["1","1"]],\n"POINTS":[["1","1"]]'), 3, "the key POINTS stands twice")
    yield bad(data('"POINTS":[["1","1"]]\n"N_POINTS":1'), 3, "a comma")
    yield bad(data('"VERTICES_IN_FACETS":[[0,2],{"cols":2}]'), 2, "row 1: an index")
    yield bad(
        data('"VERTICES_IN_FACETS":[[0],\n[1,1],{"cols":2}]'), 3, "row 2: an index stands twice"
    )
    yield bad(data('"VERTICES_IN_FACETS":[[-1]]'), 2, "an index")
    yield bad(data('"VERTICES_IN_FACETS":[["x"]]'), 2, "'x' is no whole number")
    yield bad(data('"BOUNDED":1'), 2, "neither true nor false")
    yield bad(data('"N_FACETS":"1/2"'), 2, "is no whole number")
    yield bad(data('"FAR_FACE":{"0":1}'), 2, "no list of numbers")
    yield bad(data('"N_FACETS":1') + "[]", 3, "behind the object")
    yield bad(
        '{"_type":"polytope::Polytope<Rational>","N_FACETS":' + "[" * 100000, 1, "nested too deeply"
    )
    yield bad(data('"N_FACETS":4'), None, "is no name", "0")
    yield bad(data('"N_FACETS":4'), None, "POINTS: it is asked for", "--only", "POINTS")
    pair = data('"FACETS":[["1","1"]],\n"AFFINE_HULL":[]')
    yield bad(pair, 3, "AFFINE_HULL: it is left out beside FACETS", "--only", "FACETS")
    yield bad(pair, None, "'_type' is asked for", "--only", "_type")
    doubtful = data('"INEQUALITIES":[["0","1"]],\n"F_VECTOR":["1"]')
    yield bad(doubtful, 3, "may be unbounded", "--only", "F_VECTOR")
    yield bad(data('"FACETS":[{"cols":2}],\n"AFFINE_HULL":[{"cols":2}]'), 2, "may be unbounded")


def bad_fans_and_programs():
    bad = lambda text, line, told, *words: BadFile("from-polymake", text, line, told, words)
    of_fan = '"fan::PolyhedralFan<Rational>"'
    given = '"INPUT_RAYS":[["1"]],\n"INPUT_CONES":[[0]]'
    yield bad(data(given, of_fan), 2, "RAYS and MAXIMAL_CONES")
    yield bad(data('"RAYS":[["1"]],\n"MAXIMAL_CONES":[["x"]]', of_fan), 3, "no whole number")
    rows = '"POINTS":[["1","1"]],\n'
    yield bad(data(f'{rows}"LP":[["0","1"]]'), 3, "no linear programs")
    program = lambda name, entries: data(f'{rows}"LP":[{{{name}"LINEAR_OBJECTIVE":[{entries}]}}]')
    yield bad(program("", '"0"'), 3, "lp0: LINEAR_OBJECTIVE: 1 columns")
    yield bad(program('"_id":"a",', '"0","x"'), 3, "a: LINEAR_OBJECTIVE: 'x' is no fraction")


def bad_rows():
    bad = lambda text, line, told, *words: BadFile("from-rows", text, line, told, words)
    yield bad("", None, "no rows of points or inequalities")
    yield bad("1 2\n1\n", 2, "row 2: 1 entry, where the first row has 2")
    yield bad("x,y\n1,2,3\n", 1, "row 1: 'x' is no fraction")
    yield bad("1,2\nx,y\n", 2, "row 2: 'x' is no fraction")
    yield bad("[[0,0],\n[1,0]\n", 1, "a bracket is not closed")
    yield bad("[[0,0],\n[1,0)]\n", 2, "')' closes nothing")
    yield bad("[0,0],\n[1,0]]\n", 2, "']' closes nothing")
    yield bad("[[0,0],\n[],[1,0]]\n", 2, "an empty row")
    yield bad("[[0,0],\n3]\n", 2, "'3' stands beside rows in brackets")
    yield bad("[0,0]\n[1,,0]\n", 2, "row 2: an entry is missing")
    yield bad("[Fraction(1,2),3]\n", 1, "'Fraction' stands beside rows in brackets")
    yield bad("1,,2\n", 1, "an entry is missing")
    yield bad("1 2\n1 2,\n", 2, "row 2: an entry is missing")
    yield bad("1 1/0\n", 1, "divides by zero")
    yield bad("1 1e99999\n", 1, "is no fraction")
    yield bad("1 1e9999\n", 1, "digits")
    yield bad("1 2\ninequalities\n1 2\n", 2, "'points' and 'inequalities' are two descriptions")
    yield bad("points\n1 2\ndirections\n1\n", 3, "directions: rows of 1 entry do not suit")
    yield bad("directions\n1 2\n", 1, "directions without a point")
    yield bad("points\n", None, "no row tells how many columns")
    yield bad("1 2\nmaximize\n1 2 3\n1 2 3\n", 2, "one row is wanted")
    yield bad("1 2\nmaximize\n1 2 3\nminimize\n1 2 3\n", 4, "a second objective")
    yield bad("1 2\nmaximize\n1 2\n", 2, "a linear program is one of a polytope", "--cone")


def cdd(rows, size="1 3 rational", head="H-representation\n", tail=""):
    return f"{head}begin\n{size}\n{rows}\nend\n{tail}"


def bad_cdd():
    bad = lambda text, line, told, *words: BadFile("from-cdd", text, line, told, words)
    yield bad("", 1, "'begin' is missing")
    yield bad(cdd("1 0 1", head="a name\na second name\n"), 2, "'a second name' is not understood")
    yield bad(cdd("1 0 1", head="", size="1 3 complex"), 2, "numbers of the kind 'complex'")
    yield bad(cdd("1 0 1\n0 1", head="", size="2 3 integer"), 4, "row 2: 2 entries")
    yield bad(cdd("1 0.5 1"), 4, "row 1: '0.5' is no fraction: write 1/2")
    yield bad(cdd("1 +2 1"), 4, "row 1: '+2' is no fraction: write 2")
    yield bad(
        cdd("1 0 1", head="H-representation\nV-representation\n"), 2, "a second representation"
    )
    yield bad(
        cdd("1 0 1", head="name\nH-representation\nnoise here\n"),
        3,
        "'noise here' is not understood",
    )
    yield bad(cdd("1 0 1", head="name\nsecond name\nH-representation\n"), 2, "is not understood")
    yield bad(cdd("1 0 1", size="1 3 complex"), 3, "numbers of the kind 'complex'")
    yield bad(cdd("1 0 1e", size="1 3 real"), 4, "row 1: '1e' is no fraction")
    yield bad(cdd("1 0 1", size="1 3"), 3, "no size")
    yield bad(cdd("1 0 1", size="-1 3 rational"), 3, "'-1' is no number of rows")
    yield bad(cdd("1 0 1", size="1 x rational"), 3, "'x' is no number of columns")
    yield bad(cdd("1 0 1", size="1 0 rational"), 3, "no columns")
    yield bad(cdd("1 0"), 4, "row 1: 2 entries, where there are 3 columns")
    yield bad(cdd("1 0 1\n1 0 1 2", size="2 3 rational"), 5, "row 2: 4 entries")
    yield bad(cdd("1 0 0.5"), 4, "row 1: '0.5' is no fraction")
    yield bad(cdd("1 0 1/0"), 4, "divides by zero")
    yield bad(cdd("1 0 +1"), 4, "'+1' is no fraction")
    yield bad(cdd("1 0 1/2", size="1 3 integer"), 4, "a fraction among 'integer' numbers")
    yield bad(cdd("1 0 1\n1 1 1"), 6, "2 rows, where 1 are announced")
    yield bad(cdd("1 0 1", size="2 3 rational"), 5, "1 rows, where 2 are announced")
    yield bad("H-representation\nbegin\n1 3 rational\n1 0 1\n", 5, "'end' is missing")
    yield bad(cdd("1 0 1\nbegin"), 5, "a second 'begin'")
    yield bad("H-representation\nbegin\n***** 2 rational\n1 1\nbegin\n***** 3 rational\n1 1 1\nend\n", 5, "a second 'begin'")
    yield bad("H-representation\nbegin\n***** 1 rational\n1\nV-representation\nbegin\n***** 1 rational\n1\nend\n", 5, "a second representation")
    yield bad(cdd("1 0 1", tail="begin\n"), 6, "'begin' behind 'end'")
    yield bad(cdd("1 0 1", tail="linearity 1 1\n"), 6, "'linearity' behind 'end'")
    linear = "H-representation\nlinearity {}\n"
    yield bad(cdd("1 0 1", head=linear.format("1 2")), 2, "'linearity' names row 2 of 1")
    yield bad(cdd("1 0 1", head=linear.format("1 0")), 2, "'linearity' names row 0 of 1")
    yield bad(cdd("1 0 1", head=linear.format("2 1")), 2, "says 2 rows, and names 1")
    yield bad(cdd("1 0 1", head=linear.format("2 1 1")), 2, "names a row twice")
    yield bad(cdd("1 0 1", head=linear.format("")), 2, "'linearity' without a count")
    yield bad(
        cdd("1 0 1", head=linear.format("1 1") + "linearity 1 1\n"), 3, "a second 'linearity'"
    )
    yield bad(cdd("1 0 1", tail="maximize\n1\n1\n"), 6, "maximize: 2 entries")
    yield bad(cdd("1\n0", size="1 3 rational"), 4, "row 1: 1 entries")
    generators = cdd("1 0 1", head="V-representation\n", tail="nonnegative\n")
    yield bad(generators, 6, "'nonnegative' is of inequalities alone")
    yield bad(cdd("0 0 1", tail="maximize 0 1 1\n"), 6, "is one of a polytope", "--cone")
    yield bad(cdd("1 0 1", tail="hull\n"), 6, "'hull' changes what the file means")
    yield bad(cdd("1 0 1", tail="frobnicate 3\n"), 6, "the option 'frobnicate' is not known")
    yield bad(cdd("1 0 1", tail="maximize\n0 1\n"), 6, "maximize: 2 entries")
    yield bad(cdd("1 0 1", tail="maximize 0 1 x\n"), 6, "maximize: 'x' is no fraction")
    yield bad(cdd("1 0 1", tail="maximize 0 1 1\nminimize 0 1 1\n"), 7, "a second objective")
    made = {"head": "V-representation\n"}
    yield bad(cdd("2 0 1", **made), 4, "the first entry of a generator is 0 or 1")
    yield bad(cdd("0 0 1", **made), 4, "directions without a point")
    head = "V-representation\nlinearity 1 1\n"
    yield bad(cdd("1 0 1\n1 0 0", size="2 3 rational", head=head), 5, "of a linear generator is 0")
    yield bad(cdd("1 0 1"), 4, "the first entry of a row of a cone is 0", "--cone")
    yield bad(cdd("0 0 1"), None, "is no name", "a-b")


def bad_normaliz():
    bad = lambda text, line, told: BadFile("from-normaliz", text, line, told)
    yield bad("", 1, "'amb_space' is missing")
    yield bad("2\n3\n1 0 0\n0 1 0\n0\n", 1, "comes first")
    yield bad("amb_space x\n", 1, "'x' is no dimension")
    yield bad("amb_space 0\n", 1, "'0' is no dimension")
    yield bad("amb_space 2\namb_space 2\n", 2, "a second 'amb_space'")
    yield bad("amb_space 2\n", None, "neither generators nor constraints")
    yield bad("amb_space 2\ncone 1\n1 0 0\n", 3, "row 1: 3 entries, where 2 are meant")
    yield bad("amb_space 2\nvertices 1\n1 0\n", 3, "row 1: 2 entries, where 3 are meant")
    yield bad("amb_space 2\npolytope 1\n1 0\n", 3, "row 1: 2 entries, where 1 are meant")
    yield bad("amb_space 2\ncone 2\n1 0\nsubspace 1\n1 1\n", 4, "row 2 of 'cone' is missing")
    yield bad("amb_space 2\ncone 2\n1 0\n", 4, "row 2 of 'cone' is missing")
    yield bad("amb_space 2\ncone x\n", 2, "'x' is no count of rows")
    yield bad("amb_space 2\ncone\n1 0\n", 3, "'cone' without a count")
    yield bad("amb_space auto\ncone 1\n1 0\n", 2, "asks for matrices in brackets")
    yield bad("amb_space auto\ncone []\n", None, "no row tells the dimension")
    yield bad("amb_space 2\ncone 1\n1 0.5\n", 3, "row 1: '0.5' is no fraction")
    yield bad("amb_space 2\ncone [[1 0]\n[1 x]]\n", 3, "row 2: 'x' is no fraction")
    yield bad("amb_space 2\ncone [[1 0]\n", 3, "']' of 'cone' is missing")
    yield bad("amb_space 2\ncone [[1 0] 3 [1 1]]\n", 2, "'3' between rows of 'cone'")
    yield bad("amb_space 2\ncone 1\n1 0\ncone 1\n1 1\n", 4, "a second 'cone'")
    yield bad("amb_space 2\ncone 1\n1 0\ninequalities 1\n1 1\n", 4, "an intersection")
    yield bad("amb_space 2\n/* a\ncomment */\nequations 1\n1 1\n", 4, "no coordinate is negative")
    yield bad("amb_space 2\ncone 1\n1 0\ngrading\n1\n", 5, "row 1: 1 entries")
    yield bad("amb_space 2\ncone 1\n1 0\ngrading\nunit_vector\n", 5, "is no unit vector")
    yield bad("amb_space 2\ncone 1\n1 0\ndehomogenization\n1 1\n", 4, "is not understood")
    yield bad("amb_space 2\ncone 1\n1 0\nsigns\n1 1\n", 4, "'signs' is not understood")
    yield bad("amb_space 2\ncongruences 1\n1 0 2\n", 2, "is not understood")
    yield bad("amb_space 2\npolytope 1\n1\ncone 1\n1 1\n", 4, "'cone' beside 'polytope'")
    yield bad("amb_space 2\nvertices 1\n1 1 0\n", 3, "denominator")
    yield bad("amb_space 2\ncone 1\n1 0\nFrobnicate\n", 4, "'Frobnicate' is not understood")


def bad_replies():
    bad = lambda bridge, text, line, told, *words: BadFile(bridge, text, line, told, words)
    for bridge in ("to-polymake", "to-cdd"):
        yield bad(bridge, "ok\nundef\nno 10 NoChain\n", None, "no value is shown")
        yield bad(bridge, "ok\ns VERTICES [[1,2]\n", 2, "VERTICES: no JSON")
        yield bad(bridge, "s RAYS [[1,2]]\n", 1, "RAYS: no property of polytopes")
        yield bad(bridge, "s VERTICES [[1,2]]\n", 1, "VERTICES: no property of cones", "--cone")
        yield bad(bridge, "s VERTICES [[1,2]]\ns VERTICES [[1,3]]\n", 2, "another value")
        yield bad(bridge, "s VERTICES [[1,2]]\nt FACETS [[1,3]]\n", 2, "say which by --name")
        yield bad(bridge, "s VERTICES [[1,2]]\n", None, "no value of an object 't'", "--name", "t")
        yield bad(bridge, "s VERTICES [[1,2]]\ns FACETS [[1]]\n", 2, "FACETS: 1 columns")
        yield bad(bridge, "s VERTICES [[1,2],[1]]\n", 1, "VERTICES: row 2")
        yield bad(bridge, "rule N_FACETS 4\n", 1, "not to be told apart")
        yield bad(bridge, 's.a LINEAR_OBJECTIVE "1"\n', 1, "LINEAR_OBJECTIVE: no row")
        yield bad(bridge, "s.a VERTICES [[1]]\n", 1, "no property of linear programs")
        yield bad(bridge, "s.a LINEAR_OBJECTIVE [1]\n", 1, "linear program", "--cone")
    yield bad("to-polymake", 's.a MAXIMAL_VALUE "1"\n', None, "without its objective")
    fan = 'f RAYS [["1"]]\nf LINEALITY_SPACE []\n'
    yield bad("to-polymake", "f RAYS [[1]]\n", None, "RAYS without LINEALITY_SPACE", "--fan")
    yield bad("to-polymake", f"{fan}f FACETS []\n", 3, "no property of fans", "--fan")
    file = data('"RAYS":[["1"]],"MAXIMAL_CONES":[[0]]', '"fan::PolyhedralFan<Rational>"')
    yield bad("to-cdd", file, None, "a fan has no file")
    yield bad("to-polymake", "s AFFINE_HULL []\n", None, "AFFINE_HULL: it has no rows")
    for half in ("VERTICES", "FACETS", "POINTS", "INPUT_LINEALITY", "INEQUALITIES", "EQUATIONS"):
        yield bad("to-polymake", f"s {half} [[1,2]]\n", None, f"{half} without")
    facets = "s FACETS [[1,2]]\n"
    yield bad("to-cdd", facets, None, "no pair is shown whole")
    both = facets + "s AFFINE_HULL []\ns VERTICES [[1,2]]\ns LINEALITY_SPACE []\n"
    yield bad("to-cdd", both, None, "say which by --ine or --ext")
    yield bad(
        "to-cdd", facets + "s AFFINE_HULL []\n", None, "VERTICES with LINEALITY_SPACE", "--ext"
    )
    yield bad("to-cdd", "s FACETS []\ns AFFINE_HULL []\n", None, "nothing tells how many columns")


def bad_files():
    others = [*bad_fans_and_programs(), *bad_rows()]
    return [*bad_polymake(), *bad_cdd(), *bad_normaliz(), *bad_replies(), *others]
