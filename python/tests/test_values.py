"""Numbers and values, the table, and what the constructors take: without and with the program."""

import copy
import importlib.machinery
import importlib.util
import json
import math
import os
import pickle
import re
import unittest
from decimal import Decimal
from fractions import Fraction
from pathlib import Path

import nevolimush
from nevolimush import Cone, Fan, Polytope, faults, finding, refusals, values
from nevolimush.table import PROPERTIES, REFUSALS

PYTHON = Path(__file__).resolve().parents[1]


A_NUMBER = "int, Fraction, or a text p or p/q, with numbers of at most 127 bits"
WIDE_ROW = (1, f"1/{2**100}", f"1/{2**100 + 1}")

# What the program refuses: the reason, the property, the row and the column, what is wrong, and what is expected.
REFUSED = [
    ("Polytope", {"points": [(1, 0), (1, "1/0")]}, "number", ("POINTS", 1, 1), "'1/0' divides by zero", A_NUMBER),
    ("Polytope", {"points": [(1, 0), (1, "0.25")]}, "number", ("POINTS", 1, 1), "'0.25' is no fraction: write '1/4'", A_NUMBER),
    ("Polytope", {"points": [("+1/2", 0)]}, "number", ("POINTS", 0, 0), "'+1/2' is no fraction: write '1/2'", A_NUMBER),
    ("Polytope", {"points": [(1, ".5")]}, "number", ("POINTS", 0, 1), "'.5' is no fraction: write '1/2'", A_NUMBER),
    ("Polytope", {"points": [(1, 0), (1, "a third")]}, "number", ("POINTS", 1, 1), "'a third' is no fraction", A_NUMBER),
    ("Polytope", {"points": [(1, 2**127)]}, "number", ("POINTS", 0, 1), f"'{str(2**127)[:30]}..' has more than 127 bits", A_NUMBER),
    ("Polytope", {"points": [(1, 10**200)]}, "number", ("POINTS", 0, 1), f"'{str(10**200)[:30]}..' has more than 127 bits", A_NUMBER),
    ("Polytope", {"points": [(0, 0), (1, "x")], "affine": True}, "number", ("POINTS", 1, 1), "'x' is no fraction", A_NUMBER),
    ("Cone", {"rays": [(1, 0), (1, "a")]}, "number", ("INPUT_RAYS", 1, 1), "'a' is no fraction", A_NUMBER),
    ("Polytope", {"F_VECTOR": [4, "x"]}, "number", ("F_VECTOR", None, 1), "'x' is no whole number that is taken", "a whole number of 64 bits"),
    ("Polytope", {"points": [(1, 0), (1,)]}, "shape", ("POINTS", 1, None), "1 entry, where row 0 has 2", "a row of 2 entries"),
    ("Polytope", {"points": [(1, 0), {"cols": 3}]}, "shape", ("POINTS", 0, None), "2 entries, where the matrix has 3", "a row of 3 entries"),
    ("Polytope", {"BOUNDED": "True"}, "shape", ("BOUNDED", None, None), "'True' is no truth value", "True or False"),
    ("Polytope", {"HASSE_DIAGRAM": 7}, "shape", ("HASSE_DIAGRAM", None, None), "7 is no list", "for each rank the list of its faces"),
    ("Polytope", {"GRAPH": [[0]]}, "shape", ("GRAPH", None, None), "it has another form", "for each node the list of its neighbours"),
    ("Polytope", {"VERTICES_IN_FACETS": [[0], [1, 1]]}, "shape", ("VERTICES_IN_FACETS", 1, 1), "the place 1 stands twice", "each place once"),
    ("Polytope", {"VERTICES_IN_FACETS": [[0], [2], {"cols": 2}]}, "index", ("VERTICES_IN_FACETS", 1, 0), "2 is no place", "a place from 0 to 1"),
    ("Fan", {"rays": [(1, 0), (0, 1)], "maximal_cones": [[0, 3]]}, "index", ("MAXIMAL_CONES", 0, 1), "3 is no place", "a place from 0 to 1"),
    ("Polytope", {"CONE_AMBIENT_DIM": 34}, "limit", ("CONE_AMBIENT_DIM", None, None), "34 columns", "a number of columns from 1 to 33"),
    ("Polytope", {"points": [(1,) * 34]}, "limit", ("POINTS", None, None), "34 columns", "at most 33 columns"),
    ("Polytope", {"points": [(1, 0)] * 2049}, "limit", ("POINTS", None, None), "2,049 rows", "at most 2,048 rows"),
    ("Polytope", {"points": [(1, 0)], "inequalities": [(1, 0, 0)]}, "columns", ("INEQUALITIES", None, None), "3 columns, where POINTS has 2", "2 columns"),
    ("Polytope", {"points": [(1, 0)], "sites": [(1, 0), (1, 1)], "heights": [1]}, "columns", ("SITE_HEIGHTS", None, None), "1 entry, where SITES has 2 rows", "one number for each site"),
    ("Polytope", {"points": [(1, 0), (-1, 0)]}, "row", ("POINTS", 1, 0), "it begins with -1", "(1, x) of a point x, or (0, d) of a direction d"),
    ("Polytope", {"facets": [(0, 1), (0, 0)]}, "row", ("FACETS", 1, None), "it is zero", "a row that is not zero"),
    ("Polytope", {"points": [(1, 0)], "lineality": [(1, 0)]}, "row", ("INPUT_LINEALITY", 0, 0), "it begins with 1", "(0, d) of a line in the direction d"),
    ("Polytope", {"sites": [(1, 0), (0, 1)]}, "row", ("SITES", 1, 0), "it begins with 0", "a positive number before the coordinates, as 1"),
    ("Polytope", {"points": [(1, 0, 0), WIDE_ROW]}, "row", ("POINTS", 1, None), "as whole numbers without a common divisor it has one of more than 127 bits", "a row whose whole numbers have at most 127 bits"),
]

# What is refused by its type, with the place and a part of what is said.
OF_OTHER_TYPES = [
    ({"points": [(1, 0), (1, 0.5)]}, ("POINTS", 1, 1), "0.5 is a float, which is seldom the number that is meant: give a Fraction, as Fraction('0.5'), or a text, as '1/2'"),
    ({"points": [(0, 0), (1, 0.5)], "affine": True}, ("POINTS", 1, 1), "0.5 is a float"),
    ({"points": [(1, math.inf)]}, ("POINTS", 0, 1), "inf is a float"),
    ({"points": [(1, True)]}, ("POINTS", 0, 1), "True is a truth value, where a number is wanted"),
    ({"points": [(1, None)]}, ("POINTS", 0, 1), "None is no number that is taken"),
    ({"points": [(1, 0), 7]}, ("POINTS", 1, None), "7 is no row of numbers"),
    ({"points": 7}, ("POINTS", None, None), "7 is no list of rows"),
    ({"heights": [1, 0.5]}, ("SITE_HEIGHTS", None, 1), "0.5 is a float"),
    ({"VERTICES_IN_FACETS": [[0], [0, 1.0]]}, ("VERTICES_IN_FACETS", 1, 1), "1.0 is a float, where a whole number is wanted"),
    ({"F_VECTOR": [4.0]}, ("F_VECTOR", None, 0), "4.0 is a float"),
    ({"N_FACETS": 4.0}, ("N_FACETS", None, None), "4.0 is a float"),
    ({"N_FACETS": object()}, ("N_FACETS", None, None), "not JSON serializable"),
]


class SageLike:
    """A number whose parts are methods, as in Sage."""

    def __init__(self, top, bottom):
        self.parts = top, bottom

    def numerator(self):
        return self.parts[0]

    def denominator(self):
        return self.parts[1]


def writer():
    loader = importlib.machinery.SourceFileLoader("write_table", str(PYTHON / "write-table"))
    module = importlib.util.module_from_spec(importlib.util.spec_from_loader("write_table", loader))
    loader.exec_module(module)
    return module


class Table(unittest.TestCase):
    def test_it_is_that_of_the_pages(self):
        for path, text in writer().files().items():
            self.assertEqual(path.read_text(), text, f"{path.name}: python/write-table writes it anew")

    def test_each_property_is_an_attribute_with_its_meaning(self):
        for item in PROPERTIES:
            for type_name, name in item.names.items():
                cls = getattr(nevolimush, type_name)
                self.assertIn(name, dir(cls))
                self.assertIn(item.meaning, getattr(cls, name).__doc__)

    def test_no_type_has_the_properties_of_another(self):
        for type_name in ("Polytope", "Cone", "Fan", "LinearProgram"):
            wanted = {it.names[type_name] for it in PROPERTIES if type_name in it.names}
            self.assertEqual({it for it in dir(getattr(nevolimush, type_name)) if it.isupper()}, wanted)

    def test_each_kind_is_read(self):
        kinds = {"matrix", "row", "sets", "edges", "lattice", "list of numbers", "whole number", "truth value", "extended number"}
        self.assertEqual({it.kind for it in PROPERTIES}, kinds)

    def test_each_refusal_has_its_class(self):
        self.assertEqual(sorted(REFUSALS), list(range(1, 19)))
        for number, (name, _) in REFUSALS.items():
            found = refusals.refusal_of([f"no {number} {name} a reason"])
            self.assertIs(type(found), getattr(nevolimush, name))
            self.assertEqual((found.number, found.name, found.reason), (number, name, "a reason"))
            self.assertIsInstance(found, nevolimush.Refused)


    def test_each_reason_says_what_it_is(self):
        """The conditions and reasons that the manual names are those that have a text of their own."""
        conditions = set(REFUSALS[17][1].partition("hold: ")[2].split(", "))
        self.assertEqual(set(faults.REASONS[17]), conditions)
        self.assertEqual(set(faults.REASONS[18]), set(re.findall(r"\b(?:combination|E\d)\b", REFUSALS[18][1])))
        page = (PYTHON.parent / "docs" / "manual.md").read_text().partition("with `no 6 BadValue` and the first reason")[2].partition("```")[0]
        named = {it for row in re.findall(r"^\| (`.*?`) \|", page, re.M) for it in re.findall(r"`(\w+)`", row)}
        self.assertEqual(set(faults.REASONS[6]), named)
        for number, told in faults.REASONS.items():
            for reason, text in told.items():
                found = refusals.refusal_of([f"no {number} {REFUSALS[number][0]} {reason}"])
                self.assertEqual(str(found), f"{number} {REFUSALS[number][0]} {reason}: {text}")
        found = refusals.refusal_of(["no 13 BadFile BadProperty POINTS number"])
        told = "the value of this key has a fault: a number is out of bounds, or no fraction"
        self.assertEqual(str(found), f"13 BadFile BadProperty POINTS number: {told}")


class Numbers(unittest.TestCase):
    def test_what_is_a_number(self):
        for given, wanted in [(3, "3"), (-4, "-4"), (Fraction(6, -4), "-3/2"), ("1/2", "1/2"), (SageLike(3, 7), "3/7"), (SageLike(3, 1), "3")]:
            self.assertEqual(values.entry_of(given), wanted)

    def test_what_is_none(self):
        for given in (True, None, Decimal("0.1"), 1j, [1], math.inf):
            with self.assertRaises(TypeError):
                values.entry_of(given)

    def test_a_float_is_refused_with_a_word_on_fraction(self):
        with self.assertRaisesRegex(TypeError, r"0\.1 is a float.*Fraction\('0\.1'\)"):
            Polytope(points=[(1, 0.1)])
        with self.assertRaisesRegex(TypeError, "float"):
            Fan(rays=[(1, 0)], maximal_cones=[[0.0]])

    def test_what_is_read(self):
        self.assertEqual(values.read("matrix", '[["1","-1/2"],["0","3"]]'), [[1, Fraction(-1, 2)], [0, 3]])
        self.assertEqual(values.read("matrix", '[{"cols":2}]'), [])
        self.assertEqual(values.read("sets", '[[0,2],[],{"cols":3}]'), [[0, 2], []])
        self.assertEqual(values.read("edges", '[[1],[0]]'), [[1], [0]])
        self.assertEqual(values.read("row", '["1/3","2"]'), [Fraction(1, 3), 2])
        self.assertEqual([values.read("extended number", f'"{it}"') for it in ("inf", "-inf", "7/2", "0")], [math.inf, -math.inf, Fraction(7, 2), 0])
        self.assertIs(values.read("truth value", "true"), True)

    def test_a_matrix_is_shown_by_rows(self):
        self.assertEqual(repr(values.read("matrix", '[["1","-1/2"],["10","3"]]')), "[ 1 -1/2]\n[10    3]")
        self.assertIn("<tr><td>1</td><td>-1/2</td></tr>", values.read("matrix", '[["1","-1/2"]]')._repr_html_())

    def test_sets_come_as_anything(self):
        self.assertEqual([sorted(it) for it in json.loads(values.written("sets", ({2, 0}, range(2))))], [[0, 2], [0, 1]])
        p = Polytope(vertices=[(1, 0), (1, 1)], facets=[(0, 1), (1, -1)], VERTICES_IN_FACETS=({0}, (1,)))
        self.assertEqual(p.VERTICES_IN_FACETS, [[0], [1]])


class Given(unittest.TestCase):
    def test_the_words_are_their_properties(self):
        p = Polytope(points=[("1", 0, 0), (1, Fraction(1, 2), 0)], lineality=[(0, 0, 1)])
        self.assertEqual(p.held, {"POINTS": "given", "INPUT_LINEALITY": "given"})
        p = Polytope(vertices=[(1, 0, 0), (1, 1, 0)], lineality=[(0, 0, 1)])
        self.assertEqual(p.held, {"VERTICES": "given", "LINEALITY_SPACE": "given"})
        p = Polytope(inequalities=[(0, 1, 0)], equations=[(0, 0, 1)])
        self.assertEqual(p.held, {"INEQUALITIES": "given", "EQUATIONS": "given"})
        p = Polytope(facets=[(0, 1)], affine_hull=[], CONE_DIM=2, BOUNDED=False)
        self.assertEqual(p.held, dict.fromkeys(["FACETS", "AFFINE_HULL", "CONE_DIM", "BOUNDED"], "given"))
        c = Cone(rays=[(1, 0), (1, 1), (1, 2)], lineality=[])
        self.assertEqual(c.held, {"INPUT_RAYS": "given", "INPUT_LINEALITY": "given"})
        self.assertEqual(c.RAYS, [[1, 0], [1, 2]])
        self.assertEqual(Cone(RAYS=[(1, 0)], lineality=[(0, 1)]).held, {"RAYS": "given", "LINEALITY_SPACE": "given"})
        f = Fan(rays=[(1, 0), (0, 1), (-1, -1)], maximal_cones=[[0, 1]], lineality=[])
        self.assertEqual(f.held, dict.fromkeys(["RAYS", "LINEALITY_SPACE", "MAXIMAL_CONES"], "given"))

    def test_affine_rows_get_their_first_column(self):
        p = Polytope(points=[(0, 0), (1, 0), (2, 0), (0, "1/2")], lineality=[], sites=[(3, 4)], affine=True)
        self.assertEqual(p.SITES, [[1, 3, 4]])
        self.assertEqual(p.POINTS, [[1, 0, 0], [1, 1, 0], [1, 2, 0], [1, 0, Fraction(1, 2)]])
        self.assertEqual(Polytope(points=[(0,)], lineality=[(1,)], affine=True).LINEALITY_SPACE, [[0, 1]])
        self.assertEqual(Polytope(inequalities=[(1, 1), (1, -1)], affine=True).INEQUALITIES, [[1, 1], [1, -1]])

    def test_sets_of_rays_get_their_count(self):
        p = Polytope(vertices=[(1, 0), (1, 1)], facets=[(0, 1), (1, -1)], VERTICES_IN_FACETS=[[0], []])
        self.assertEqual(p.FACET_SIZES, [1, 0])
        self.assertEqual(p.VERTEX_SIZES, [1, 0])

    def test_rows_without_any_may_tell_their_columns(self):
        p = Polytope(points=[{"cols": 3}])
        self.assertEqual((p.CONE_AMBIENT_DIM, p.FEASIBLE), (3, False))

    def test_words_that_are_none(self):
        with self.assertRaisesRegex(TypeError, "takes no 'point': is points meant"):
            Polytope(point=[])
        for make, told in [(Polytope, r"Polytope\(points=\[\.\.\]\) or Polytope\(inequalities"), (Cone, r"Cone\(rays="), (Fan, r"Fan\(rays=")]:
            with self.assertRaisesRegex(TypeError, f"a word says what the rows are: {told}"):
                make([(1, 0)])
        with self.assertRaisesRegex(TypeError, "given twice"):
            Polytope(points=[], POINTS=[])
        with self.assertRaisesRegex(AttributeError, "a Cone has no 'VERTICES': is RAYS meant"):
            Cone(rays=[(1, 0)]).VERTICES
        with self.assertRaises(AttributeError):
            Polytope(points=[(1, 0)]).no_such

    def test_what_the_program_refuses(self):
        """Each has the property, the row and the column from 0, what is wrong and what is expected."""
        for type_name, given, reason, place, told, expected in REFUSED:
            with self.assertRaises(nevolimush.BadValue) as caught:
                getattr(nevolimush, type_name)(**given)
            found = caught.exception
            self.assertEqual((found.number, found.reason, (found.property, found.row, found.column)), (6, reason, place))
            self.assertEqual((found.told, found.expected), (told, expected))
            self.assertIn(f": {told}; expected: {expected}", str(found))
            self.assertTrue(str(found).startswith(f"6 BadValue {reason}: {place[0]}"), str(found))

    def test_what_is_none_by_its_type(self):
        for given, place, told in OF_OTHER_TYPES:
            with self.assertRaises(nevolimush.BadEntry) as caught:
                Polytope(**given)
            found = caught.exception
            self.assertEqual((found.property, found.row, found.column), place)
            self.assertIsInstance(found, TypeError)
            self.assertIn(told, str(found))
            self.assertTrue(str(found).startswith(place[0]), str(found))

    def test_objectives_that_are_refused(self):
        with self.assertRaisesRegex(nevolimush.BadValue, "LINEAR_OBJECTIVE: 3 columns, where INEQUALITIES has 4; expected: 4 columns"):
            nevolimush.cube(3).lp((1, 1, 1))
        with self.assertRaisesRegex(nevolimush.BadValue, "LINEAR_OBJECTIVE: 3 columns, where POINTS has 2"):
            Polytope(points=[(1, 0)]).lp((1, 1, 1))
        with self.assertRaisesRegex(nevolimush.BadValue, "LINEAR_OBJECTIVE, place 1: '1/0' divides by zero"):
            Polytope(points=[(1, 0)]).lp((1, "1/0"))
        with self.assertRaisesRegex(nevolimush.BadEntry, "LINEAR_OBJECTIVE, place 1: 0.5 is a float"):
            Polytope(points=[(1, 0)]).lp((1, 0.5))

    def test_names_that_are_none_say_what_comes_near(self):
        p = Polytope(points=[(1, 0)])
        for name, told in [
            ("VOLUME", "a Polytope has no 'VOLUME': volumes are not computed here; PLACING_TRIANGULATION has simplices"),
            ("MAX_VALUE", "of a linear program MAXIMAL_VALUE is meant"),
            ("Facets", "a Polytope has no 'Facets': is FACETS meant"),
            ("FACET", "is FACETS meant"),
        ]:
            with self.assertRaisesRegex(AttributeError, told):
                getattr(p, name)
        with self.assertRaisesRegex(nevolimush.UnknownProperty, "a Polytope has no property 'RAYS': is VERTICES meant"):
            p.lookup("RAYS")
        with self.assertRaisesRegex(nevolimush.UnknownProperty, "a LinearProgram has no property 'MAX_VALUE': of a linear program MAXIMAL_VALUE"):
            p.lp((0, 1)).origin("MAX_VALUE")
        with self.assertRaisesRegex(nevolimush.UnknownRule, "no rule of the book has the label 'no_such_rule'"):
            p.disable("no_such_rule")

    def test_what_is_refused_takes_no_place(self):
        with nevolimush.Session() as where:
            for _ in range(40):
                with self.assertRaises(nevolimush.BadValue):
                    Polytope(points=[(1, "1/0")])
            self.assertEqual(where._ask("new one Polytope"), ["ok"])

    def test_names_with_an_end_of_line(self):
        p = Polytope(points=[(1, 0)])
        for ask in (p.lookup, p.origin, p.ensure, p.explain, p.evidence, p.disable):
            with self.assertRaisesRegex(ValueError, "end of line"):
                ask("FACETS\nmake o9 cube 2")
        for ask in (p.lookup, p.origin, p.ensure, p.explain):
            with self.assertRaises(nevolimush.UnknownProperty):
                ask("RAYS")
        for ask in (p.evidence, p.disable):
            with self.assertRaises(nevolimush.UnknownRule):
                ask("no_such_rule")
        self.assertEqual(p.history, [])

    def test_dimensions_are_whole(self):
        with self.assertRaises(TypeError):
            nevolimush.cube(2.5)
        self.assertEqual(nevolimush.cube(True + 1).N_VERTICES, 4)

    def test_a_class_of_ones_own(self):
        class Mine(Polytope):
            @property
            def double(self):
                return 2 * self.N_VERTICES

        self.assertEqual(Mine(points=[(1, 0), (1, 1)]).double, 4)

    def test_no_copies(self):
        p = Polytope(points=[(1, 0)])
        for make in (copy.copy, copy.deepcopy, pickle.dumps):
            with self.assertRaisesRegex(TypeError, "save it"):
                make(p)

    def test_a_line_that_is_too_long(self):
        with self.assertRaises(nevolimush.LineTooLong):
            Polytope(points=[(1, 10**37)] * 30_000)


class Finding(unittest.TestCase):
    def test_the_program_of_the_environment(self):
        was = os.environ.pop(finding.VARIABLE)
        try:
            os.environ[finding.VARIABLE] = "/no/such/program"
            with self.assertRaisesRegex(nevolimush.NoProgram, "/no/such/program"):
                finding.program()
        finally:
            os.environ[finding.VARIABLE] = was
        self.assertEqual(finding.program(), Path(was).resolve())
