"""Each property of a few objects, and of a hundred random ones, beside brute force; new objects, linear programs, evidence."""

import math
import unittest
from fractions import Fraction
from math import comb, factorial
from random import Random

import brute
from brute import Thing
from nevolimush import BadValue, Cone, Fan, Matrix, NoChain, NotFit, Polytope, Session, cross, cube, cyclic, simplex
from nevolimush.table import PROPERTIES

# What a few tests of their own are for.
OF_SITES = {"SITES", "SITE_HEIGHTS", "REGULAR_CELLS", "DELAUNAY_CELLS"}
TRIANGULATION = "PLACING_TRIANGULATION"

# Five points whose facets leave the range of the standard rules; docs/when-it-refuses.md has them.
WIDE_POINTS = [
    [1, "13/717", "511/839", "77/953"],
    [1, "691/701", "257/541", "8/991"],
    [1, "403/877", "99/643", "619/823"],
    [1, "871/907", "715/937", "347/521"],
    [1, "5/769", "11/947", "523/727"],
]


def is_of(kind, value):
    """Whether a value is of a kind, through and through."""
    if kind == "matrix":
        return type(value) is Matrix and all(type(row) is list and all(type(it) is Fraction for it in row) for row in value)
    if kind == "row":
        return type(value) is list and all(type(it) is Fraction for it in value)
    if kind in ("sets", "edges"):
        return type(value) is list and all(type(row) is list and all(type(it) is int for it in row) for row in value)
    if kind == "lattice":
        return type(value) is list and all(is_of("sets", rank) for rank in value)
    if kind == "list of numbers":
        return type(value) is list and all(type(it) is int for it in value)
    if kind == "extended number":
        return type(value) is Fraction or value in (math.inf, -math.inf)
    return type(value) is {"whole number": int, "truth value": bool}[kind]


class Compared(unittest.TestCase):
    """Objects beside brute force."""

    def asks(self, thing, wanted):
        """All values of an object, each as wanted and of its kind."""
        for name, value in wanted.items():
            if value is None:
                with self.assertRaises(NoChain):
                    getattr(thing, name)
                continue
            found = getattr(thing, name)
            self.assertEqual(found, value, f"{name} of {thing!r}")
            self.assertTrue(is_of(thing._properties[name].kind, found), f"{name}: {found!r}")

    def volume(self, p):
        """The volume of a polytope, times that of a cube by that of a simplex: of the cells, none of which is flat."""
        rays = p.VERTICES
        volumes = [abs(brute.determinant([rays[it] for it in cell])) for cell in p.PLACING_TRIANGULATION]
        self.assertTrue(all(volumes))
        return sum(volumes)


class EachProperty(Compared):
    def test_of_a_polytope(self):
        """A bounded one, one with a far face, one that is not full, and an empty one."""
        for points in (
            [(1, 1, 1, 1), (1, -1, 0, 0), (1, 0, -1, 0), (1, 0, 0, -1)],
            [(1, 0, 0), (1, 1, 0), (0, 1, 1)],
            [(1, 0, 0), (1, 2, 2), (2, 2, 2)],
            [],
        ):
            cols = len(points[0]) if points else 3
            thing = Thing.generated(cols, points, [])
            wanted = brute.values(thing, True)
            asked = set(wanted) | {"POINTS", "INPUT_LINEALITY", "INEQUALITIES", "EQUATIONS", TRIANGULATION} | OF_SITES
            self.assertEqual(asked, set(Polytope._properties))
            self.asks(Polytope(points=points or [{"cols": 3}]), wanted)
            self.asks(Polytope(inequalities=thing.facets or [{"cols": cols}], equations=thing.hull), wanted)

    def test_of_a_cone(self):
        rays = [(1, 0, 0), (1, 1, 0), (1, 1, 1), (1, 0, 1), (2, 1, 1)]
        wanted = brute.values(Thing.generated(3, rays, []), False)
        asked = set(wanted) | {"INPUT_RAYS", "INPUT_LINEALITY", "INEQUALITIES", "EQUATIONS", TRIANGULATION}
        self.assertEqual(asked, set(Cone._properties))
        self.asks(Cone(rays=rays), wanted)

    def test_of_a_fan(self):
        """The lines of a plane and one ray beside them, in space with a lineality."""
        f = Fan(rays=[(1, 0, 0), (0, 1, 0), (-1, -1, 0)], lineality=[(0, 0, 1)], maximal_cones=[[0, 1], [2]])
        wanted = {
            "FAN_AMBIENT_DIM": 3, "RAYS": [[1, 0, 0], [0, 1, 0], [-1, -1, 0]], "LINEALITY_SPACE": [[0, 0, 1]],
            "LINEALITY_DIM": 1, "N_RAYS": 3, "POINTED": False, "SIMPLICIAL": True, "MAXIMAL_CONES": [[0, 1], [2]],
            "N_MAXIMAL_CONES": 2, "MAXIMAL_CONES_DIMS": [3, 2], "FAN_DIM": 3, "PURE": False,
        }
        self.assertEqual(set(wanted), set(Fan._properties))
        self.asks(f, wanted)

    def test_of_a_linear_program(self):
        points = [(1, 0, 0), (1, 3, 1), (1, 1, 3), (1, 1, 1)]
        thing = Thing.generated(3, points, [])
        p = Polytope(points=points)
        for objective in [(0, 1, 0), (Fraction(1, 2), 1, 1), (0, 0, 0)]:
            lp, turned = p.lp(objective), [-it for it in objective]
            greatest, face = brute.optimum(thing, objective)
            least, face_of_least = brute.optimum(thing, turned)
            self.asks(lp, {"LINEAR_OBJECTIVE": list(objective), "MAXIMAL_VALUE": greatest, "MAXIMAL_FACE": face})
            self.asks(lp, {"MINIMAL_VALUE": -least, "MINIMAL_FACE": face_of_least})
            self.assertTrue(brute.is_dual(thing, objective, greatest, lp.MAXIMAL_DUAL))
            self.assertTrue(brute.is_dual(thing, turned, least, lp.MINIMAL_DUAL))
            self.assertTrue(all(is_of(item.kind, getattr(lp, name)) for name, item in lp._properties.items() if name != "LINEAR_OBJECTIVE"))

    def test_sites_and_their_cells(self):
        random = Random(3)
        for _ in range(5):
            sites = sorted({(random.randint(-3, 3), random.randint(-3, 3)) for _ in range(8)})
            heights = [Fraction(random.randint(0, 9), 2) for _ in sites]
            p = Polytope(points=[(1, 0, 0)], sites=[(1, *it) for it in sites], heights=heights)
            self.assertEqual(p.SITE_HEIGHTS, heights)
            self.assertEqual(p.REGULAR_CELLS, brute.cells(sites, heights))
            self.assertEqual(p.DELAUNAY_CELLS, brute.cells(sites, [x * x + y * y for x, y in sites]))
            self.assertTrue(is_of("sets", p.DELAUNAY_CELLS) and is_of("row", p.SITE_HEIGHTS) and is_of("matrix", p.SITES))

    def test_a_triangulation(self):
        for p, volume in ((cube(3), 8), (cross(3), Fraction(8, 6)), (simplex(3), Fraction(1, 6))):
            self.assertTrue(all(len(cell) == 4 for cell in p.PLACING_TRIANGULATION))
            self.assertEqual(self.volume(p), volume * factorial(3))
        self.assertEqual(Cone(rays=[(1, 0), (1, 1), (1, 2)]).PLACING_TRIANGULATION, [[0, 1]])

    def test_a_value_is_ones_own(self):
        c = cube(2)
        c.FACETS[0][0] = c.GRAPH[0] = None
        self.assertEqual(c.FACETS[0], [1, -1, 0])
        self.assertEqual(c.GRAPH[0], [1, 2])


class Random100(Compared):
    def test_a_hundred_random_objects(self):
        """By generators or by half-spaces, the properties asked in a random order."""
        random = Random(20)
        for is_polytope, cols, generators, lines, thing in brute.random_things(random, 100):
            if random.random() < 0.5:
                given = {"points" if is_polytope else "rays": generators or [{"cols": cols}], "lineality": lines}
            else:
                given = {"inequalities": thing.facets or [{"cols": cols}], "equations": thing.hull}
            wanted = list(brute.values(thing, is_polytope).items())
            # rays and facets in the order of brute force are asked first: others may come in any order that fits
            first = [it for it in wanted if it[1] is not None and it[0] in ("VERTICES", "RAYS", "FACETS", "LINEALITY_SPACE", "LINEAR_SPAN", "AFFINE_HULL")]
            rest = [it for it in wanted if it not in first]
            random.shuffle(rest)
            made = (Polytope if is_polytope else Cone)(**given)
            self.asks(made, dict(first + rest))


class Made(Compared):
    def test_standard_polytopes(self):
        for n in range(1, 5):
            self.assertEqual(cube(n).F_VECTOR, [2 ** (n - k) * comb(n, k) for k in range(n)])
            self.assertEqual(cross(n).F_VECTOR, [2 ** (k + 1) * comb(n, k + 1) for k in range(n)])
            self.assertEqual(simplex(n).F_VECTOR, [comb(n + 1, k + 1) for k in range(n)])
        self.assertEqual(cyclic(3, 7).F_VECTOR, [7, 15, 10])
        self.assertEqual(cyclic(2, 5).N_EDGES, 5)

    def test_of_others(self):
        c, s = cube(3), Polytope(points=[(0, 0, 0), (1, 1, 1)], affine=True)
        self.assertEqual(c.polar().F_VECTOR, [6, 12, 8])
        self.assertEqual(c.pyramid().F_VECTOR, [9, 20, 18, 7])
        self.assertEqual(c.product(simplex(1)).F_VECTOR, [16, 32, 24, 8])
        # a rhombic dodecahedron: a cube swept along its diagonal
        self.assertEqual(c.minkowski(s).F_VECTOR, [14, 24, 12])
        self.assertEqual((c.normal_fan().N_MAXIMAL_CONES, c.face_fan().N_MAXIMAL_CONES), (8, 6))
        self.assertEqual(c.normal_fan().refine(s.normal_fan()).N_MAXIMAL_CONES, 14)
        self.assertEqual(c.product(c).N_VERTICES, 64)
        self.assertIsInstance(c.face_fan(), Fan)

    def test_a_sum_is_that_of_all_pairs(self):
        random = Random(5)
        for _ in range(5):
            one, two = ([(1, *(random.randint(-4, 4) for _ in range(2))) for _ in range(5)] for _ in range(2))
            pairs = [(1, a[1] + b[1], a[2] + b[2]) for a in one for b in two]
            wanted = brute.values(Thing.generated(3, pairs, []), True)
            found = Polytope(points=one).minkowski(Polytope(points=two))
            self.asks(found, {name: wanted[name] for name in ("VERTICES", "FACETS", "AFFINE_HULL", "F_VECTOR")})

    def test_what_is_not_fit(self):
        for make in (lambda: simplex(3).polar(), lambda: simplex(2).face_fan(), lambda: cube(33)):
            with self.assertRaises(NotFit) as caught:
                make()
            self.assertIn(caught.exception.reason, ("CENTERED", "size"))
            # (of the conditions the one that does not hold is named)
            told = {"CENTERED": "the origin in their interior only, and CENTERED is false", "size": "it is larger than is taken"}
            self.assertTrue(str(caught.exception).endswith(told[caught.exception.reason]), str(caught.exception))
        with self.assertRaisesRegex(NotFit, "17 NotFit BOUNDED: it is made of bounded polytopes only, and BOUNDED is false$"):
            Polytope(points=[(1, 0), (0, 1)]).normal_fan()
        with self.assertRaises(ValueError):
            cube(2).product(cube(2, session=Session()))


class Programs(Compared):
    def test_infinities(self):
        ray, empty = Polytope(inequalities=[(0, 1)]), Polytope(inequalities=[(-1, 1), (0, -1)])
        lp = ray.lp((0, 1))
        self.assertEqual((lp.MAXIMAL_VALUE, lp.MINIMAL_VALUE), (math.inf, 0))
        self.assertEqual((empty.lp((0, 1)).MAXIMAL_VALUE, empty.lp((0, 1)).MINIMAL_VALUE), (-math.inf, math.inf))
        self.assertEqual(lp.MAXIMAL_FACE, [])

    def test_more_than_four(self):
        """Places of vertices are those of the order that was seen first, whatever was let go between."""
        points = [(1, x, y) for x, y in ((2, 3), (-1, 2), (0, 0), (3, 1), (1, 1))]
        p = Polytope(points=points)
        first = p.lp((0, 1, 2))
        faces, order = first.MAXIMAL_FACE, None
        programs = [p.lp((k, k, 10 - k)) for k in range(10)]
        for k, lp in enumerate(programs):
            values = [row[0] * k + row[1] * k + row[2] * (10 - k) for row in p.VERTICES]
            self.assertEqual(lp.MAXIMAL_VALUE, max(values))
            self.assertEqual(lp.MAXIMAL_FACE, [place for place, it in enumerate(values) if it == max(values)])
            order = order or p.VERTICES
        self.assertEqual(p.VERTICES, order)
        self.assertEqual([order[it] for it in faces], [[1, 2, 3]])
        # a program that was let go is taken up again
        self.assertEqual(first.MINIMAL_VALUE, 0)
        self.assertTrue(brute.is_dual(Thing.generated(3, points, []), (0, 1, 2), Fraction(8), first.MAXIMAL_DUAL))
        self.assertTrue(any("@lp0" in it for it in p.history))
        self.assertIn("lp0", p.programs)
        self.assertLessEqual(len(p.programs), 4)
        self.assertEqual(p.programs["lp0"].LINEAR_OBJECTIVE, [0, 1, 2])

    def test_an_objective_of_another_length(self):
        p = cube(2)
        for _ in range(6):
            with self.assertRaisesRegex(BadValue, "columns"):
                p.lp((0, 1))
        self.assertEqual(p.lp((0, 1, 1)).MAXIMAL_VALUE, 2)
        self.assertEqual(len(p.programs), 1)

    def test_the_first_of_five(self):
        p = cube(2)
        programs = [p.lp((k, 1, 1)) for k in range(5)]
        self.assertEqual([it.MAXIMAL_VALUE for it in programs], [2, 3, 4, 5, 6])

    def test_a_refused_objective_among_five(self):
        """The name that a refused objective leaves is not that of a program that was let go."""
        p = cube(2)
        programs = [p.lp((k, 1, 1)) for k in range(7)]
        with self.assertRaisesRegex(BadValue, "columns"):
            p.lp((0, 1))
        self.assertEqual(programs[0].MINIMAL_VALUE, -2)
        self.assertEqual(p.lp((9, 0, 0)).MINIMAL_VALUE, 9)


class Why(Compared):
    def test_no_chain_tells_what_failed(self):
        p = Polytope(points=WIDE_POINTS, session=Session(rules=None))
        with self.assertRaises(NoChain) as caught:
            p.FACETS
        found = caught.exception
        self.assertEqual((found.number, found.name), (10, "NoChain"))
        self.assertEqual([it.label for it in found.failures], ["dd_facets", "bb_facets", "dd_facets_v", "bb_facets_v"])
        self.assertTrue(all(it.what == "E1" and "basis" in it.evidence[0].shown for it in found.failures))
        self.assertEqual(found.held["VERTICES"], "computed")
        self.assertIn("found all the same: VERTICES", str(found))
        self.assertTrue(any("wide rules" in it for it in found.advice))
        # nothing is lost
        self.assertEqual(sorted(p.VERTICES), sorted(brute.rows([[Fraction(it) for it in row] for row in WIDE_POINTS])))
        self.assertEqual(p.evidence("dd_facets"), list(found.failures[0].evidence))
        self.assertIn("round 40: dd_facets -> failed dd_facets E1", p.history)
        with self.assertRaises(NoChain):
            p.FACETS
        self.assertEqual(p.N_VERTICES, 5)

    def test_of_the_second_of_two_objects(self):
        with Session(rules=None):
            c, r = cube(3), Polytope(points=WIDE_POINTS)
            r.disable("thin_points_lp")
            with self.assertRaises(NoChain) as caught:
                c.minkowski(r)
            self.assertEqual([it.label for it in caught.exception.failures], ["dd_facets", "bb_facets"])
            self.assertNotIn("FACETS", caught.exception.held)
            self.assertEqual(c.minkowski(cross(3)).N_FACETS, 26)

    def test_of_two_linear_programs(self):
        """The same rules fail for both; the evidence of each is its own."""
        big = 2**120
        with Session(rules=None):
            p = Polytope(inequalities=[(big, -1), (0, 1)])
            programs = [p.lp((0, big)), p.lp((0, 2 * big))]
            for lp in programs:
                with self.assertRaises(NoChain):
                    lp.MAXIMAL_VALUE
            with self.assertRaises(NoChain) as caught:
                programs[0].MAXIMAL_VALUE
            names = {(it.label, it.program) for it in caught.exception.failures}
            self.assertLessEqual({("lp_max_v", "lp0"), ("lp_max_v", "lp1"), ("lp_max_rows", "lp1")}, names)
            for it in caught.exception.failures:
                self.assertEqual([one.program for one in it.evidence], [it.program])
            self.assertEqual([it.program for it in p.evidence("lp_max_v")], ["lp0", "lp1"])
            self.assertIn("failed for the program lp1 by E4", str(caught.exception))
            self.assertEqual(p.lp((0, 1)).MAXIMAL_VALUE, big)

    def test_the_wide_rules_find_it(self):
        self.assertEqual(len(Polytope(points=WIDE_POINTS).FACETS), 6)

    def test_nothing_leads_there(self):
        with self.assertRaisesRegex(NoChain, "give a description"):
            Polytope().FACETS

    def test_explain_and_ensure(self):
        p = Polytope(inequalities=[(0, 1, 0), (0, 0, 1), (1, -1, 0), (1, 0, -1)])
        plan = p.explain("N_VERTICES")
        self.assertEqual((plan.weight, plan.rules), (41, [("dd_vertices", 40), ("n_vertices", 1)]))
        self.assertEqual(str(plan).splitlines()[0], "plan 41")
        self.assertIsNone(p.lookup("N_VERTICES"))
        self.assertIsNone(p.origin("N_VERTICES"))
        self.assertEqual(p.ensure("N_VERTICES", "N_FACETS"), ["round 52: dd_vertices n_vertices thin_inequalities_v n_facets -> done"])
        self.assertEqual((p.lookup("N_VERTICES"), p.origin("N_VERTICES")), (4, "computed"))
        lp = p.lp((0, 1, 1))
        self.assertIsNone(lp.lookup("MAXIMAL_VALUE"))
        self.assertEqual(lp.explain("MAXIMAL_VALUE").weight, 6)
        self.assertEqual(lp.MAXIMAL_VALUE, lp.lookup("MAXIMAL_VALUE"))

    def test_a_rule_that_is_disabled(self):
        p = Polytope(points=[(1, 0), (1, 1), (1, 2)], session=Session(rules=None))
        p.disable("dd_facets")
        self.assertEqual(p.FACETS, [[0, 1], [2, -1]])
        self.assertEqual(p.history, ["round 45: bb_facets -> done"])

    def test_a_condition_that_is_false(self):
        with self.assertRaises(NoChain) as caught:
            cube(3).H_VECTOR
        self.assertIn(("h_vector", "false", "SIMPLICIAL"), [(it.label, it.how, it.what) for it in caught.exception.failures])
        self.assertIn("h_vector was not tried: SIMPLICIAL is not as it asks", str(caught.exception))

    def test_a_condition_that_is_given_as_false(self):
        """No round was begun, and explain tells what holds the answer back."""
        p = Polytope(inequalities=[(0, 1), (1, 1)], BOUNDED=False)
        with self.assertRaises(NoChain) as caught:
            p.H_VECTOR
        self.assertEqual(caught.exception.failures, [])
        self.assertIn(("h_vector", "false", "BOUNDED"), [(it.label, it.how, it.what) for it in caught.exception.barred])
        self.assertIn("h_vector was not tried: BOUNDED is not as it asks", str(caught.exception))
        self.assertNotIn("no rule failed", str(caught.exception))

    def test_a_rule_that_holds_it_back_by_being_disabled(self):
        p = Polytope(vertices=[(1, 0), (1, 1)], session=Session(rules=None))
        for label in ("cone_dim_v", "cone_dim_span", "cone_dim_points"):
            p.disable(label)
        with self.assertRaises(NoChain) as caught:
            p.CONE_DIM
        self.assertIn("cone_dim_v was not tried: it was disabled", str(caught.exception))
        with self.assertRaises(NoChain) as caught:
            p.explain("CONE_DIM")
        self.assertIn("cone_dim_v", [it.label for it in caught.exception.barred])


class Shown(unittest.TestCase):
    def test_a_table_of_what_is_held(self):
        p = Polytope(points=[(1, 0), (1, "1/2")])
        self.assertNotIn("FACETS", p._repr_html_())
        p.FACETS
        text = p._repr_html_()
        self.assertTrue(text.startswith("<table><caption>Polytope, CONE_AMBIENT_DIM 2</caption>"))
        self.assertIn("<tr><td>POINTS</td><td>given</td><td>1 0<br>1 1/2</td></tr>", text)
        self.assertIn("<tr><td>FACETS</td><td>computed</td><td>0 1<br>1 -2</td></tr>", text)
        self.assertEqual(repr(p), "<Polytope POINTS, FACETS>")

    def test_of_many_rows_a_few(self):
        text = Polytope(points=[(1, k) for k in range(99)])._repr_html_()
        self.assertIn("1 7<br>.. 99 rows", text)
        self.assertNotIn("1 8", text)

    def test_of_a_linear_program(self):
        lp = cube(1).lp((0, "1/3"))
        lp.MAXIMAL_VALUE
        self.assertIn("<td>MAXIMAL_VALUE</td><td></td><td>1/3</td>", lp._repr_html_())
