"""Sessions: more objects than the program holds, a killed process, a fork, two at once, threads, and what is removed."""

import gc
import os
import signal
import subprocess
import sys
import tempfile
import threading
import unittest
from fractions import Fraction
from pathlib import Path
from random import Random

import brute
from nevolimush import Cone, Ended, NoChain, Polytope, Session, cross, cube, current, process, simplex
from test_objects import WIDE_POINTS

PYTHON = Path(__file__).resolve().parents[1]


def random_polytope(random, where=None):
    points = [(1, *(Fraction(random.randint(-9, 9), random.randint(1, 3)) for _ in range(3))) for _ in range(7)]
    return Polytope(points=points, session=where)


def values(p):
    """Some values, which have to fit together."""
    return [p.VERTICES, p.FACETS, p.VERTICES_IN_FACETS, p.F_VECTOR, p.GRAPH]


def is_right(p):
    """Whether incidences are those of the rows that the object tells."""
    places = [[k for k, v in enumerate(p.VERTICES) if sum(a * b for a, b in zip(f, v)) == 0] for f in p.FACETS]
    return places == p.VERTICES_IN_FACETS


def rounds(p):
    return [it for it in p.history if it.startswith("round ")]


class Few(Session):
    """A session that holds few objects, and ends its process soon."""

    most_objects = 5
    most_bytes = 60_000
    spare_bytes = 20_000


class Many(unittest.TestCase):
    def test_more_than_the_program_holds(self):
        """All of a hundred objects answer as one at a time does, in any order."""
        random = Random(1)
        with Session():
            objects = [random_polytope(random) for _ in range(100)]
            self.assertEqual(len(current()._live), 32)
            random.shuffle(objects)
            early = [p.VERTICES for p in objects]
            random.shuffle(order := list(range(100)))
            for k in order:
                self.assertEqual(objects[k].VERTICES, early[k])
                self.assertTrue(is_right(objects[k]))
            self.assertLessEqual(len(current()._live), 32)
            self.assertEqual(current()._ask("new full Polytope"), ["no 9 ObjectsFull"])
        # alone, each is the same
        random = Random(1)
        alone = [values(random_polytope(random, where)) for where in [Session()] for _ in range(3)]
        self.assertTrue(all(any(p.VERTICES == it[0] and values(p) == it for p in objects) for it in alone))

    def test_what_was_computed_is_not_computed_anew(self):
        with Few():
            p = Polytope(points=WIDE_POINTS)
            before = values(p), rounds(p), p.evidence("dd_facets")
            self.assertEqual(p.origin("FACETS"), "computed")
            others = [cube(2) for _ in range(5)]
            self.assertNotIn(p._name, current()._live)
            self.assertEqual(p.origin("FACETS"), "stored")
            self.assertEqual((values(p), rounds(p)), before[:2])
            self.assertIn("excluded dd_facets failed E1", p.history)
            self.assertEqual(p.evidence("dd_facets"), before[2])
            self.assertTrue(before[2][0].shown)
            self.assertEqual(others[0].N_VERTICES, 4)

    def test_programs_and_disabled_rules_stay(self):
        with Few(rules=None):
            p = Polytope(points=[(1, 0), (1, 1), (1, 2)])
            p.disable("dd_facets")
            q, lp = cube(2), cube(1).lp((0, 2))
            self.assertEqual(lp.MAXIMAL_VALUE, 2)
            others = [cube(2) for _ in range(5)]
            self.assertNotIn(p._name, current()._live)
            self.assertNotIn(lp._polytope._name, current()._live)
            self.assertEqual((lp.MINIMAL_VALUE, lp.MAXIMAL_FACE), (-2, [1]))
            p.FACETS
            self.assertEqual(rounds(p), ["round 45: bb_facets -> done"])
            self.assertEqual((len(others), q.N_VERTICES), (5, 4))

    def test_that_used_longest_ago_is_let_go(self):
        with Few() as where:
            p, q = cube(2), cube(3)
            name, others = p._name, []
            for _ in range(9):
                others.append(cube(1))
                p.held
                self.assertEqual(p._name, name)
            self.assertNotIn(q._name, where._live)

    def test_new_objects_of_objects_that_were_let_go(self):
        with Few():
            a, b = cube(2), simplex(2)
            others = [cube(1) for _ in range(5)]
            self.assertEqual(a.product(b).F_VECTOR, [12, 24, 19, 7])
            self.assertEqual(a.product(a).N_VERTICES, 16)
            self.assertEqual([it.N_VERTICES for it in others], [2] * 5)

    def test_what_python_lets_go_is_dropped(self):
        with Session():
            for _ in range(70):
                cube(2).N_VERTICES
                gc.collect()
            self.assertLessEqual(len(current()._live), 2)

    def test_more_bytes_than_the_program_reads(self):
        """The process is ended in time, and the objects go on in the next one."""
        with Few():
            objects, numbers = [cube(3), cross(3), simplex(3)], set()
            for k in range(400):
                p = objects[k % 3]
                self.assertEqual(p.origin("CONE_AMBIENT_DIM") is None, k < 3 and p.history == [])
                self.assertEqual(p.lp((k, 1, 0, 0)).MAXIMAL_VALUE, k + 1)
                numbers.add(current()._process.run.pid)
                self.assertLessEqual(current()._process.sent, Few.most_bytes)
            self.assertGreater(len(numbers), 3)

    def test_a_new_process_loads_what_was_computed(self):
        with Few() as where:
            p = cube(3)
            p.FACETS
            old, ender = where._process, where._ender
            self.assertEqual(p.origin("FACETS"), "computed")
            where.most_bytes = old.sent + where.spare_bytes
            self.assertEqual(p.origin("FACETS"), "stored")
            self.assertIsNot(where._process, old)
            self.assertFalse(ender.alive)

    def test_a_new_process_between_two_objects(self):
        """One of two objects is there, and the other one is too much: both are there afterwards."""
        with Few() as where:
            b = simplex(2)
            others = [cube(1) for _ in range(5)]
            a = cube(2)
            self.assertNotIn(b._name, where._live)
            old = where._process
            where.most_bytes = old.sent + where.spare_bytes + 100
            self.assertEqual(a.product(b).N_VERTICES, 12)
            self.assertIsNot(where._process, old)
            self.assertEqual(len(others), 5)

    def test_the_bound_is_that_of_the_program(self):
        """A process that is sent as much as it reads is ended by itself, with status 6."""
        where = Session()
        where.most_bytes = 1 << 40
        line = "#" * 1_000_000
        with self.assertRaises(Ended) as caught:
            for _ in range(18):
                where._ask(line)
        self.assertEqual(caught.exception.status, 6)
        self.assertEqual(process.MOST_BYTES, 16_777_216)
        self.assertEqual(cube(2, session=where).N_VERTICES, 4)
        where.close()


class Killed(unittest.TestCase):
    def test_the_next_question_starts_anew(self):
        with Session() as where:
            p, q, c = random_polytope(Random(2)), Polytope(points=WIDE_POINTS), cube(3)
            q.FACETS
            o = c.polar()
            lp = q.lp((0, 1, 1, 1))
            before = values(p), values(q), values(o), lp.MAXIMAL_FACE, rounds(q), q.evidence("dd_facets")
            for _ in range(2):
                os.kill(where._process.run.pid, signal.SIGKILL)
                with self.assertRaisesRegex(Ended, "by signal 9.*starts it anew") as caught:
                    p.FACET_SIZES
                self.assertEqual(caught.exception.status, -9)
                self.assertEqual(lp.MINIMAL_VALUE, min(sum(row[1:]) for row in q.VERTICES))
                self.assertEqual(rounds(q)[: len(before[4])], before[4])
                self.assertEqual(q.evidence("dd_facets"), before[5])
                for it in (p, q, o):
                    it._values.clear()
                lp._values.clear()
                self.assertEqual((values(p), values(q), values(o), lp.MAXIMAL_FACE), before[:4])
                self.assertEqual(q.origin("FACETS"), "computed")

    def test_what_a_new_object_found_of_the_old_ones_stays(self):
        with Session() as where:
            a, b = cube(2), cross(2)
            a.product(b)
            before = set(a.held), set(b.held), rounds(a), rounds(b)
            self.assertTrue(before[2])
            os.kill(where._process.run.pid, signal.SIGKILL)
            with self.assertRaises(Ended):
                a.held
            self.assertEqual((set(a.held), set(b.held), rounds(a), rounds(b)), before)

    def test_within_a_question(self):
        """The process is killed while it computes, and the answer comes from the next one."""
        with Session() as where:
            p = simplex(1)
            pid = where._process.run.pid
            os.kill(pid, signal.SIGSTOP)
            threading.Timer(0.2, os.kill, (pid, signal.SIGKILL)).start()
            with self.assertRaises(Ended):
                p.N_VERTICES
            self.assertEqual((p.N_VERTICES, p.N_FACETS), (2, 2))

    def test_what_ends_it_is_told(self):
        with self.assertRaisesRegex(Ended, "memory ran out"):
            raise Ended(5)
        book = PYTHON / "pyproject.toml"
        with self.assertRaisesRegex(Ended, "book of rules"):
            cube(2, session=Session(rules=book))

    def test_an_interruption_leaves_no_reply_behind(self):
        """Ctrl-C in a question: the next question gets its own reply."""
        was = signal.signal(signal.SIGINT, signal.default_int_handler)
        self.addCleanup(signal.signal, signal.SIGINT, was)
        with Session() as where:
            p = simplex(2)
            old = where._process
            os.kill(old.run.pid, signal.SIGSTOP)
            threading.Timer(0.2, os.kill, (os.getpid(), signal.SIGINT)).start()
            with self.assertRaises(KeyboardInterrupt):
                p.F_VECTOR
            self.assertEqual(old.run.returncode, -9)
            self.assertEqual((p.N_VERTICES, p.F_VECTOR), (3, [3, 3]))

    def test_among_random_objects(self):
        """Objects are let go, saved, killed and made anew at random, and each value stays that of brute force."""
        random, killed = Random(6), 0
        with Few() as where:
            objects = []
            for is_polytope, cols, generators, lines, thing in brute.random_things(random, 15):
                given = {"points" if is_polytope else "rays": generators or [{"cols": cols}], "lineality": lines}
                objects.append(((Polytope if is_polytope else Cone)(**given), brute.values(thing, is_polytope)))
                for name in ("VERTICES" if is_polytope else "RAYS", "FACETS"):
                    self.assertEqual(getattr(objects[-1][0], name), objects[-1][1][name])
            asks = [(p, name, value) for p, wanted in objects for name, value in wanted.items() if value is not None]
            random.shuffle(asks)
            for p, name, value in asks:
                if random.random() < 0.05 and where._process is not None:
                    os.kill(where._process.run.pid, signal.SIGKILL)
                    p._values.clear()
                    killed += 1
                    with self.assertRaises(Ended):
                        p.held
                self.assertEqual(getattr(p, name), value, f"{name} of {p!r}")
        self.assertGreater(killed, 5)


class Two(unittest.TestCase):
    def test_two_sessions_at_once(self):
        with Session() as one:
            p = Polytope(points=WIDE_POINTS)
            with Session(rules=None) as two:
                q = Polytope(points=WIDE_POINTS)
                self.assertNotEqual(one._process.run.pid, two._process.run.pid)
                with self.assertRaises(NoChain):
                    q.FACETS
                self.assertEqual(len(p.FACETS), 6)
            self.assertIs(current(), one)
            # the object of a session that was ended goes on, in a process of its own
            self.assertEqual(q.N_VERTICES, 5)
            two.close()
        self.assertIsNot(current(), one)

    def test_the_rules(self):
        with Session(rules=None) as one, Session() as two:
            self.assertEqual((len(one.rules()), len(two.rules())), (65, 95))

    def test_a_book_of_ones_own(self):
        with tempfile.TemporaryDirectory() as folder:
            book = Path(folder) / "my.rules"
            book.write_text("facets : rule FACETS, AFFINE_HULL : POINTS, INPUT_LINEALITY { dd_facets } weight 10;\n")
            with Session(rules=book) as where:
                self.assertEqual(len(where.rules()), 1)
                p = Polytope(points=[(1, 0), (1, 1)])
                self.assertEqual(p.FACETS, [[0, 1], [1, -1]])
                with self.assertRaises(NoChain):
                    p.VERTICES

    def test_threads(self):
        """Threads that ask one session get the replies to their own questions."""
        with Few() as where:
            faults = []

            def ask(n):
                random = Random(n)
                for _ in range(6):
                    p = random_polytope(random, where)
                    if not is_right(p) or cube(n, session=where).N_VERTICES != 2**n:
                        faults.append(n)

            threads = [threading.Thread(target=ask, args=(n,)) for n in range(1, 5)]
            for it in threads:
                it.start()
            for it in threads:
                it.join()
            self.assertEqual(faults, [])


class Forked(unittest.TestCase):
    def child(self, work):
        """What a child of a fork writes, in which the work is done."""
        read, write = os.pipe()
        pid = os.fork()
        if pid == 0:
            try:
                os.write(write, repr(work()).encode())
                current().close()
            finally:
                os._exit(0)
        os.close(write)
        with os.fdopen(read, "rb") as pipe:
            told = pipe.read().decode()
        os.waitpid(pid, 0)
        return told

    def test_a_child_has_a_process_of_its_own(self):
        with Session() as where:
            p, o = random_polytope(Random(4)), cross(3).polar()
            vertices = p.VERTICES
            parent = where._process.run.pid
            told = self.child(lambda: (p.VERTICES == vertices, is_right(p), o.N_FACETS, where._process.run.pid != parent))
            self.assertEqual(told, "(True, True, 6, True)")
            # the parent's goes on as it was
            self.assertTrue(is_right(p))
            self.assertEqual(where._process.run.pid, parent)

    def test_a_child_does_not_hold_the_parents_process(self):
        """The parent's program ends at the end of its input, though the child lives on."""
        read, write = os.pipe()
        with Session() as where:
            cube(2)
            run = where._process.run
            pid = os.fork()
            if pid == 0:
                os.close(write)
                os.read(read, 1)
                os._exit(0)
        os.close(write)
        os.waitpid(pid, 0)
        os.close(read)
        self.assertEqual(run.returncode, 1)

    def test_a_child_that_ends_leaves_the_parents_folder(self):
        script = (
            "import os\nfrom nevolimush import cube, current\nc = cube(2)\n"
            "if os.fork() == 0:\n    assert c.N_FACETS == 4\n    raise SystemExit\n"
            "os.wait()\nc.save(os.devnull)\nprint(c.N_VERTICES, current()._folder)\n"
        )
        run = subprocess.run([sys.executable, "-B", "-W", "always", "-c", script], capture_output=True, text=True, env={**os.environ, "PYTHONPATH": str(PYTHON)})
        self.assertEqual(run.stderr, "")
        count, folder = run.stdout.split()
        self.assertEqual(count, "4")
        self.assertFalse(os.path.exists(folder))


class Removed(unittest.TestCase):
    def test_an_end_of_with_removes_the_folder(self):
        with Session() as where:
            cube(2)
            folder, run = where._folder, where._process.run
            self.assertTrue(folder.is_dir())
        self.assertFalse(folder.exists())
        # by itself: status 1 tells that lines were refused, which end the replies
        self.assertEqual(run.returncode, 1)

    def test_a_session_that_nobody_has_is_removed(self):
        where = Session()
        cube(2, session=where).N_VERTICES
        folder, run = where._folder, where._process.run
        del where
        gc.collect()
        self.assertFalse(folder.exists())
        self.assertEqual(run.returncode, 1)

    def test_no_process_before_the_first_object(self):
        where = Session()
        self.assertIsNone(where._process)
        cube(2, session=where)
        self.assertIsNotNone(where._process)
        where.close()
