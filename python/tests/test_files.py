"""Files: saved and loaded, of other programs, and of none."""

import base64
import hashlib
import json
import os
import shutil
import subprocess
import sys
import tempfile
import unittest
import zipfile
from pathlib import Path
from unittest import mock

import build_backend
import nevolimush
from nevolimush import Cone, Fan, NoChain, Polytope, Session, cube, finding, load
from nevolimush.refusals import refusal_of
from test_objects import WIDE_POINTS

PYTHON = Path(__file__).resolve().parents[1]

# The unit square as other programs write it.
FORMS = {
    "rows.txt": "0 0\n1 0\n0 1\n1 1\n0.5, 1/2\n",
    "square.ine": "H-representation\nbegin\n4 3 rational\n0 1 0\n0 0 1\n1 -1 0\n1 0 -1\nend\n",
    "square.ext": "V-representation\nbegin\n4 3 rational\n1 0 0\n1 1 0\n1 0 1\n1 1 1\nend\n",
    "square.in": "amb_space 2\nvertices 4\n0 0 1\n1 0 1\n0 1 1\n1 1 1\n",
    "square.poly": '{"_type":"polytope::Polytope<Rational>","POINTS":[["1","0","0"],{"0":"1","1":"1"},["1","0","1"],["1","1","1"]],"N_VERTICES":4}',
}


class Files(unittest.TestCase):
    def setUp(self):
        self.folder = Path(tempfile.mkdtemp())
        self.addCleanup(shutil.rmtree, self.folder)

    def write(self, name, text):
        path = self.folder / name
        path.write_text(text)
        return path

    def test_what_is_saved_is_loaded(self):
        path = self.folder / "a name with blanks.json"
        for made, name in ((cube(3), "FACETS"), (Cone(rays=[(1, 0), (1, 1)]), "LINEAR_SPAN"), (cube(2).normal_fan(), "FAN_DIM")):
            value = getattr(made, name)
            made.save(path)
            again = load(path)
            self.assertIs(type(again), type(made))
            self.assertEqual((again.origin(name), getattr(again, name)), ("stored", value))
            self.assertEqual((again.notes, again.believed), ([], []))

    def test_a_class_of_ones_own(self):
        class Mine(Polytope):
            pass

        path = self.folder / "c.json"
        cube(2).save(path)
        self.assertIs(type(Mine.from_file(path)), Mine)

    def test_what_failed_is_loaded_too(self):
        path = self.folder / "p.json"
        p = Polytope(points=WIDE_POINTS, session=Session(rules=None))
        with self.assertRaises(NoChain):
            p.FACETS
        p.save(path)
        again = Polytope.from_file(path, Session(rules=None))
        with self.assertRaises(NoChain) as caught:
            again.FACETS
        # of a mark that came with a file the number alone is known
        shown = [(it.label, it.evidence[0].kind, it.evidence[0].shown) for it in caught.exception.failures]
        self.assertIn(("dd_facets", "E1", None), shown)

    def test_evidence_is_checked_without_the_program(self):
        """By bridge/check-evidence, which finds a line of another object wanting."""
        big = 2**120
        with Session(rules=None):
            p, q = Polytope(points=WIDE_POINTS), Polytope(inequalities=[(big, -1), (0, 1)])
            lp = q.lp((0, big))
            for ask in (lambda: p.FACETS, lambda: lp.MAXIMAL_VALUE):
                with self.assertRaises(NoChain):
                    ask()
            p.save(self.folder / "p.json"), q.save(self.folder / "q.json")
            lines = ["".join(f"{it.line}\n" for one in thing.failures for it in one.evidence) for thing in (p, q)]
        command = [sys.executable, "-B", str(finding.bridges() / "check-evidence")]
        status = {
            (name, place): subprocess.run([*command, str(self.folder / name)], input=lines[place], capture_output=True, text=True).returncode
            for name in ("p.json", "q.json")
            for place in (0, 1)
        }
        self.assertEqual({key for key, it in status.items() if it == 0}, {("p.json", 0), ("q.json", 1)})

    def test_linear_programs_are_loaded(self):
        path = self.folder / "p.json"
        p = cube(2)
        p.lp((0, 1, 2)), p.lp((1, 1, 1))
        p.save(path)
        again = load(path)
        self.assertEqual([it.LINEAR_OBJECTIVE for it in again.programs.values()], [[0, 1, 2], [1, 1, 1]])
        self.assertEqual(again.programs["lp1"].MAXIMAL_VALUE, 3)
        lp = again.programs["lp0"]
        others = [again.lp((0, k, 0)).MAXIMAL_VALUE for k in range(3)]
        self.assertEqual(others, [0, 1, 2])
        self.assertNotIn("lp0", again.programs)
        self.assertEqual((lp.MAXIMAL_VALUE, lp.MINIMAL_VALUE), (3, -3))
        self.assertIn("lp0", again.programs)

    def test_the_forms_of_other_programs(self):
        for name, text in FORMS.items():
            p = Polytope.from_file(self.write(name, text))
            self.assertEqual(sorted(p.VERTICES), [[1, 0, 0], [1, 0, 1], [1, 1, 0], [1, 1, 1]], name)
            self.assertEqual(p.F_VECTOR, [4, 4], name)
            self.assertEqual(p.believed, ["N_VERTICES"] if name == "square.poly" else [], name)
        self.assertEqual(Polytope.from_file(self.folder / "rows.txt").notes, ["line 1: 5 points with 2 coordinates each"])

    def test_cones_and_fans_of_other_programs(self):
        cone = self.write("c.in", "amb_space 2\ncone 3\n1 0\n1 1\n0 1\n")
        self.assertEqual(Cone.from_file(cone).N_RAYS, 2)
        fan = {"_type": "fan::PolyhedralFan<Rational>", "RAYS": [["1", "0"], ["0", "1"]], "MAXIMAL_CONES": [[0], [1], {"cols": 2}]}
        self.assertEqual(Fan.from_file(self.write("f.fan", json.dumps(fan))).FAN_DIM, 1)
        with self.assertRaisesRegex(TypeError, "holds a Cone, and no Polytope"):
            Polytope.from_file(cone)

    def test_names_that_are_read_over(self):
        path = self.write("p.json", '{"_type":"polytope::Polytope<Rational>","_profile":2,"_computed":[],"_excluded":[],"POINTS":[["1","0"]],"LABELS":[]}')
        self.assertEqual(load(path).notes, ["read over: LABELS"])

    def test_marks_that_a_terminal_obeys_are_not_handed_on(self):
        """The program leaves DEL, C1 and marks of direction in the names that it read over."""
        marks = ["\x7f", "\x85", "\x9b", "\u200e", "\u202e", "\u2028", "\u2066", "\ufeff", "\u061c"]
        for mark in marks:
            name = f"x{mark}y"
            path = self.folder / "p.json"
            path.write_text(json.dumps({"_type": "polytope::Polytope<Rational>", "_profile": 2, "_computed": [], "_excluded": [], "POINTS": [["1", "0"]], name: 0}))
            self.assertEqual(load(path).notes, [f"read over: {json.dumps(name)}"])
            self.assertEqual(str(refusal_of([f"no 13 BadFile {name}"])).split(": ")[0], f"13 BadFile {json.dumps(name)[1:-1]}")

    def test_files_that_are_none(self):
        with self.assertRaisesRegex(nevolimush.BadForm, "bad.txt: .*no fraction|bad.txt: .*known"):
            load(self.write("bad.txt", "1 2 three\n"))
        with self.assertRaises(nevolimush.BadForm):
            load(self.write("empty.txt", ""))
        with self.assertRaises(FileNotFoundError):
            load(self.folder / "nowhere.json")
        saved = self.write("s.json", '{"_type":"polytope::Polytope<Rational>","_profile":2,"_computed":["FACETS"],"_excluded":[]}')
        with self.assertRaises(nevolimush.BadFile) as caught:
            load(saved)
        self.assertEqual(caught.exception.reason, "BadProfile _computed")

    def test_what_is_missing_is_said(self):
        rows = self.write("rows.txt", FORMS["rows.txt"])
        with mock.patch.object(finding, "bridges", lambda: None):
            with self.assertRaisesRegex(nevolimush.NoBridge, "the folder bridge/ of the repository"):
                load(rows)
            cube(2).save(self.folder / "c.json")
            self.assertEqual(load(self.folder / "c.json").N_VERTICES, 4)


class Installed(unittest.TestCase):
    def test_it_stands_alone(self):
        """What an installer unpacks runs by the program that is named."""
        with tempfile.TemporaryDirectory() as folder:
            name = build_backend.build_wheel(folder)
            self.assertEqual(name, "nevolimush-1.0.0-py3-none-any.whl")
            zipfile.ZipFile(Path(folder) / name).extractall(folder)
            script = "from nevolimush import cube, finding\nprint(finding.__file__, cube(3).F_VECTOR, finding.repository())"
            run = subprocess.run([sys.executable, "-B", "-c", script], capture_output=True, text=True, cwd=folder)
            self.assertEqual((run.stdout, run.stderr), (f"{Path(folder).resolve()}/nevolimush/finding.py [8, 12, 6] None\n", ""))

    def test_the_program_is_found(self):
        """On the path, beside the package, and in the repository that the folder of the call is in."""
        program = finding.program()
        with tempfile.TemporaryDirectory() as name:
            folder = Path(name).resolve()
            here = mock.patch.object(finding, "HERE", folder / "lib" / "python" / "nevolimush")
            (folder / finding.COMMAND).symlink_to(program)
            self.addCleanup(os.chdir, os.getcwd())
            os.chdir(name)
            with mock.patch.dict("os.environ", {"PATH": name}), here:
                del os.environ[finding.VARIABLE]
                self.assertEqual(finding.program(), program)
                os.environ["PATH"] = ""
                with self.assertRaisesRegex(nevolimush.NoProgram, "nevolimush-program"):
                    finding.program()
                for top in (folder, folder / "lib"):
                    self.put(top / finding.BUILT, program)
                    self.put(top / "crates.txt", program)
                    self.put(top / "python" / "nevolimush" / "finding.py", program)
                    self.assertEqual(finding.program(), top / finding.BUILT)
                (folder / "lib" / "crates.txt").unlink()
                (folder / "lib" / finding.BUILT).unlink()
                (folder / "in" / "it").mkdir(parents=True)
                os.chdir(folder / "in" / "it")
                self.assertEqual(finding.program(), folder / finding.BUILT)
                os.chdir("/")

    def put(self, path, program):
        path.parent.mkdir(parents=True, exist_ok=True)
        path.symlink_to(program)

    def test_a_wheel_has_all_files_and_their_hashes(self):
        with tempfile.TemporaryDirectory() as folder:
            wheel = zipfile.ZipFile(Path(folder) / build_backend.build_wheel(folder))
            record = wheel.read("nevolimush-1.0.0.dist-info/RECORD").decode().splitlines()
            self.assertEqual([it.split(",")[0] for it in record], wheel.namelist())
            for line in record[:-1]:
                name, digest, size = line.split(",")
                data = wheel.read(name)
                found = base64.urlsafe_b64encode(hashlib.sha256(data).digest()).decode().rstrip("=")
                self.assertEqual((digest, int(size)), (f"sha256={found}", len(data)))
        ours = {f"nevolimush/{it.name}" for it in (PYTHON / "nevolimush").iterdir() if it.is_file()}
        self.assertLessEqual(ours, {it.split(",")[0] for it in record})
        self.assertIn(f'version = "{build_backend.VERSION}"', (PYTHON / "pyproject.toml").read_text())
