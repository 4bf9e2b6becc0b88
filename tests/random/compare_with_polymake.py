#!/usr/bin/env python3
"""Compares each property that a file of polymake may bring with this program's, over files that polymake makes and saves.

Usage: compare_with_polymake.py [--program PATH] [--folder PATH]. It wants polymake on the path, and prints a line for each
property and type: in how many files it is, in how many it is what this program finds of the description that the file was
made by, and the others. It fails where something that the bridge takes is not what this program finds.
"""
import argparse
import json
import os
import re
import subprocess
import sys
import tempfile
from math import comb

sys.dont_write_bytecode = True
TOP = os.path.dirname(os.path.dirname(os.path.dirname(os.path.abspath(__file__))))
sys.path[:0] = [f'{TOP}/bridge', f'{TOP}/bench']

from answers import canonical
from json_places import members
from polymake_files import read_polymake
from properties import PROGRAM_PROPERTIES, TYPES, Program as LinearProgram, Thing, by_name
from refusals import Fault, Notes, Refusal
from replies import read_replies
from scripts import script_lines
from values import put_program_value, put_value, read_row

# Each file by its name, what makes the object, and by which description it is made.
MADE = r"""
cube_3           | cube(3)                                                             | FACETS
cube_4           | cube(4)                                                             | FACETS
cube_0_1         | cube(3, 1, 0)                                                       | FACETS
cross_3          | cross(3)                                                            | VERTICES
cross_4          | cross(4)                                                            | VERTICES
cyclic_4_8       | cyclic(4, 8)                                                        | VERTICES
cyclic_5_8       | cyclic(5, 8)                                                        | VERTICES
simplex_3        | simplex(3)                                                          | VERTICES
permutahedron    | permutahedron(3)                                                    | VERTICES
octagon          | n_gon(8)                                                            | VERTICES
pyramid          | pyramid(cube(2))                                                    | VERTICES
prism            | prism(pyramid(cube(2)))                                             | VERTICES
of_pyramids      | product(pyramid(cube(2)), simplex(1))                               | VERTICES
bipyramid        | bipyramid(pyramid(cube(2)))                                         | VERTICES
points           | new polytope::Polytope(POINTS => [[1,0,0],[1,2,0],[1,0,2],[1,"1/2","1/3"],[1,1,1],[2,0,0]]) | POINTS
fractions        | new polytope::Polytope(POINTS => [[1,"1/2","-7/3"],[1,"5/4",0],[1,"-11/6","22/7"],[1,0,"1/1000"]]) | POINTS
polygon_in_space | new polytope::Polytope(POINTS => [[1,0,0,1],[1,1,0,1],[1,0,1,1],[1,1,1,1],[1,2,1,1]]) | POINTS
segment          | new polytope::Polytope(POINTS => [[1,0,0],[1,1,1]])                           | POINTS
interval         | new polytope::Polytope(INEQUALITIES => [[1,1],[1,-1]])                        | INEQUALITIES
point            | new polytope::Polytope(POINTS => [[1,2,-3]])                                  | POINTS
origin           | new polytope::Polytope(POINTS => [[1,0,0]])                                   | POINTS
point_by_rows    | new polytope::Polytope(INEQUALITIES => [[1,0,0]], EQUATIONS => [[-1,1,0],[-2,0,1]]) | INEQUALITIES
point_alone      | new polytope::Polytope(POINTS => [[1]])                                       | POINTS
slice            | new polytope::Polytope(INEQUALITIES => [[1,1,0,0],[1,-1,0,0],[1,0,1,0],[1,0,-1,0],[1,0,0,1],[1,0,0,-1]], EQUATIONS => [[0,1,-1,0]]) | INEQUALITIES
redundant_rows   | new polytope::Polytope(INEQUALITIES => [[1,1,0],[1,-1,0],[1,0,1],[1,0,-1],[2,-1,-1],[5,1,1]]) | INEQUALITIES
quadrant         | new polytope::Polytope(INEQUALITIES => [[0,1,0],[0,0,1]])                     | INEQUALITIES
quadrant_points  | new polytope::Polytope(POINTS => [[1,0,0],[0,1,0],[0,0,1]])                   | POINTS
cut_quadrant     | new polytope::Polytope(INEQUALITIES => [[0,1,0],[0,0,1],[-1,1,1]])            | INEQUALITIES
cut_by_facets    | new polytope::Polytope(FACETS => [[0,1,0],[0,0,1],[-1,1,1]], AFFINE_HULL => [], LINEALITY_SPACE => []) | FACETS
cut_by_points    | new polytope::Polytope(POINTS => [[1,0,1],[1,1,0],[0,1,0],[0,0,1]])           | POINTS
cut_orthant      | new polytope::Polytope(INEQUALITIES => [[0,1,0,0],[0,0,1,0],[0,0,0,1],[-1,1,1,1]]) | INEQUALITIES
ray              | new polytope::Polytope(POINTS => [[1,0,1,0],[0,1,1,0]])                       | POINTS
ray_by_rows      | new polytope::Polytope(INEQUALITIES => [[-1,1,0]], EQUATIONS => [[0,0,1]])    | INEQUALITIES
half_strip       | new polytope::Polytope(INEQUALITIES => [[1,0,1],[1,0,-1],[0,1,0]])            | INEQUALITIES
strip            | new polytope::Polytope(INEQUALITIES => [[1,0,1],[1,0,-1]])                    | INEQUALITIES
strip_by_points  | new polytope::Polytope(POINTS => [[1,0,1],[1,0,-1]], INPUT_LINEALITY => [[0,1,0]]) | POINTS
half_plane       | new polytope::Polytope(INEQUALITIES => [[-1,1,2]])                            | INEQUALITIES
wedge            | new polytope::Polytope(POINTS => [[1,1,1,0],[0,1,0,0],[0,0,1,0]], INPUT_LINEALITY => [[0,1,1,1]]) | POINTS
wedge_by_rows    | new polytope::Polytope(INEQUALITIES => [[0,1,0,0],[0,0,1,0]])                 | INEQUALITIES
line             | new polytope::Polytope(POINTS => [[1,0,1]], INPUT_LINEALITY => [[0,2,1]])     | POINTS
line_by_rows     | new polytope::Polytope(INEQUALITIES => [[1,0,0]], EQUATIONS => [[1,2,1]])     | INEQUALITIES
plane            | new polytope::Polytope(INEQUALITIES => [[1,0,0]])                             | INEQUALITIES
nothing_by_rows  | new polytope::Polytope(INEQUALITIES => [[-1,1,0],[-1,-1,0]])                  | INEQUALITIES
nothing_at_all   | new polytope::Polytope(INEQUALITIES => [[-1,0,0]])                            | INEQUALITIES
nothing_by_equations | new polytope::Polytope(INEQUALITIES => [[1,0,0]], EQUATIONS => [[1,0,0]]) | INEQUALITIES
nothing_by_points | new polytope::Polytope(POINTS => new Matrix<Rational>(0, 3))                 | POINTS
hidden_line      | new polytope::Polytope(POINTS => [[1,0,0],[0,1,0],[0,-1,0]])        | POINTS
hidden_plane     | new polytope::Polytope(POINTS => [[1,0,0,0],[0,1,0,0],[0,0,1,0],[0,-1,-1,0]]) | POINTS
orthant          | new polytope::Cone(INEQUALITIES => [[1,0,0],[0,1,0],[0,0,1]])                 | INEQUALITIES
over_a_square    | new polytope::Cone(INPUT_RAYS => [[1,1,1],[1,-1,1],[-1,1,1],[-1,-1,1],[0,0,1]]) | POINTS
over_a_pyramid   | new polytope::Cone(INPUT_RAYS => [[1,1,0,1],[1,-1,0,1],[-1,1,0,1],[-1,-1,0,1],[0,0,1,1]]) | POINTS
with_a_line      | new polytope::Cone(INPUT_RAYS => [[1,0,0],[0,1,2]], INPUT_LINEALITY => [[0,1,1]]) | POINTS
lines_by_rows    | new polytope::Cone(INEQUALITIES => [[1,0,0,0],[0,1,0,0]])                     | INEQUALITIES
in_a_plane       | new polytope::Cone(INEQUALITIES => [[1,0,0],[0,1,0]], EQUATIONS => [[1,1,-1]]) | INEQUALITIES
half_space       | new polytope::Cone(INEQUALITIES => [[1,2,"3/2"]])                             | INEQUALITIES
one_ray          | new polytope::Cone(INPUT_RAYS => [[1,2]])                                     | POINTS
lines_alone      | new polytope::Cone(INPUT_RAYS => [[1,0,0],[-1,0,0]])                          | POINTS
ray_in_space     | new polytope::Cone(INPUT_RAYS => [[1,2,3],[2,4,6]])                 | POINTS
ray_by_half_spaces | new polytope::Cone(INEQUALITIES => [[1,0],[0,1],[0,-1]])          | INEQUALITIES
line_by_half_spaces | new polytope::Cone(INEQUALITIES => [[0,1],[0,-1]])               | INEQUALITIES
half_line_equation | new polytope::Cone(INEQUALITIES => [[1,0,0]], EQUATIONS => [[0,1,0],[0,0,1]]) | INEQUALITIES
hidden_lines     | new polytope::Cone(INPUT_RAYS => [[1,0,0],[-1,0,0],[0,1,0]])        | POINTS
hidden_sum       | new polytope::Cone(INPUT_RAYS => [[1,0,0],[0,1,0],[-1,-1,0],[0,0,1]]) | POINTS
two_rays         | new polytope::Cone(INPUT_RAYS => [[1,0,0],[1,1,0]])                 | POINTS
no_ray           | new polytope::Cone(INPUT_RAYS => new Matrix<Rational>(0, 2))                  | POINTS
whole_space      | new polytope::Cone(INEQUALITIES => new Matrix<Rational>(0, 2))                | INEQUALITIES
normal_of_cube   | normal_fan(cube(3))                                            | VERTICES
normal_of_pyramid | normal_fan(pyramid(cube(2)))                                  | VERTICES
normal_of_segment | normal_fan(new polytope::Polytope(POINTS => [[1,0,0],[1,1,1]]))         | VERTICES
normal_of_point  | normal_fan(new polytope::Polytope(POINTS => [[1,2,3]]))                  | VERTICES
normal_of_quadrant | normal_fan(new polytope::Polytope(POINTS => [[1,0,0],[0,1,0],[0,0,1]])) | VERTICES
faces_of_cross   | face_fan(cross(3))                                             | VERTICES
faces_of_cube    | face_fan(cube(3))                                              | VERTICES
not_complete     | new PolyhedralFan(INPUT_RAYS => [[1,0],[0,1],[-1,-1],[1,0]], INPUT_CONES => [[0,1],[2,1]]) | VERTICES
not_pure         | new PolyhedralFan(INPUT_RAYS => [[1,0],[0,1],[-1,-1]], INPUT_CONES => [[0,1],[2]]) | VERTICES
not_simplicial   | new PolyhedralFan(INPUT_RAYS => [[1,1,1],[1,-1,1],[-1,1,1],[-1,-1,1],[0,0,-1]], INPUT_CONES => [[0,1,2,3],[0,1,4]]) | VERTICES
with_lineality   | new PolyhedralFan(INPUT_RAYS => [[1,0,0],[0,1,0],[-1,-1,0]], INPUT_CONES => [[0,1],[1,2],[0,2]], INPUT_LINEALITY => [[0,0,1]]) | VERTICES
hidden_lineality | new PolyhedralFan(INPUT_RAYS => [[1,0,0],[-1,0,0],[0,1,0],[0,0,1]], INPUT_CONES => [[0,1,2],[0,1,3]]) | VERTICES
origin_alone     | new PolyhedralFan(INPUT_RAYS => new Matrix<Rational>(0, 2), INPUT_CONES => [[]]) | VERTICES
refinement       | common_refinement(normal_fan(cube(2)), normal_fan(simplex(2))) | VERTICES
fan_by_rays      | new PolyhedralFan(RAYS => [[1,0],[0,1],[-1,-1]], MAXIMAL_CONES => [[0,1],[1,2]], LINEALITY_SPACE => []) | VERTICES
"""

# The objectives of linear programs for each polytope of so many columns.
OBJECTIVES = {1: ['2'], 2: ['0,1', '3,-2'], 3: ['0,1,0', '1,-1,2', '0,1,1', '5,0,0'], 4: ['0,1,0,0', '1,1,1,1', '0,-1,2,0'], 5: ['0,1,1,1,1'], 6: ['0,1,0,0,0,0']}

SCRIPT = r"""use application "fan";
my $folder = shift @ARGV;
my %%asked = (%(asked)s);
my %%objectives = (%(objectives)s);
# Asks for all properties of an object, and saves it; after each of them where polymake may end by a fault.
sub ask_all {
    my ($kind, $it, $asked, $file, $each) = @_;
    for my $name (@$asked) {
        eval { $it->give($name); };
        save($it, $file) if $each;
    }
    save($it, $file);
    return if $kind ne "Polytope";
    for my $row (@{$objectives{$it->CONE_AMBIENT_DIM} || []}) {
        my $lp = $it->LP(LINEAR_OBJECTIVE => $row);
        for my $name (qw(%(of_programs)s)) {
            eval { $lp->give($name); };
            save($it, $file) if $each;
        }
    }
    save($it, $file);
}
# Asks in a process of its own, and once more with care where that one ended by a fault.
sub keep {
    my ($name, $kind, $make) = @_;
    for my $order (0 .. 2) {
        my @asked = @{$asked{$kind}};
        @asked = reverse @asked if $order == 1;
        unshift @asked, $kind eq "Fan" ? "FAN_DIM" : "F_VECTOR" if $order == 2;
        for my $each (0, 1) {
            my $process = fork;
            if (!$process) {
                ask_all($kind, $make->(), \@asked, "$folder/$name.$order.poly", $each);
                POSIX::_exit(0);
            }
            waitpid $process, 0;
            last if !$?;
            print "$name, order $order: ended by $?\n" if $each;
        }
    }
}
%(calls)s
"""

# What speaks of an order of rays or facets; how often each object is made, and asked in another order; what programs have in both.
IN_ORDER = ('VERTICES_IN_FACETS', 'VERTEX_SIZES', 'FACET_SIZES', 'FAR_FACE')
ORDERS = range(3)
OF_PROGRAMS = [name for name, (_, is_of_polymake) in PROGRAM_PROPERTIES.items() if is_of_polymake]


def made():
    """Of each file its name, what makes it, its type and its description."""
    for line in MADE.strip().splitlines():
        name, make, by = (part.strip() for part in line.split(' | '))
        kind = 'Fan' if re.match('.*(_fan|Fan|_refinement)[(]', make) else 'Cone' if make.startswith('new polytope::Cone(') else 'Polytope'
        yield name, make, kind, by


def asked_of_polymake(kind):
    return [name for name, item in by_name(kind).items() if item.is_of_polymake] + ([] if kind == 'Fan' else ['N_EDGES', 'N_RIDGES', 'GRAPH', 'DUAL_GRAPH', 'HASSE_DIAGRAM'])


def perl():
    asked = ', '.join(f'{kind} => [qw({" ".join(asked_of_polymake(kind))})]' for kind in TYPES)
    objectives = ', '.join(f'{count} => [{", ".join(f"[{row}]" for row in rows)}]' for count, rows in OBJECTIVES.items())
    calls = ''.join(f'keep("{name}", "{kind}", sub {{ {make} }});\n' for name, make, kind, _ in made())
    return SCRIPT % {'asked': asked, 'objectives': objectives, 'calls': calls, 'of_programs': ' '.join(OF_PROGRAMS)}


def save_all(folder):
    """The files that polymake saves, and its version."""
    script = f'{folder}/made.pl'
    with open(script, 'w', encoding='utf-8') as file:
        file.write(perl())
    kept = {**os.environ, 'HOME': folder, 'LC_ALL': 'C'}
    ran = subprocess.run(['polymake', '--script', script, folder], env=kept, capture_output=True, text=True)
    missing = [path for path, *_ in files_of(folder) if not os.path.isfile(path)]
    if missing:
        sys.exit(f'polymake did not save {", ".join(missing)}: {ran.stderr[-2000:]}')
    told = subprocess.run(['polymake', '--version'], env=kept, capture_output=True, text=True)
    return (told.stdout + told.stderr).strip().split('\n')[0]


def read_text(path):
    with open(path, encoding='utf-8') as file:
        return file.read()


def value_in(kind, raw, name):
    """A value of a file by the first name of its property, and how many columns it tells; None where it has none in a form of here."""
    item = next((it for it in by_name(kind).values() if it.polytope == name), None)
    if item is None or raw.get(item.name(kind)) is None:
        return None
    thing = Thing(kind)
    try:
        put_value(thing, item, raw[item.name(kind)])
    except Fault:
        return None
    return thing.values[name], thing.columns


def thing_of(kind, raw, names):
    """A thing that holds these values of a file, each under a name that it may change."""
    thing = Thing(kind)
    for name, held_as in names.items():
        found = value_in(kind, raw, name)
        if found is not None:
            thing.values[held_as] = found[0]
            thing.columns = thing.columns or found[1]
    if thing.columns is None:
        thing.columns = value_in(kind, raw, 'CONE_AMBIENT_DIM')[0]
    return thing


# What stands for a description: vertices are points, and facets are inequalities.
DESCRIPTIONS = {
    'POINTS': {'POINTS': 'POINTS', 'INPUT_LINEALITY': 'INPUT_LINEALITY'},
    'INEQUALITIES': {'INEQUALITIES': 'INEQUALITIES', 'EQUATIONS': 'EQUATIONS'},
    'VERTICES': {'VERTICES': 'POINTS', 'LINEALITY_SPACE': 'INPUT_LINEALITY'},
    'FACETS': {'FACETS': 'INEQUALITIES', 'AFFINE_HULL': 'EQUATIONS'},
}
OF_FANS = {it: it for it in ('VERTICES', 'LINEALITY_SPACE', 'MAXIMAL_CONES')}
BOTH = (('VERTICES', 'LINEALITY_SPACE'), ('FACETS', 'AFFINE_HULL'))


class Program:
    """This program, which is asked for all that it finds of a thing."""

    def __init__(self, path):
        self.path = path

    def found(self, thing, objectives=()):
        """The values that it finds, and those of linear programs with these objectives."""
        script = [*script_lines('p', thing)]
        script += [f'give p {name}' for name in by_name(thing.type_name) if not name.startswith('SITE') and not name.endswith('_CELLS')]
        for place, row in enumerate(objectives):
            script += [f'new p.lp{place} LP', f'take p.lp{place} LINEAR_OBJECTIVE {json.dumps([str(it) for it in row])}']
            script += [f'give p.lp{place} {name}' for name in OF_PROGRAMS]
        ran = subprocess.run([self.path], input='\n'.join(script) + '\n', capture_output=True, text=True)
        return read_replies(ran.stdout, thing.type_name)


def same_rows(one, other, pair):
    """Whether two pairs of rows and lines are the same, whatever their order and scale."""
    return canonical(one.rows(pair[0]), one.rows(pair[1])) == canonical(other.rows(pair[0]), other.rows(pair[1]))


def h_vector(dimension, counts):
    """By the definition of here: a sum over the numbers of faces."""
    faces = [1, *counts]
    return [sum((-1) ** (k - i) * comb(dimension - i, dimension - k) * faces[i] for i in range(k + 1)) for k in range(dimension + 1)]


class Compared:
    """One file of polymake beside what this program finds of the description that it was made by."""

    def __init__(self, program, path, kind, by):
        self.program, self.kind, self.text = program, kind, read_text(path)
        self.raw = {key: it.value for key, it in members(self.text).items()}
        self.given = thing_of(kind, self.raw, OF_FANS if kind == 'Fan' else DESCRIPTIONS[by])
        self.peer = thing_of(kind, self.raw, {it: it for pair in BOTH for it in pair})
        self.found = program.found(self.given)
        if kind != 'Fan':
            self.same = {pair: same_rows(self.found, self.peer, pair) for pair in BOTH}
            self.objectives = [read_row(it['LINEAR_OBJECTIVE']) for it in self.raw.get('LP', [])]
            self.in_order = program.found(self.ordered(), self.objectives)

    def ordered(self):
        """Rays and facets in polymake's order, where they are right; else in that of here."""
        thing = Thing(self.kind, {}, self.given.columns)
        for pair, same in self.same.items():
            thing.values |= {it: (self.peer if same else self.found).rows(it) for it in pair}
        return thing

    def wanted(self, name):
        """The value of here, in polymake's order."""
        values = self.found.values
        if name == 'H_VECTOR':
            return h_vector(values['COMBINATORIAL_DIM'], values['F_VECTOR']) if values['COMBINATORIAL_DIM'] >= 0 else []
        return (self.in_order if name in IN_ORDER else self.found).values.get(name)

    def is_same(self, name):
        """Whether the value of the file is that of here; None where the file has none."""
        found = value_in(self.kind, self.raw, name)
        if found is None:
            return None
        if self.kind == 'Fan' and name in OF_FANS:
            return self.are_cones()
        if name in ('LINEALITY_SPACE', 'AFFINE_HULL'):
            return canonical([], self.peer.rows(name)) == canonical([], self.found.rows(name))
        if name in ('VERTICES', 'FACETS'):
            return next(same for pair, same in self.same.items() if pair[0] == name) and len(self.peer.rows(name)) == len(self.found.rows(name))
        for first in ('POINTS', 'INEQUALITIES'):
            if name in DESCRIPTIONS[first]:
                return self.describes(thing_of(self.kind, self.raw, DESCRIPTIONS[first]))
        return found[0] == (self.given.columns if name == 'CONE_AMBIENT_DIM' else self.wanted(name))

    def describes(self, thing):
        """Whether it is one of the object."""
        found = self.program.found(thing)
        return all(same_rows(found, self.found, pair) for pair in BOTH)

    def are_cones(self):
        """Whether each maximal cone of a fan has just these rays, and the lineality, and each ray is in one."""
        sets, _ = self.given.values['MAXIMAL_CONES']
        rays, lines = self.given.rows('VERTICES'), self.given.rows('LINEALITY_SPACE')
        for cone in sets:
            thing = Thing('Cone', {'POINTS': [rays[it] for it in cone], 'INPUT_LINEALITY': lines}, self.given.columns)
            of_it = Thing('Cone', {'VERTICES': thing.rows('POINTS'), 'LINEALITY_SPACE': lines}, self.given.columns)
            found = self.program.found(thing)
            if not same_rows(found, of_it, BOTH[0]) or len(found.rows('VERTICES')) != len(cone):
                return False
        least = all(not set(one) < set(other) for one in sets for other in sets)
        return least and {it for cone in sets for it in cone} == set(range(len(rays)))

    def of_programs(self):
        """Of each value of a linear program of the file its name, and whether it is that of here."""
        for place, entry in enumerate(self.raw.get('LP', [])):
            for name in OF_PROGRAMS:
                if entry.get(name) is not None:
                    thing, peer = Thing('Polytope'), LinearProgram('lp')
                    put_program_value(thing, peer, name, entry[name])
                    yield name, peer.values[name] == self.in_order.programs[place].values.get(name)

    def wrongly_taken(self):
        """The names of what the bridge takes and is another value than here."""
        try:
            thing = read_polymake(self.text, Notes())
        except Refusal as refusal:
            yield f'nothing: {refusal.text}'
            return
        for name in thing.values:
            same = self.is_same(name)
            if same is None and name in DESCRIPTIONS['INEQUALITIES']:
                same = self.describes(Thing(self.kind, {it: thing.rows(it) for it in DESCRIPTIONS['INEQUALITIES']}, thing.columns))
            if same is not True:
                yield name


def files_of(folder):
    """The files that polymake saved, each with its type and description."""
    for name, _, kind, by in made():
        for order in ORDERS:
            yield f'{folder}/{name}.{order}.poly', kind, by


def compare(program, folder):
    """Prints the table, and answers how much the bridge takes wrongly."""
    told, taken, count = {}, 0, 0
    for path, kind, by in files_of(folder):
        it, name, count = Compared(program, path, kind, by), os.path.basename(path).removesuffix('.poly'), count + 1
        for prop, item in by_name(kind).items():
            told.setdefault((kind, prop), {True: [], False: [], None: []})[it.is_same(item.polytope)].append(name)
        for prop, same in it.of_programs() if kind == 'Polytope' else ():
            told.setdefault(('LP', prop), {True: [], False: [], None: []})[same].append(name)
        for prop in it.wrongly_taken():
            taken += 1
            print(f'{name}: the bridge takes, other than here, {prop}')
    for (kind, prop), names in told.items():
        others = f': {" ".join(dict.fromkeys(names[False]))}' if names[False] else ''
        print(f'{kind} {prop}: {len(names[True]) + len(names[False])} values, {len(names[False])} others{others}')
    print(f'{count} files; {taken} values that the bridge takes are others than here')
    return taken


def main():
    words = argparse.ArgumentParser(prog='tests/random/compare_with_polymake.py', description=__doc__.split('\n')[0])
    words.add_argument('--program', default=f'{TOP}/crates/pm_shell/out/pm_shell', metavar='PATH', help='the built program')
    words.add_argument('--folder', metavar='PATH', help='where the files are, or are put')
    options = words.parse_args()
    with tempfile.TemporaryDirectory() as made_here:
        folder = options.folder or made_here
        if not all(os.path.isfile(path) for path, *_ in files_of(folder)):
            print(save_all(folder))
        return 1 if compare(Program(options.program), folder) else 0


if __name__ == '__main__':
    sys.exit(main())
