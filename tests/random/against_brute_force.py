#!/usr/bin/env python3
"""Tries the built program on random input beside brute force: against_brute_force.py PROGRAM.. tells what is wrong and nothing else.

A program whose name has `maximise` is asked for linear programs alone. PARTS=a,b runs these parts, and TIMES=1 tells how long each took.
The seeds are fixed; SEED=n takes others, and TIMES_MORE=k so many times as many scripts.
"""
import os
import random
import sys
import time

sys.dont_write_bytecode = True

import check_geometry
import check_limits
import check_made
import check_plans
import check_programs
import check_sets
import check_texts
from running import Runs

TOP = os.path.dirname(os.path.dirname(os.path.dirname(os.path.abspath(__file__))))
MADE = {}
SEED = os.environ.get('SEED', '')
TIMES_MORE = int(os.environ.get('TIMES_MORE', '1'))


def made(make, seed, words):
    """Cases that are the same for each program, and are made once."""
    if (make, seed) not in MADE:
        MADE[make, seed] = make(random.Random(f'{seed} of {SEED}' if SEED else seed), words)
    return MADE[make, seed]


def standard_rules():
    with open(f'{TOP}/tests/sessions/rules.session') as file:
        lines = [line[2:].rstrip('\n') for line in file if line.startswith('> ') and ' : rule ' in line]
    return check_plans.read_rules(list(dict.fromkeys(lines)))


def few(runs, count):
    """So many for the program as LLVM builds it, and a quarter of them for the one by Rattle's own compiler, which is slower."""
    return TIMES_MORE * (count // 4 if runs.program.endswith('.by-rattle') else count)


def few_made(runs, make, seed, count):
    return made(make, seed, TIMES_MORE * count)[:few(runs, count)]


def generated(runs, own):
    check_geometry.check_ways(own, runs, few_made(runs, check_geometry.generated_cases, 1, 100))


def cut_out(runs, own):
    check_geometry.check_half_spaces(own, runs, few_made(runs, check_geometry.cut_out_cases, 2, 100))


def spaces(runs, own):
    check_geometry.check_spaces(own, runs, few(runs, 500))


def programs(runs, own):
    check_programs.check_linear_programs(runs, few_made(runs, check_programs.program_cases, 3, 60))


def sets(runs, own):
    check_sets.check_lattices(own, runs, few(runs, 200))
    check_sets.check_long_sets(own, runs, 1)
    check_sets.check_graphs(own, runs, few(runs, 200))


def books(runs, own):
    check_plans.check_books(own, runs, standard_rules(), few(runs, 150))
    check_plans.check_standard(own, runs, standard_rules(), few(runs, 12))


def texts(runs, own):
    check_texts.check_fractions(own, runs, few(runs, 1000))
    check_texts.check_values(own, runs, few(runs, 1000))
    check_texts.check_json(own, runs, few(runs, 2000))
    check_texts.check_names(runs)
    check_texts.check_words_of_commands(own, runs, few(runs, 300))
    check_texts.check_words_of_program(runs)
    check_texts.check_book_texts(own, runs)


def files(runs, own):
    check_texts.check_files(own, runs, few(runs, 200))
    check_texts.check_known_files(runs)
    check_texts.check_long_files(runs)


def lines(runs, own):
    check_texts.check_lines(own, runs, few(runs, 60))


def sums(runs, own):
    check_made.check_sums(own, runs, few(runs, 40))


def cells(runs, own):
    check_made.check_cells(own, runs, few(runs, 80))


def kept(runs, own):
    check_made.check_kept(own, runs, few(runs, 60))


def wide(runs, own):
    with open(f'{TOP}/wide.rules') as file:
        check_made.check_wide(own, runs, few(runs, 60), file.read())


def limits(runs, own):
    check_limits.check_facets(runs)
    check_limits.check_cells(runs)
    check_limits.check_sites(runs)
    check_limits.check_refined(runs)
    check_limits.check_cube(own, runs, 600)
    check_limits.check_built(runs)
    check_limits.check_shapes(runs)
    check_limits.check_failing(runs)


def table(runs, own):
    check_limits.check_table(runs, made(check_limits.table_cases, 2, standard_rules()))


PARTS = [generated, cut_out, spaces, programs, sets, books, texts, files, lines, sums, cells, kept, wide, limits, table]


def main(tried):
    failed = False
    chosen = os.environ['PARTS'].split(',') if 'PARTS' in os.environ else [part.__name__ for part in PARTS]
    for program in tried:
        runs = Runs(program)
        if 'maximise' in os.path.basename(program):
            check_programs.check_maximise(runs, few_made(runs, check_programs.program_cases, 3, 60))
        else:
            for part in PARTS:
                if part.__name__ in chosen:
                    begun = time.time()
                    part(runs, random.Random(part.__name__ + SEED))
                    if 'TIMES' in os.environ:
                        print(f'{part.__name__}: {time.time() - begun:.1f} s, {runs.count} replies so far', file=sys.stderr)
        runs.end()
        failed = failed or runs.faults > 0
    return 1 if failed else 0


if __name__ == '__main__':
    sys.exit(main([os.path.abspath(program) for program in sys.argv[1:]]))
