"""Random sets that belong to no polytope: their intersections, graphs and distances, of few indices and at the ends of words of 64."""
from exact import face_counts, greatest_distance, index_graph, meets, set_graph
from running import Script, fractions_spelled, sets_spelled, spelled


def random_sets(random, count, number):
    density = random.choice([0.2, 0.5, 0.8])
    return [[i for i in range(count) if random.random() < density] for _ in range(number)]


def check_lattices(random, runs, number):
    script = Script('intersections of sets')
    for _ in range(number):
        count = random.randint(0, 7)
        sets = random_sets(random, count, random.randint(0, 6))
        script.says('new c Cone')
        script.says(f'take c RAYS_IN_FACETS {sets_spelled(sets, count)}')
        ranks = meets(sets, count)
        f, f2 = face_counts(ranks)
        graph, dual = index_graph(sets, count), set_graph(sets)
        for name, value in [('GRAPH', spelled(graph)), ('DIAMETER', greatest_distance(graph)), ('DUAL_GRAPH', spelled(dual)), ('DUAL_DIAMETER', greatest_distance(dual)),
                            ('HASSE_DIAGRAM', spelled(ranks)), ('F_VECTOR', spelled(f)), ('F2_VECTOR', fractions_spelled(f2)),
                            ('RAY_SIZES', spelled([sum(i in one for one in sets) for i in range(count)])), ('FACET_SIZES', spelled(list(map(len, sets)))),
                            ('N_RAYS', count), ('N_FACETS', len(sets)), ('N_EDGES', sum(map(len, graph)) // 2), ('N_RIDGES', sum(map(len, dual)) // 2),
                            ('RAY_DEGREES', spelled(list(map(len, graph))))]:
            script.gives('c', name, value)
        script.says('drop c')
    runs.tries(script)


# Lengths around the words of 64 and the chunks of four of them.
LENGTHS = [1, 2, 63, 64, 65, 127, 128, 129, 191, 192, 193, 200, 255, 256, 257, 300, 511, 512, 513]


def edge_sets(random, count):
    """Sets whose indices lie at the ends of words, alike modulo 64, or every third; and all indices but a few."""
    ends = [i for i in (0, 1, 5, 62, 63, 64, 65, 69, 127, 128, 191, 192, 255, 256, 257, 299, 320, 511, 512) if i < count]
    alike = [i for i in range(random.randint(0, 63), count, 64)]
    chosen = [sorted(random.sample(pool, random.randint(0, len(pool)))) for pool in (ends, ends, alike, alike)]
    chosen.append(list(range(random.randint(0, 2), count, 3)))
    few = random.sample(range(count), min(2, count))
    chosen.append([i for i in range(count) if i not in few])
    return chosen


def check_long_sets(random, runs, rounds):
    """Sets with many indices: sizes, the graph of the sets, and all their intersections."""
    script = Script('long sets')
    for _ in range(rounds):
        for count in LENGTHS:
            sets = edge_sets(random, count)
            script.says('new c Cone')
            script.says(f'take c RAYS_IN_FACETS {sets_spelled(sets, count)}')
            dual = set_graph(sets)
            ranks = meets(sets, count)
            f, f2 = face_counts(ranks)
            script.gives('c', 'FACET_SIZES', spelled(list(map(len, sets))))
            script.gives('c', 'RAY_SIZES', spelled([sum(i in one for one in sets) for i in range(count)]))
            script.gives('c', 'DUAL_GRAPH', spelled(dual))
            script.gives('c', 'DUAL_DIAMETER', greatest_distance(dual))
            script.gives('c', 'HASSE_DIAGRAM', spelled(ranks))
            script.gives('c', 'F_VECTOR', spelled(f))
            script.gives('c', 'F2_VECTOR', fractions_spelled(f2))
            script.says('drop c')
    runs.tries(script)


def check_graphs(random, runs, number):
    """Graphs that are given: degrees, edges, and the greatest distance of two nodes that a walk joins."""
    script = Script('graphs')
    for _ in range(number):
        count = random.choice([0, 1, 2, 3, 5, 8, 13, 70])
        density = random.choice([0.5, 1.5, 3]) / max(count, 1)
        pairs = {(i, j) for i in range(count) for j in range(i) if random.random() < density}
        graph = [sorted(j for j in range(count) if (i, j) in pairs or (j, i) in pairs) for i in range(count)]
        told = [list(random.sample(row, len(row))) for row in graph]
        script.says('new p Polytope')
        script.says(f'take p GRAPH {spelled(told)}')
        script.says(f'take p DUAL_GRAPH {spelled(told)}')
        script.says('lookup p GRAPH', f'p GRAPH {spelled(graph)}')
        script.gives('p', 'DIAMETER', greatest_distance(graph))
        script.gives('p', 'DUAL_DIAMETER', greatest_distance(graph))
        script.gives('p', 'VERTEX_DEGREES', spelled(list(map(len, graph))))
        script.gives('p', 'N_EDGES', len(pairs))
        script.gives('p', 'N_RIDGES', len(pairs))
        script.says('drop p')
    runs.tries(script)
