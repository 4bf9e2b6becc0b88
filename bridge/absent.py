"""Names of polymake that are no properties here, each with what comes near: python/write-table copies this file."""

LATTICE = "lattice points are not computed here"
GROUPS = "symmetry groups are not computed here"
COUNTED = "rows that are given are not counted here"

ABSENT = {
    "VOLUME": "volumes are not computed here; PLACING_TRIANGULATION has simplices whose volumes add up to it",
    "CENTROID": "centroids are not computed here; PLACING_TRIANGULATION has simplices, of which each has its own",
    "TRIANGULATION": "of triangulations PLACING_TRIANGULATION is computed here",
    "DELAUNAY_TRIANGULATION": "the Delaunay cells of SITES are DELAUNAY_CELLS",
    "LATTICE_POINTS": LATTICE,
    "N_LATTICE_POINTS": LATTICE,
    "INTERIOR_LATTICE_POINTS": LATTICE,
    "BOUNDARY_LATTICE_POINTS": LATTICE,
    "EHRHART_POLYNOMIAL": LATTICE,
    "HILBERT_BASIS": LATTICE,
    "GROUP": GROUPS,
    "AUTOMORPHISMS": GROUPS,
    "DIM": "CONE_DIM is the dimension of a cone, and of a polytope its dimension plus 1",
    "AMBIENT_DIM": "CONE_AMBIENT_DIM is the number of columns, of a polytope one more than its coordinates",
    "N_POINTS": f"{COUNTED}: N_VERTICES is the number of vertices",
    "N_INPUT_RAYS": f"{COUNTED}: N_RAYS is the number of extreme rays",
    "N_INEQUALITIES": f"{COUNTED}: N_FACETS is the number of facets",
    "FACE_LATTICE": "HASSE_DIAGRAM has the faces of each rank",
    "NORMAL_FAN": "the command normalfan makes it as an object of its own, in Python normal_fan()",
    "FACE_FAN": "the command facefan makes it as an object of its own, in Python face_fan()",
    "EDGES": "GRAPH has for each vertex its neighbours, and N_EDGES is the number of edges",
    "G_VECTOR": "it has the differences of the first half of H_VECTOR",
    "MAX_VALUE": "of a linear program MAXIMAL_VALUE is meant",
    "MIN_VALUE": "of a linear program MINIMAL_VALUE is meant",
    "MAXIMAL_VERTEX": "of a linear program MAXIMAL_FACE has the places of the vertices where it has its maximum",
    "MINIMAL_VERTEX": "of a linear program MINIMAL_FACE has the places of the vertices where it has its minimum",
}
