"""The bridges as calls, this program as a call, and other programs that read what was written."""

import io
import os
import re
import shutil
import subprocess
import sys
from dataclasses import dataclass
from pathlib import Path

TOP = Path(__file__).resolve().parent.parent
sys.path.insert(0, str(TOP / "bridge"))

import cdd_files
import command
import normaliz_files
import polymake_files
import rows_files
from entries import row_text

BRIDGES = {
    "from-polymake": (polymake_files.from_words, polymake_files.from_polymake),
    "to-polymake": (polymake_files.to_words, polymake_files.to_polymake),
    "from-cdd": (cdd_files.from_words, cdd_files.from_cdd),
    "to-cdd": (cdd_files.to_words, cdd_files.to_cdd),
    "from-normaliz": (normaliz_files.from_words, normaliz_files.from_normaliz),
    "from-rows": (rows_files.from_words, rows_files.from_rows),
}


@dataclass(frozen=True)
class Ended:
    """How a bridge ended: its status, what it wrote, and what it told on standard error."""

    status: int
    wrote: str
    told: str


def bridged(bridge, words, given=""):
    """A bridge within this process."""
    make_words, convert = BRIDGES[bridge]
    streams = command.Streams(io.BytesIO(given.encode()), io.StringIO(), io.StringIO())
    status = command.run(make_words(), convert, words, streams)
    return Ended(status, streams.out.getvalue(), streams.told.getvalue())


def called(bridge, words, given=""):
    """A bridge as a process of its own."""
    path = str(TOP / "bridge" / bridge)
    ran = subprocess.run([path, *words], input=given, capture_output=True, text=True)
    return Ended(ran.returncode, ran.stdout, ran.stderr)


def answered(program, script, folder=None):
    """What this program replies to a script, whose files are those of the folder."""
    how = {"input": script, "capture_output": True, "text": True, "cwd": folder}
    return subprocess.run([program], **how).stdout


class Absent(Exception):
    """A program gave no answer."""


def ran(words, folder, seconds=120):
    """What a program writes on standard output."""
    kept = {**os.environ, "LC_ALL": "C", "HOME": str(folder)}
    how = {"stdin": subprocess.DEVNULL, "capture_output": True, "text": True, "timeout": seconds}
    try:
        found = subprocess.run([str(it) for it in words], cwd=folder, env=kept, **how)
    except (OSError, subprocess.TimeoutExpired) as fault:
        raise Absent(str(fault)) from None
    return found.stdout, found.stderr


def scdd(path, folder):
    """cddlib's file program: the other representation, in a file beside the given one."""
    wrote = path.with_suffix(".ine" if path.suffix == ".ext" else ".ext")
    wrote.unlink(missing_ok=True)
    said = ran(["scdd_gmp", path], folder)
    if not wrote.is_file():
        raise Absent("".join(said))
    return wrote.read_text()


def lrs(path, folder):
    """lrslib: the other representation, on standard output."""
    wrote, told = ran(["lrs", path], folder)
    if "\nend" not in wrote:
        raise Absent(wrote + told)
    return wrote


CDD_PEERS = {"scdd_gmp": scdd, "lrs": lrs}

POLYMAKE_SCRIPT = """use application "polytope";
for my $path (@ARGV) {
    my $thing = load($path);
    my $is_cone = $thing->type->full_name =~ /Cone/;
    for my $name ($is_cone ? qw(%s) : qw(%s)) { $thing->give($name); }
    eval { $thing->give("H_VECTOR"); } unless $is_cone;
    save($thing, "$path.saved");
}
"""


def polymake(paths, folder, names):
    """What polymake computes of the files and saves, all in one run."""
    script = folder / "ask.pl"
    script.write_text(POLYMAKE_SCRIPT % (" ".join(names["Cone"]), " ".join(names["Polytope"])))
    said = ran(["polymake", "--script", script, *paths], folder)
    saved = [Path(f"{it}.saved") for it in paths]
    missing = [it.name for it in saved if not it.is_file()]
    if missing:
        raise Absent(f"polymake did not save {', '.join(missing)}: {said[1][-400:]}")
    return saved


PROGRAMS_SCRIPT = """use application "polytope";
my ($programs, $fan, $unbounded, $made) = @ARGV;
for my $it (@{load($programs)->LP}) {
    print join(" ", $it->name, $it->MAXIMAL_VALUE, $it->MINIMAL_VALUE, $it->MAXIMAL_FACE), "\\n";
}
my $read = load($fan);
my @truths = map { $read->give($_) ? "true" : "false" } qw(PURE SIMPLICIAL);
my @counts = map { $read->give($_) } qw(N_RAYS N_MAXIMAL_CONES LINEALITY_DIM);
print join(" ", $read->FAN_DIM, @truths, @counts), "\\n";
my $new = new Polytope(INEQUALITIES => [[0,1,0],[0,0,1],[-1,1,1]]);
$new->F_VECTOR;
save($new, $unbounded);
my $normal = fan::normal_fan(cube(3));
$normal->give($_) for qw(RAYS MAXIMAL_CONES LINEALITY_SPACE FAN_DIM PURE SIMPLICIAL N_RAYS N_MAXIMAL_CONES);
save($normal, $made);
"""


def polymake_programs(folder, paths):
    """What polymake finds of a file with programs and of a fan, and files that it makes itself."""
    script = folder / "programs.pl"
    script.write_text(PROGRAMS_SCRIPT)
    wrote, told = ran(["polymake", "--script", script, *paths], folder)
    missing = [it.name for it in paths if not it.is_file()]
    if missing:
        raise Absent(f"polymake did not save {', '.join(missing)}: {told[-400:]}")
    return wrote.splitlines()


def matrix_text(name, rows, in_brackets):
    """A matrix of Normaliz by the count of its rows, or in brackets."""
    if not in_brackets:
        return "".join(f"{it}\n" for it in [f"{name} {len(rows)}", *map(row_text, rows)])
    return f"{name}\n[" + ",\n".join(f"[{', '.join(map(str, it))}]" for it in rows) + "]\n"


def last(row):
    return [*row[1:], row[0]]


def normaliz_sections(thing):
    """The sections of a thing by their names, and the ambient dimension."""
    rows = thing.rows
    if thing.type_name == "Cone":
        if "POINTS" in thing.values:
            return {"cone": rows("POINTS"), "subspace": rows("INPUT_LINEALITY")}, thing.columns
        return {"inequalities": rows("INEQUALITIES"), "equations": rows("EQUATIONS")}, thing.columns
    if "POINTS" not in thing.values:
        names = {"inhom_inequalities": "INEQUALITIES", "inhom_equations": "EQUATIONS"}
        found = {it: [last(row) for row in rows(name)] for it, name in names.items()}
        return found, thing.columns - 1
    points = [it for it in rows("POINTS") if it[0] > 0]
    scaled = [[*(x * 6 for x in it[1:]), it[0] * 6] for it in points]
    found = {"vertices": scaled, "cone": [it[1:] for it in rows("POINTS") if it[0] == 0]}
    return {**found, "subspace": [it[1:] for it in rows("INPUT_LINEALITY")]}, thing.columns - 1


def normaliz_text(thing, in_brackets):
    """An input file of Normaliz; a section without rows is left out where another one has some."""
    sections, dimension = normaliz_sections(thing)
    needed = {"vertices", "inhom_inequalities", "inequalities"}
    kept = {k: it for k, it in sections.items() if it or k in needed} or dict(
        [next(iter(sections.items()))]
    )
    text = "".join(matrix_text(k, it, in_brackets) for k, it in kept.items())
    return f"amb_space {dimension}\n/* of\nthe check */\n{text}SupportHyperplanes\nExtremeRays\n"


def normaliz(path, folder):
    """The matrices of Normaliz's answer by their names."""
    said = ran(["normaliz", "-x=1", path], folder)
    wrote = path.with_suffix(".out")
    if not wrote.is_file():
        raise Absent("".join(said))
    _, *parts = re.split(r"^(\d+) ([a-z ()]+):\n", wrote.read_text(), flags=re.M)
    found = {}
    for count, name, body in zip(parts[::3], parts[1::3], parts[2::3]):
        found[name] = [it.split() for it in body.splitlines()[: int(count)]]
    return found


def found_peers():
    """The other programs that are on the path."""
    return [it for it in ("polymake", "scdd_gmp", "lrs", "normaliz") if shutil.which(it)]
