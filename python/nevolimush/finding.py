"""Where the program is, its book of wide rules, and the bridges of its repository."""

import os
import shutil
from pathlib import Path

HERE = Path(__file__).resolve().parent

# The variable of the environment that names the program, and its name on the path.
VARIABLE = "NEVOLIMUSH_PROGRAM"
COMMAND = "nevolimush-program"
BUILT = Path("crates/pm_shell/out/pm_shell")

WIDE_RULES = HERE / "wide.rules"


class NoProgram(FileNotFoundError):
    """The program is not there: the package only asks it."""


def is_repository(top):
    return (top / "crates.txt").is_file() and (top / "python" / "nevolimush" / "finding.py").is_file()


def repository():
    """The repository that this package stands in, or that the folder of the call is in; or None."""
    here = Path.cwd()
    return next((top for top in (HERE.parent.parent, here, *here.parents) if is_repository(top)), None)


def program():
    """The program: that of the environment, that beside the package, that which is built in the
    repository that this folder is in, or that on the path."""
    named = os.environ.get(VARIABLE)
    if named:
        if not os.access(named, os.X_OK):
            raise NoProgram(f"{VARIABLE} names {named!r}, which is no program")
        return Path(named).resolve()
    for top in (HERE.parent.parent, repository()):
        if top and os.access(top / BUILT, os.X_OK):
            return top / BUILT
    found = shutil.which(COMMAND)
    if found:
        return Path(found).resolve()
    raise NoProgram(
        f"the program is not there: name it by {VARIABLE}, put it on the path as {COMMAND}, or build it "
        "by ./polymake in the repository and call from there, as README.md says"
    )


def bridges():
    """The folder of the bridges: that of this repository, or of the one that the program was built in; or None."""
    tops = [repository()]
    try:
        tops.append(program().parents[3])
    except (NoProgram, IndexError):
        pass
    return next((it / "bridge" for it in tops if it and (it / "bridge" / "ask.py").is_file()), None)
