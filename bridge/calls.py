"""The commands of this program as they are called from the folder of this call."""

import os
import shlex
from pathlib import Path

BRIDGES = Path(__file__).resolve().parent
TOP = BRIDGES.parent


def file(path):
    """A file as it is named in this folder: by its whole path where it is not below it."""
    path, here = Path(path), Path.cwd()
    return shlex.quote(str(path.relative_to(here) if path.is_relative_to(here) else path))


def bridge(name):
    """A bridge."""
    return file(BRIDGES / name)


def wrapper():
    """The command that runs scripts and asks about files: by its whole path where it is not in this folder."""
    if os.access("polymake", os.X_OK) or (TOP / "installed.list").exists():
        return "./polymake"
    return shlex.quote(str(TOP / "polymake"))
