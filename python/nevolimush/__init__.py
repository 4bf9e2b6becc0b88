"""Polytopes, cones, fans and linear programs, asked of the program Nevolimush, whose every answer is proved.

    >>> from nevolimush import Polytope, cube
    >>> cube(3).F_VECTOR
    [8, 12, 6]

What is proved is the program; this package, which writes its commands and reads its replies, is only
tested. docs/python.md of the repository is a first page.
"""

from .files import BadForm, NoBridge
from .finding import NoProgram
from .process import Ended
from .refusals import CLASSES as _CLASSES
from .refusals import Evidence, Failure, NoChain, Refused
from .session import Session, current
from .things import Cone, Fan, LinearProgram, Plan, Polytope, Thing, cross, cube, cyclic, simplex
from .values import BadEntry, Matrix

globals().update({it.__name__: it for it in _CLASSES.values()})


def load(path, session=None):
    """The polytope, cone or fan of a file: of any form that `from_file` reads."""
    return Thing.from_file(path, session)


__all__ = [
    *("Polytope", "Cone", "Fan", "LinearProgram", "Thing", "cube", "simplex", "cross", "cyclic", "load"),
    *("Session", "current", "Matrix", "Plan", "Evidence", "Failure"),
    *("Refused", "Ended", "NoProgram", "NoBridge", "BadForm", "BadEntry"),
    *(it.__name__ for it in _CLASSES.values()),
]
