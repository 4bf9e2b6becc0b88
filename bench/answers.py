"""Answers as sets of primitive rows: bridge/canonical.py, as the bench and the gate find it."""

import sys
from pathlib import Path

sys.path.insert(0, str(Path(__file__).resolve().parent.parent / "bridge"))

from canonical import canonical

__all__ = ["canonical"]
