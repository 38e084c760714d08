"""The program of tests/rows, which makes calls on bytes and compares rows, and its files of rows.

The callers of tests/uses are a module of it. tests/support/suites.py compiles it and keeps it.
"""

from __future__ import annotations

from pathlib import Path

from tests.support import suites

OURS = suites.TESTS / "rows"
DATA = OURS / "data"


def files() -> list[Path]:
    """The files of rows."""
    return sorted(DATA.glob("*.rows"))


def program() -> Path:
    """The program, compiled of the sources as they are."""
    return suites.program("rows")
