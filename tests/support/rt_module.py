"""The command `rt` as a module, for scripts that check crates as `rt ci` and `rt must-fail` do."""

from __future__ import annotations

import importlib.machinery
import importlib.util
import os
import shutil
import sys
from pathlib import Path
from typing import Any

TOP = Path(__file__).resolve().parents[2]
# The flag for a check that takes one core.
JOB = ["--jobs", "1"]


def command_rt() -> Any:
    place = os.path.realpath(shutil.which("rt") or "rt")
    sys.dont_write_bytecode = True
    loader = importlib.machinery.SourceFileLoader("command_rt", place)
    made = importlib.util.module_from_spec(importlib.util.spec_from_loader("command_rt", loader))
    sys.modules["command_rt"] = made
    loader.exec_module(made)
    return made


def crates_by_name(rt: Any) -> dict[str, Any]:
    """The crates of this tree by name, dependencies first."""
    os.chdir(TOP)
    rt.rtlib.guarded()
    rt.rtlib.Crate = rt.Crate
    crates = sorted(rt.rtlib.crates_below(str(TOP)), key=lambda crate: len(crate.below()))
    return {crate.name: crate for crate in crates}


def build_below(crates: list[Any]) -> str | None:
    """Builds the libraries below these crates that aren't up to date. Returns the name of one that
    isn't proved."""
    for below in {one.name: one for crate in crates for one in crate.below()}.values():
        if below.build_rlib(JOB, anew=False):
            return below.name
    return None
