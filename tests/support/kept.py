"""Crates of test code that are compiled once, with nothing proved, and kept in tests/out.

A crate is put beside a copy of the others, and packaging/quick-build compiles it: a program, or a
program of tests, which KIT/bin/rattle-test runs. It is compiled again after a change of its
sources, of a crate below it, or of the toolchain. Its sources end in .rt.unproved, since `rt ci`
refuses a .rt file that no proof reads.
"""

from __future__ import annotations

import fcntl
import hashlib
import re
import shutil
import subprocess
import sys
import tempfile
from collections.abc import Iterable, Mapping
from pathlib import Path
from typing import NamedTuple

TOP = Path(__file__).resolve().parents[2]
OUT = TOP / "tests/out"
QUICK_BUILD = TOP / "packaging/quick-build"
# A test has so many seconds beside other work. It takes a few of a processor.
SECONDS = 600


class Crate(NamedTuple):
    """A crate to compile: its sources by their place in its folder, the crates that it uses, and
    the words for packaging/quick-build."""

    name: str
    sources: Mapping[str, str]
    stands_on: str
    words: tuple[str, ...]


def sources_of(folder: Path) -> dict[str, str]:
    """The sources below the folder, by their places in it."""
    files = sorted(folder.rglob("*.unproved"))
    return {str(file.relative_to(folder).with_suffix("")): file.read_text() for file in files}


def as_module(name: str, sources: Mapping[str, str], root: str) -> dict[str, str]:
    """The sources of a crate with that root, as the module `name` of another crate."""
    found = {}
    for place, text in sources.items():
        if not place.endswith(".rt"):
            found[place] = text
            continue
        if place == root:
            place, text = "mod.rt", text.replace("#![tactic(auto)]\n", "")
            text = re.sub(r"^fn main\(", "pub fn main(", text, flags=re.MULTILINE)
        found[f"src/{name}/{place}"] = re.sub(
            r"\bcrate::(?!specs::|proofs::)", f"crate::{name}::", text
        )
    return found


def crates_below(stands_on: str) -> set[str]:
    """The crates of the repository that these names depend on, and they themselves."""
    lines = (
        line.split(":")
        for line in (TOP / "crates.txt").read_text().splitlines()
        if ":" in line and not line.startswith("#")
    )
    listed = {names.split()[0]: below.split() for names, below in lines}
    found, wanted = set[str](), stands_on.split()
    while wanted:
        name = wanted.pop()
        if name in listed and name not in found:
            found.add(name)
            wanted += listed[name]
    return found


def sum_of(crate: Crate) -> str:
    """The sum of all that is compiled, and of what compiles it."""
    said = hashlib.sha256(
        subprocess.run(["rt", "version"], stdout=subprocess.PIPE, check=True).stdout
    )
    said.update(repr((sorted(crate.sources.items()), crate.stands_on, crate.words)).encode())
    below = (
        file
        for name in sorted(crates_below(crate.stands_on))
        for file in sorted((TOP / "crates" / name / "src").rglob("*.rt"))
    )
    for file in [QUICK_BUILD, *below]:
        said.update(repr((str(file.relative_to(TOP)), file.read_bytes())).encode())
    return said.hexdigest()


def build(crate: Crate, program: Path) -> subprocess.CompletedProcess[str]:
    """Compiles the crate beside a copy of the others."""
    with tempfile.TemporaryDirectory(prefix=f"{crate.name}-") as place:
        room = Path(place)
        left = shutil.ignore_patterns("out", "must-fail", "wrong", "data")
        shutil.copytree(TOP / "crates", room / "crates", ignore=left)
        shutil.copy(TOP / "HANDLES", room)
        listed = (TOP / "crates.txt").read_text()
        (room / "crates.txt").write_text(f"{listed}{crate.name}: {crate.stands_on}\n")
        folder = room / "crates" / crate.name
        for to, text in crate.sources.items():
            (folder / to).parent.mkdir(parents=True, exist_ok=True)
            (folder / to).write_text(text)
        words = [QUICK_BUILD, *crate.words, folder, program]
        return subprocess.run(words, stderr=subprocess.PIPE, text=True, errors="replace")


def program(crate: Crate) -> Path:
    """The program of the crate, compiled of the sources as they are."""
    folder = OUT / crate.name
    folder.mkdir(parents=True, exist_ok=True)
    made, kept = folder / "program", folder / "sum"
    # Suites that share a crate may run in parallel.
    with (folder / "lock").open("w") as lock:
        fcntl.flock(lock, fcntl.LOCK_EX)
        now = sum_of(crate)
        if not (made.is_file() and kept.is_file() and kept.read_text() == now):
            kept.unlink(missing_ok=True)
            built = build(crate, made)
            if built.returncode:
                sys.exit(f"{crate.name}: it isn't compiled:\n{built.stderr[-8000:]}")
            if not made.read_bytes().startswith(b"\x7fELF"):
                made.unlink()
                sys.exit(f"{crate.name}: packaging/quick-build keeps no program of this toolchain")
            kept.write_text(now)
    return made


def run_tests(crate: Crate, suite: str, wanted: Iterable[str], part: str) -> None:
    """Runs the crate's tests whose path contains the part. Ends the script unless all pass, and
    those of the suite are the wanted ones."""
    kit = Path(shutil.which("rt") or "").resolve().parents[1]
    words = [kit / "bin/rattle-test", "--seconds", str(SECONDS), "--filter", part, program(crate)]
    both = {"stdout": subprocess.PIPE, "stderr": subprocess.STDOUT}
    ran = subprocess.run(words, text=True, errors="replace", **both)
    passed = set(re.findall(rf"^test ({suite}::\S+) \.\.\. ok$", ran.stdout, re.MULTILINE))
    is_ok = re.search(r"^test result: ok\. [1-9]\d* passed; 0 failed; 0 ignored", ran.stdout, re.M)
    if ran.returncode or not is_ok or passed != set(wanted):
        differ = sorted(passed ^ set(wanted))
        sys.exit(f"{suite}: {ran.stdout[-8000:]}\nnot passed, or not expected: {differ[:20]}")
