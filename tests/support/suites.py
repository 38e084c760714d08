"""The suites that share a program, and those that share a crate of tests (tests/support/kept.py).

Each suite is a module of its crate, beside a root in tests/suites: so they are compiled together,
once, and each script runs its own part.
"""

from __future__ import annotations

import functools
import os
import re
import sys
from collections.abc import Iterable, Mapping
from pathlib import Path

from tests.support import kept
from tests.views import groups, rows

TOP = kept.TOP
TESTS = TOP / "tests"
# The crates that the suites use.
PROGRAMS_STAND_ON = (
    "layouts tls_base tls_key_exchange tls_ext tls_hs tls_hs_writer raw_records dtls_records tls_records tls_parser tls_states"
    " tls_stream tls_flow dtls_stream wispuddera hex memchr"
)
TESTS_STAND_ON = (
    "segments layouts tls_base tls_key_exchange tls_ext tls_hs tls_hs_writer raw_records dtls_records tls_records tls_parser"
    " tls_flow tls_detection tls_stream ssl2_hello capture tunnels ip_fragments der x509 x509_text x509_places ocsp dtls_stream"
    " packets tcp_acceptance connections connection_ids tls_summary tls_fingerprints tls_observer dtls_analyzer tls_analyzer tls_json"
    " wispuddera preambles hex sha2 serde_json tls_states tls_places memchr arrivals log_connections log_runs"
)
# The most calls that a reader of `view` gets, and one less; and in their place so many as are made
# in a test's time where nothing is proved.
FEWER = {"16_777_216": "65_536", "16_777_215": "65_535"}
TEST = re.compile(r"^#\[test\]\n(?:#.*\n)*fn (\w+)", re.MULTILINE)


def root(file: str) -> dict[str, str]:
    """The root of a shared crate."""
    return {f"src/{file}": (TESTS / f"suites/{file}.unproved").read_text()}


def uses() -> dict[str, str]:
    """Callers as a user's program has them, which are the module `uses` of a suite."""
    return {f"uses/{place}": text for place, text in kept.sources_of(TESTS / "uses").items()}


def tlsview() -> dict[str, str]:
    """The sources of tlsview, whose `view` some suites call."""
    return {file.name: file.read_text() for file in (TOP / "crates/tlsview/src").glob("*.rt")}


def programs() -> kept.Crate:
    """The suites that are programs."""
    suites = {
        "any": kept.sources_of(TESTS / "faults/any"),
        "cuts": kept.sources_of(TESTS / "faults/cuts"),
        "flow_rows": kept.sources_of(TESTS / "flow_rows"),
        "refusals": {**tlsview(), **kept.sources_of(TESTS / "faults/refusals")},
        "rows": {**kept.sources_of(TESTS / "rows"), **uses()},
    }
    found = root("main.rt")
    for name, sources in suites.items():
        found |= kept.as_module(name, sources, "main.rt")
    return kept.Crate("programs", found, PROGRAMS_STAND_ON, ("-O1",))


def program(name: str) -> Path:
    """The program of a suite: it runs the suite by whose name it is called."""
    made = kept.program(programs())
    link = made.with_name(name)
    if not link.exists() or not link.samefile(made):
        # Another suite may make its own link, or this one, in parallel. It is a hard link, since
        # `rt ci` refuses symbolic ones below the top.
        new = made.with_name(f"{name}.{os.getpid()}")
        new.hardlink_to(made)
        new.replace(link)
    return link


def units() -> dict[str, str]:
    """The tests in code."""
    return {**kept.sources_of(TESTS / "units"), **uses()}


def transfers() -> dict[str, str]:
    """The tests of `view`, beside the sources of tlsview with a smaller count of calls."""
    found = {**tlsview(), **kept.sources_of(TESTS / "faults/transfers")}
    found["main.rt"] += "\n#[cfg(test)]\nmod tests;\n"
    for place in ("tally.rt", "tests.rt"):
        if "16_777_216" not in found[place]:
            sys.exit(f"transfers: {place} has another count of calls")
        for count, fewer in FEWER.items():
            found[place] = found[place].replace(count, fewer)
    return found


@functools.cache
def view_inputs() -> dict[str, list[rows.Input]]:
    """The inputs of the views, by their groups."""
    return groups.inputs()


def views() -> dict[str, str]:
    """The tests of the views, and their inputs as sources."""
    inputs = view_inputs()
    modules = "".join(f"pub mod {name};\n" for name in sorted(inputs))
    found = {f"inputs/{name}.rt": rows.source(name, each) for name, each in inputs.items()}
    found["inputs/mod.rt"] = f"//! The inputs of each group of calls.\n\n{modules}"
    return {**kept.sources_of(TESTS / "views"), **found}


def paths(sources: Mapping[str, str]) -> list[str]:
    """The path of each test in the sources."""
    found = []
    for place, text in sources.items():
        modules = Path(place).with_suffix("").parts
        found += ["::".join([*modules, test]) for test in TEST.findall(text)]
    return found


def run_tests(suite: str, wanted: Iterable[str], part: str = "") -> None:
    """Runs the tests of a suite whose path contains the part, which have to be the wanted ones."""
    found = root("lib.rt")
    found |= kept.as_module("units", units(), "lib.rt")
    found |= kept.as_module("transfers", transfers(), "main.rt")
    found |= kept.as_module("views", views(), "lib.rt")
    crate = kept.Crate("tests", found, TESTS_STAND_ON, ("--tests", "-O0"))
    paths_wanted = [f"{suite}::{path}" for path in wanted]
    kept.run_tests(crate, suite, paths_wanted, part or f"{suite}::")
