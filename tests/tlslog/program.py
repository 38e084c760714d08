"""A built tlslog: runs it, and reads the lines that it prints."""

from __future__ import annotations

import json
import subprocess
import sys
from collections.abc import Collection
from pathlib import Path
from typing import Any, NoReturn

from tests.support.shapes import Line

FAULTS = Path(__file__).resolve().parents[1] / "faults"
# Libraries that are loaded before the C library, and refuse memory, reads and writes.
HEAP, IO = FAULTS / "refusing_heap.c", FAULTS / "refusing_io.c"
# So many files are given to one run.
BATCH = 400
# The time limit of a run.
SECONDS = 60


def stop(*words: object) -> NoReturn:
    sys.exit(f"tlslog: {' '.join(map(str, words))}")


def parsed(text: str) -> list[Line]:
    try:
        return [json.loads(line) for line in text.splitlines()]
    except ValueError:
        stop("a line isn't JSON:", text[-1000:])


def without(fields: Collection[str], lines: list[Line]) -> list[Line]:
    return [{name: value for name, value in line.items() if name not in fields} for line in lines]


def key(line: Line) -> tuple[Any, ...]:
    """What a connection is known by: its ends, and the time of its first packet."""
    return line["id.orig_h"], line["id.orig_p"], line["id.resp_h"], line["id.resp_p"], line["ts"]


def sorted_text(line: Line) -> str:
    return json.dumps(line, sort_keys=True)


class Program:
    """tlslog, as one of the compilers built it."""

    def __init__(self, file: Path, room: Path, is_cut_everywhere: bool) -> None:
        self.file, self.room, self.is_cut_everywhere = file, room, is_cut_everywhere

    def library(self, source: Path) -> Path:
        """Where the library of this source is built."""
        return self.room / f"{source.stem}.so"

    def build_libraries(self) -> None:
        for source in (HEAP, IO):
            words = ["cc", "-O2", "-Wall", "-Werror", "-shared", "-fPIC"]
            subprocess.run([*words, "-o", self.library(source), source], check=True)

    def run(
        self, arguments: Collection[object] = (), given: bytes = b"", **more: Any
    ) -> tuple[int, str, str]:
        """Runs it on this standard input; returns the status, standard output and error."""
        more.setdefault("stdout", subprocess.PIPE)
        more.setdefault("stderr", subprocess.PIPE)
        words = [self.file, *map(str, arguments)]
        try:
            ran = subprocess.run(words, input=given, timeout=SECONDS, **more)
        except subprocess.TimeoutExpired:
            stop(f"a run took more than {SECONDS} seconds")
        return ran.returncode, (ran.stdout or b"").decode(), (ran.stderr or b"").decode()

    def each(
        self,
        captures: list[bytes],
        statuses: set[int],
        what: str,
        arguments: Collection[str] = (),
    ) -> list[list[Line]]:
        """Runs it on these captures, many in one run; returns the lines of each. A capture's report
        on standard error comes after its lines, and shows where they end."""
        found = []
        for at in range(0, len(captures), BATCH):
            files = []
            for number, capture in enumerate(captures[at : at + BATCH]):
                files.append(self.room / f"{number}.pcap")
                files[-1].write_bytes(capture)
            status, text, _ = self.run([*arguments, *files], stderr=subprocess.STDOUT)
            if status not in statuses:
                stop(f"{what}, from capture {at} on: status {status}: {text[-500:]}")
            lines, waiting = {str(file): [] for file in files}, []
            for line in text.splitlines():
                if line.startswith("{"):
                    waiting.append(line)
                else:
                    lines[line.split(": ")[0]] += waiting
                    waiting = []
            found += [parsed("\n".join(lines[str(file)])) for file in files]
        return found
