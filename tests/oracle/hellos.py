"""Compares what tlslog prints of any captures with what tshark and nDPI read in them.

tests/oracle/compare hellos PROGRAM CAPTURE..

Each connection that tshark takes for TLS or DTLS, on any port, is compared in all fields but `gap`.
If ndpiReader is installed, its JA3 and JA3S are compared too. At the end it prints how many values
of each field were compared. `tests/oracle/compare lines --help` has what tshark reads otherwise.
"""

from __future__ import annotations

import json
import re
import shutil
import subprocess
import sys
from collections import Counter

from tests.oracle import wanted
from tests.oracle.wanted import is_same, key
from tests.support.shapes import Line

PORTS = "1-65535"
FLOW = re.compile(r"\t(?:TCP|UDP) (\S+) <?-> (\S+) .*?(?:TLS|DTLS)")
PRINTS = {"ja3": re.compile(r"\[JA3C: (\w+)\]"), "ja3s": re.compile(r"\[JA3S: (\w+)\]")}


def by_tshark(capture: str, lines: list[Line], compared: Counter[str]) -> int:
    """How many values differ."""
    differ, had = 0, {key(line): line for line in lines}
    for udp in (False, True):
        for line in wanted.lines(capture, PORTS, udp):
            mine = had.pop(key(line), None)
            if mine is None:
                print(f"{capture}: missing: {line}")
                differ += 1
                continue
            for field in wanted.ORDER:
                values = mine.get(field), line.get(field)
                if field == "gap" or values == (None, None):
                    continue
                compared[field] += 1
                if not is_same(field, *values):
                    print(
                        f"{capture}: {key(line)}: {field}: tlslog {values[0]!r}, tshark {values[1]!r}"
                    )
                    differ += 1
    for line in had.values():
        print(f"{capture}: tshark has no TLS in: {line}")
        differ += 1
    return differ


def by_ndpi(capture: str, lines: list[Line], compared: Counter[str]) -> int:
    """Returns how many of nDPI's fingerprints differ. nDPI joins connections between the same two
    ends, and prints one hello for them."""
    command = ["ndpiReader", "-i", str(capture), "-v", "2"]
    text = subprocess.run(
        command, stdout=subprocess.PIPE, stderr=subprocess.DEVNULL, text=True, check=True
    ).stdout
    ours, differ = {}, 0
    for line in lines:
        ends = frozenset(
            f"{line[f'id.{side}_h'].strip('[]')}:{line[f'id.{side}_p']}"
            for side in ("orig", "resp")
        )
        ours.setdefault(ends, []).append(line)
    for row in text.splitlines():
        flow = FLOW.search(row)
        same = (
            ours.get(frozenset(end.replace("[", "").replace("]", "") for end in flow.groups()), [])
            if flow
            else []
        )
        for field, pattern in PRINTS.items():
            found = pattern.search(row)
            if found and same:
                compared[f"{field} of nDPI"] += 1
                if found[1] not in [line.get(field) for line in same]:
                    print(
                        f"{capture}: {flow.groups()}: {field}: tlslog {[line.get(field) for line in same]}, nDPI {found[1]}"
                    )
                    differ += 1
    return differ


def compare(words: list[str]) -> int:
    if len(words) < 2:
        sys.exit(__doc__)
    program, *captures = words
    compared, differ, count = Counter(), 0, 0
    for capture in captures:
        ran = subprocess.run(
            [program, capture], stdout=subprocess.PIPE, stderr=subprocess.DEVNULL, text=True
        )
        lines = [json.loads(line) for line in ran.stdout.splitlines()]
        count += len(lines)
        differ += by_tshark(capture, lines, compared)
        if shutil.which("ndpiReader"):
            differ += by_ndpi(capture, lines, compared)
    print(", ".join(f"{field} {number}" for field, number in compared.items()))
    print(f"{count} connections, {sum(compared.values())} values compared, {differ} differ")
    return 1 if differ else 0
