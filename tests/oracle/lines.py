"""Compares the lines of tlslog with tshark's fields, and writes the expected lines.

tests/oracle/compare lines CAPTURE LINES [PORT [dtls]]
tests/oracle/write lines CAPTURE [PORT [dtls]]

LINES is a file of what tlslog printed of CAPTURE, or - for standard input. Each connection that
tshark takes for TLS is compared, in all fields but `gap`. tshark knows TLS by its port: PORT is
another one, or several as A-B. With `dtls` the connections of DTLS are compared.

tshark ends some connections elsewhere: those that are idle for 300 seconds, and those with segments
out of order. Don't compare captures that have such.
"""

from __future__ import annotations

import json
import sys
from pathlib import Path

from tests.oracle import wanted
from tests.oracle.wanted import is_same, key
from tests.support.shapes import Line


def expected(capture: str, words: list[str]) -> list[Line]:
    return wanted.lines(capture, words[0] if words else None, "dtls" in words)


def write(words: list[str]) -> None:
    if not words:
        sys.exit(__doc__)
    for line in expected(words[0], words[1:]):
        print(json.dumps(line, separators=(",", ":")))


def compare(words: list[str]) -> int:
    if len(words) < 2:
        sys.exit(__doc__)
    capture, given, *more = words
    lines = expected(capture, more)
    text = sys.stdin.read() if given == "-" else Path(given).read_text()
    had = {key(line): line for line in map(json.loads, text.splitlines())}
    differ = 0
    for line in lines:
        mine = had.pop(key(line), None)
        if mine is None:
            print("missing:", line)
            differ += 1
            continue
        for field in wanted.ORDER:
            if field != "gap" and not is_same(field, mine.get(field), line.get(field)):
                print(
                    f"{key(line)}: {field}: tlslog {mine.get(field)!r}, tshark {line.get(field)!r}"
                )
                differ += 1
    for line in had.values():
        print("tshark has no TLS in:", line)
        differ += 1
    print(f"{len(lines)} connections, {differ} differences")
    return 1 if differ else 0
