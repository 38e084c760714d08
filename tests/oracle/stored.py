"""Compares the stored lines with tshark's fields, and writes fields into them.

tests/oracle/compare stored [FIELD..]
tests/oracle/write stored FIELD..

The stored lines are those that the gate compares with tlslog's: crates/tlslog/stdout,
captures/dtls/lines, and wanted.json of captures/certificates and captures/tunnels. Without FIELD
all fields that tshark has are compared, except `gap`. `write` sets these fields in each line, at
their places: so a new field comes into all lines. Some captures have a certificate that tshark or
openssl can't read, so the chains of their lines stay as they are.
"""

from __future__ import annotations

import json
import sys
from collections.abc import Collection
from pathlib import Path

from tests.oracle import recorded_tunnels, wanted
from tests.oracle.wanted import is_same, key
from tests.recorders import certificates
from tests.support import log_columns, packets
from tests.support.shapes import Line

TOP = Path(__file__).resolve().parents[2]
LINES = {
    TOP / "crates/tlslog/stdout": (TOP / "crates/tlslog/data", False),
    TOP / "captures/dtls/lines": (TOP / "captures/dtls", True),
}
CERTIFICATES, TUNNELS = TOP / "captures/certificates", TOP / "captures/tunnels"
NAMES = log_columns.names()
# A certificate of each of these can't be read by tshark or openssl.
UNREAD = ("broken.pcap", "unread.pcap")
# At a certificate of these they stop.
STOPPING = {f"{case}.pcap" for case in certificates.BY_HAND} - {*UNREAD}
OF_CHAIN = NAMES[NAMES.index("cert_count") : NAMES.index("ja3")]


class Judge:
    """What is wanted of fields, and how many of them differed."""

    def __init__(self, fields: list[str]) -> None:
        self.fields, self.differ = fields, 0

    def line(self, what: object, had: Line, right: Line, left_out: Collection[str] = ()) -> Line:
        """The line with the fields as they are wanted, in the order of a line."""
        found = dict(had)
        for field in self.fields:
            if field in left_out or is_same(field, had.get(field), right.get(field)):
                continue
            print(f"{what}: {key(had)}: {field}: {had.get(field)!r}, tshark {right.get(field)!r}")
            self.differ += 1
            found.pop(field, None)
            if field in right:
                found[field] = right[field]
        return {name: found[name] for name in NAMES if name in found}


def of_lines(judge: Judge, file: Path, folder: Path, udp: bool) -> str:
    """A file with a line for each connection of the captures of a folder."""
    had = [json.loads(line) for line in file.read_text().splitlines()]
    right = {}
    for capture in sorted(folder.glob("*.pcap")):
        times = {
            round(segment.time / 1_000_000, 6) for segment in packets.read(capture.read_bytes())
        }
        for port in sorted({line["id.resp_p"] for line in had if line["ts"] in times}):
            right |= {key(line): line for line in wanted.lines(capture, str(port), udp)}
    found = [judge.line(file.relative_to(TOP), line, right[key(line)]) for line in had]
    return "".join(json.dumps(line, separators=(",", ":")) + "\n" for line in found)


def of_certificates(judge: Judge, file: Path) -> str:
    """The connections before the certificates of each capture."""
    found = json.loads(file.read_text())
    for name, lines in found.items():
        if name in STOPPING:
            continue
        right = {key(line): line for line in wanted.lines(file.parent / name)}
        left_out = OF_CHAIN if name in UNREAD else ()
        lines["connections"] = [
            judge.line(name, line, right[key(line)], left_out) for line in lines["connections"]
        ]
    text = ",\n".join(f" {json.dumps(name)}: {json.dumps(lines)}" for name, lines in found.items())
    return f"{{\n{text}\n}}\n"


def of_tunnels(judge: Judge, file: Path) -> str:
    """The connections of the captures in tunnels."""
    all_right, found = recorded_tunnels.expected(), {}
    for name, lines in json.loads(file.read_text()).items():
        right = {key(line): line for line in all_right[name]}
        found[name] = [judge.line(name, line, right[key(line)]) for line in lines]
    return json.dumps(found, indent=1) + "\n"


def judge_all(fields: list[str], is_written: bool) -> int:
    """Compares the fields of all stored lines, or writes them; returns how many values differ."""
    if {*fields} - {*wanted.ORDER} or (is_written and not fields):
        sys.exit(f"{__doc__.strip()}\n\nFields that tshark has: {', '.join(wanted.ORDER)}")
    judge, made = Judge(fields or [field for field in wanted.ORDER if field != "gap"]), {}
    for file, (folder, udp) in LINES.items():
        made[file] = of_lines(judge, file, folder, udp)
    made[CERTIFICATES / "wanted.json"] = of_certificates(judge, CERTIFICATES / "wanted.json")
    made[TUNNELS / "wanted.json"] = of_tunnels(judge, TUNNELS / "wanted.json")
    for file, text in made.items():
        if is_written:
            file.write_text(text)
    print(
        f"stored lines: {judge.differ} values {'differed' if is_written else 'differ'} from tshark's"
    )
    return judge.differ


def compare(words: list[str]) -> int:
    return 1 if judge_all(words, False) else 0


def write(words: list[str]) -> None:
    judge_all(words, True)
