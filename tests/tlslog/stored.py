"""The stored captures with their lines, and what standard error has to report of them."""

from __future__ import annotations

import collections
from collections.abc import Iterator
from pathlib import Path
from typing import Any

from tests.support import packets
from tests.support.shapes import Line
from tests.tlslog.program import parsed, stop

TOP = Path(__file__).resolve().parents[2]
OURS = TOP / "crates/tlslog"
# Folders of captures, each with the file of its lines.
TLS = OURS / "data", OURS / "stdout"
DTLS = TOP / "captures/dtls", TOP / "captures/dtls/lines"
STORED = [TLS, DTLS]
# Outcomes that standard error counts by their names.
UNFINISHED = ("broken off", "waiting", "unknown", "no handshake")


def of_packets(lines: list[Line]) -> list[str]:
    """The fields that count packets or retransmissions. Over UDP, bytes and records are counted as
    often as they come."""
    fields = ["pkts", "repeated_bytes", "disagreeing_bytes"]
    fields += ["bytes", "records"] if any(line["proto"] == "udp" for line in lines) else []
    return [f"{side}_{field}" for side in ("orig", "resp") for field in fields]


def is_v6(line: Line) -> bool:
    return ":" in line["id.orig_h"]


def counted(count: int, things: str, more: str = "") -> str:
    """A count with its noun, which is given in the plural, and further words."""
    return f"{count} {things.removesuffix('s') if count == 1 else things}{more and ' '}{more}"


def found_in(lines: list[Line]) -> str:
    """The connections as standard error has them."""
    tls, dtls = (sum(line["proto"] == proto for line in lines) for proto in ("tcp", "udp"))
    if tls and dtls:
        found = f"{tls} TLS and {counted(dtls, 'DTLS connections')}"
    elif dtls:
        found = counted(dtls, "DTLS connections")
    else:
        found = counted(tls, "TLS connections") if tls else "no TLS connections"
    outcomes = collections.Counter(line["outcome"].replace("_", " ") for line in lines)
    bad = [f"{outcomes[outcome]} {outcome}" for outcome in UNFINISHED if outcomes[outcome]]
    return found + (f" ({', '.join(bad)})" if bad else "")


def report_of(name: object, lines: list[Line], count: int, *left_out: str) -> str:
    """Returns the text on standard error for a capture with this many packets, some left out."""
    gaps = sum("gap" in line for line in lines)
    left_out = (*left_out, counted(gaps, "connections", "with missing bytes")) if gaps else left_out
    words = [f"{found_in(lines)}, {counted(count, 'packets')}"]
    words += [f"left out: {one}" for one in left_out]
    return "".join(f"{name}: {one}\n" for one in words)


def are_fins_acknowledged(fins: dict[Any, Any], s: packets.Segment) -> bool:
    """Whether each side's FIN is acknowledged, up to this segment."""
    other = fins.get((s.ends, s.destination))
    if other is not None and s.acknowledgment == other:
        fins[s.ends, s.destination, "acknowledged"] = other
    return all(
        fins.get((s.ends, side)) and fins.get((s.ends, side, "acknowledged")) == fins[s.ends, side]
        for side in (s.source, s.destination)
    )


class Stored:
    """A stored capture, and its lines."""

    def __init__(self, file: Path, lines: list[Line]) -> None:
        self.name, self.bytes = file.stem, file.read_bytes()
        self.segments = packets.read(self.bytes)
        times = {round(s.time / 1_000_000, 6) for s in self.segments}
        self.lines = [line for line in lines if line["ts"] in times]

    def ended(self) -> Iterator[int]:
        """After each packet, how many connections have ended: by an RST, or by acknowledgements of
        both FINs. No packet of a stored capture is out of order."""
        fins, over, count = {}, set(), 0
        for s in self.segments:
            if s.flags & packets.SYN:
                fins[s.ends, s.source] = None
                over.discard(s.ends)
            if s.flags & packets.FIN:
                fins[s.ends, s.source] = (s.sequence + len(s.payload) + 1) % 2**32
            if s.ends not in over and (s.flags & packets.RST or are_fins_acknowledged(fins, s)):
                over.add(s.ends)
                count += 1
            yield count


def stored() -> list[Stored]:
    found = []
    for folder, file in STORED:
        lines = parsed(file.read_text())
        captures = [Stored(file, lines) for file in sorted(folder.glob("*.pcap"))]
        if sum(len(capture.lines) for capture in captures) != len(lines):
            stop(f"the lines of {file} aren't those of the captures beside it")
        found += captures
    return found
