"""Compares what tshark reads in captures with what it reads in the same captures in each tunnel.

tests/oracle/compare tunnels CAPTURE..

The tunnels are those of tests/support/packets.py. It compares the fields of records
and handshakes, in order, and the innermost ports. Options of tshark set 8472 as a port of VXLAN,
and the MPLS label that has frames after a control word.
"""

from __future__ import annotations

import sys
import tempfile
from pathlib import Path

from tests.oracle import record_fields
from tests.support import packets

PLAIN = ["-d", "udp.port==8472,vxlan"]
# tshark recognizes datagrams after labels by their first half byte, but not frames.
FRAMES = [*PLAIN, "-d", "mpls.label==32,pwethcw"]


def compare(words: list[str]) -> None:
    if not words:
        sys.exit(__doc__)
    count = 0
    with tempfile.TemporaryDirectory(prefix="tunnels-") as folder:
        for name in words:
            segments = packets.read(Path(name).read_bytes())
            is_udp = any(s.is_udp for s in segments)
            wanted = record_fields.rows(name, PLAIN, is_udp)
            for what, capture, _ in packets.tunnels(segments):
                file = Path(folder) / "wrapped.pcap"
                file.write_bytes(capture)
                found = record_fields.rows(
                    file, FRAMES if what == "MPLS with frames" else PLAIN, is_udp
                )
                if found != wanted:
                    sys.exit(f"{name}, in {what}: {found[:3]} where {wanted[:3]} is wanted")
                count += 1
    print(f"tunnels: tshark reads the same in {count} captures in tunnels")
