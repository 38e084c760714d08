"""Compares what tshark reads in captures with what it reads in the same captures in fragments.

tests/oracle/compare fragments CAPTURE..

tests/support/fragmenting.py cuts the datagrams. Compared are the fields of records and handshakes,
in order, and the innermost ports. Fragments that overlap or disagree aren't compared: tshark skips
such datagrams, or keeps other bytes.
"""

from __future__ import annotations

import sys
import tempfile
from pathlib import Path

from tests.oracle import record_fields
from tests.support import fragmenting, packets

OPTIONS = ["-o", "ip.defragment:TRUE", "-o", "ipv6.defragment:TRUE"]
NOT_COMPARED = {
    "disagreeing",
    "rounded down",
    "beside a wrong header",
    "behind an overlap",
    "behind an empty one",
}


def compare(words: list[str]) -> None:
    if not words:
        sys.exit(__doc__)
    count = 0
    with tempfile.TemporaryDirectory(prefix="fragments-") as folder:
        for name in words:
            segments = packets.read(Path(name).read_bytes())
            is_udp = any(s.is_udp for s in segments)
            wanted = record_fields.rows(name, OPTIONS, is_udp)
            for what, capture, _, _ in fragmenting.captures(segments):
                if what in NOT_COMPARED:
                    continue
                file = Path(folder) / "cut.pcap"
                file.write_bytes(capture)
                found = record_fields.rows(file, OPTIONS, is_udp)
                if found != wanted:
                    sys.exit(f"{name}, cut, {what}: {found[:3]} where {wanted[:3]} is wanted")
                count += 1
    print(f"fragments: tshark reads the same in {count} captures in fragments")
