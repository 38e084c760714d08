"""The fields of records and handshakes that tshark reads in a capture, in tunnels and fragments
too."""

from __future__ import annotations

import subprocess
from collections.abc import Sequence
from pathlib import Path

FIELDS = """
    tcp.srcport udp.srcport tls.record.content_type tls.record.length tls.handshake.type
    dtls.record.content_type dtls.handshake.type
""".split()


def rows(file: Path | str, options: Sequence[str], is_udp: bool) -> list[list[str]]:
    """Returns the FIELDS of each packet with TLS or DTLS. Ports are the innermost ones. Over TCP
    the column for UDP is empty, since tshark has the tunnel's port there."""
    fields = [word for field in FIELDS for word in ("-e", field)]
    words = ["tshark", "-r", str(file), *options, "-Y", "tls or dtls", "-T", "fields", *fields]
    words += ["-E", "occurrence=a", "-E", "separator=;"]
    printed = subprocess.run(words, capture_output=True, text=True, check=True).stdout
    found = [dict(zip(FIELDS, line.split(";"))) for line in printed.splitlines()]
    for row in found:
        # tshark puts the ports of an outer datagram before the inner ones.
        row["tcp.srcport"] = row["tcp.srcport"].split(",")[-1]
        row["udp.srcport"] = row["udp.srcport"].split(",")[-1] if is_udp else ""
    return [list(row.values()) for row in found]
