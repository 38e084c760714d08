"""Handshakes in tunnels between two network namespaces, and their expected lines.

A kernel makes VXLAN; Open vSwitch makes GENEVE, GRE with a sequence number, GRE with a checksum,
and ERSPAN of types II and III. All are recorded together. It needs root, `ip`, `dumpcap`, `tshark`,
`openssl`, and Open vSwitch (Debian's openvswitch-switch; its service need not run). The expected
lines are tshark's, of the same packets without their outer headers.

forged_resets.pcap isn't recorded: it is openssl_rsa.pcap with RSTs in a VXLAN from a third host
(`with_resets` of tests/tlslog/rewritten.py), and its line is that of openssl_rsa.pcap.
"""

from __future__ import annotations

import json
import subprocess
import sys
from pathlib import Path

from tests.oracle import recorded_tunnels

FOLDER = recorded_tunnels.FOLDER


def names() -> list[str]:
    return list(recorded_tunnels.TUNNELS)


def record(folder: Path, chosen: list[str]) -> bool:
    if chosen and set(chosen) != set(names()):
        sys.exit("record: the tunnels are recorded together: name the group alone")
    subprocess.run([Path(__file__).with_suffix(".sh"), folder], check=True)
    wanted = recorded_tunnels.expected(folder / f"{name}.pcap" for name in names())
    stored = json.loads((FOLDER / "wanted.json").read_text())
    (folder / "wanted.json").write_text(json.dumps({**stored, **wanted}, indent=1) + "\n")
    return True
