"""The expected lines of captures/tunnels, by the captures' names.

tests/oracle/write tunnels [CAPTURE..]

It removes each packet's outer headers by their lengths: Ethernet and IPv4 (14 and 20 bytes), and
the tunnel's. Then it prints the lines by tshark's fields of what is left, with the tunnel and its
number, which the recorder chose.
"""

from __future__ import annotations

import json
import struct
import tempfile
from collections.abc import Iterable
from pathlib import Path
from typing import NamedTuple

from tests.oracle import wanted

TOP = Path(__file__).resolve().parents[2]
FOLDER = TOP / "captures/tunnels"

PORT = "4433"

# A capture with forged packets in a tunnel has the lines of the one without them, at this port.
FORGED = {"forged_resets": (TOP / "crates/tlslog/data/openssl_rsa.pcap", "14433")}


class Tunnel(NamedTuple):
    """The fields of a tunnel, and the length of its headers after the IPv4 header."""

    name: str
    number: int
    headers: int


TUNNELS = {
    "vxlan": Tunnel("vxlan", 4242, 8 + 8),
    "geneve": Tunnel("geneve", 4243, 8 + 8),
    "gre": Tunnel("gre", 4244, 4 + 4 + 4),
    "gre_checksum": Tunnel("gre", 4245, 4 + 4 + 4),
    "erspan2": Tunnel("erspan", 45, 8 + 8),
    "erspan3": Tunnel("erspan", 46, 8 + 12),
}


def inner(data: bytes, outer: int) -> bytes:
    """The capture without the outer headers: a pcap of microseconds, in the order of this machine's
    bytes."""
    found, at = [data[:24]], 24
    while at < len(data):
        seconds, micro, length, whole = struct.unpack_from("<IIII", data, at)
        packet = data[at + 16 : at + 16 + length]
        found.append(
            struct.pack("<IIII", seconds, micro, length - outer, whole - outer) + packet[outer:]
        )
        at += 16 + length
    return b"".join(found)


def lines(capture: Path) -> list[dict[str, object]]:
    """Returns the lines of a capture, whose tunnel is known by its file name."""
    if capture.stem in FORGED:
        true, port = FORGED[capture.stem]
        return wanted.lines(true, port, False)
    tunnel = TUNNELS[capture.stem]
    with tempfile.NamedTemporaryFile(suffix=".pcap") as file:
        file.write(inner(capture.read_bytes(), 14 + 20 + tunnel.headers))
        file.flush()
        found = wanted.lines(file.name, PORT, False)
    return [{**line, "tunnels": [tunnel.name], "tunnel_ids": [tunnel.number]} for line in found]


def expected(captures: Iterable[Path] = ()) -> dict[str, list[dict[str, object]]]:
    """The lines of these captures, or of all stored ones, by their names."""
    some = list(captures) or [FOLDER / f"{name}.pcap" for name in (*TUNNELS, *FORGED)]
    return {capture.name: lines(capture) for capture in some}


def write(words: list[str]) -> None:
    print(json.dumps(expected(map(Path, words)), indent=1))
