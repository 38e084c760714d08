"""Captures cut into files for --join, and the part of a connection for --part."""

from __future__ import annotations

import ipaddress
from collections.abc import Iterator

from tests.support import packets
from tests.support.shapes import Line

BASIS, PRIME = 0xCBF29CE484222325, 0x100000001B3
# The odd number that is nearest to 2^64 by the golden ratio.
GOLDEN = 0x9E3779B97F4A7C15


def fnv_1a(data: bytes) -> int:
    """FNV-1a of 64 bits (draft-eastlake-fnv, section 2)."""
    number = BASIS
    for byte in data:
        number = (number ^ byte) * PRIME % 2**64
    return number


def part_of(line: Line, count: int) -> int:
    """The part, from 1 on, of the connection that a line is of."""
    ends = [(line["id.orig_h"], line["id.orig_p"]), (line["id.resp_h"], line["id.resp_p"])]
    number = sum(
        fnv_1a(ipaddress.ip_address(address).packed + port.to_bytes(2, "big"))
        for address, port in ends
    )
    return ((number + (line["proto"] == "udp")) * GOLDEN % 2**64 >> 32) % count + 1


def rotated(segments: list[packets.Segment], count: int) -> Iterator[bytes]:
    """Returns so many captures, one after another, each with its header: pcap and pcapng in
    turn."""
    step = -(-len(segments) // count)
    for number, at in enumerate(range(0, len(segments), step)):
        some = segments[at : at + step]
        form = packets.pcapng if number % 2 else packets.pcap
        yield form([(s.time, s.frame()) for s in some])
