"""Packets with broken headers, before the capture that they come from.

In tunnels and in fragments, cut at each byte, with other lengths, and in too many tunnels.
"""

from __future__ import annotations

from collections.abc import Iterator

from tests.support import fragmenting, packets
from tests.support.packets import ETHER, LINK, LINK_HEADER, Segment

V4_HEADER, V6_HEADER, UDP_HEADER = 20, 40, 8
# Where a tunnel's own header has lengths, after the header of IP, or of a user datagram in it.
LENGTHS = {
    "GENEVE": [0],
    "GENEVE with options": [0],
    "GTP-U": [2, 3],
    "GTP-U with extensions": [2, 3],
    "AH in IPv4": [1],
    "AH in IPv6": [1],
}
# Offsets of lengths that are only reduced: of several headers, one with a greater length may end
# where a later one ends.
LESS = {"GTP-U with extensions": [12], "Teredo with both": [2, 3]}
# How deep a packet is wrapped that is to have no end.
DEEP = 100

# The names and the numbers of a packet's tunnels, by whether it is of IPv6.
Told = dict[bool, tuple[list[str], list[int]]]


def cut(frame: bytes, end: int) -> list[bytes]:
    """The frame cut at each byte before this one."""
    return [frame[:at] for at in range(end)]


def lengths(name: str, frame: bytes) -> list[tuple[int, range]]:
    """Offsets of lengths in the outer headers of a wrapped frame, and the values to write there.
    The length of the IPv4 header, which shares a byte with the version, is only reduced."""
    everything = range(256)
    kind = frame[LINK_HEADER - 2 : LINK_HEADER]
    if kind == ETHER[4]:
        behind, protocol = LINK_HEADER + V4_HEADER, frame[LINK_HEADER + 9]
        found = [
            (LINK_HEADER, range(0x40, frame[LINK_HEADER])),
            (LINK_HEADER + 2, everything),
            (LINK_HEADER + 3, everything),
        ]
    elif kind == ETHER[6]:
        behind, protocol = LINK_HEADER + V6_HEADER, frame[LINK_HEADER + 6]
        found = [(LINK_HEADER + 4, everything), (LINK_HEADER + 5, everything)]
    else:
        return []
    if protocol == 17:
        found += [(behind + 4, everything), (behind + 5, everything)]
        behind += UDP_HEADER
    found += [(behind + at, everything) for at in LENGTHS.get(name, [])]
    return found + [(behind + at, range(frame[behind + at])) for at in LESS.get(name, [])]


def is_open(frame: bytes) -> bool:
    """Whether the outer IPv4 header has the length 0, as in segments that a network card will cut.
    All captured bytes of such a datagram are read."""
    return (
        frame[LINK_HEADER - 2 : LINK_HEADER] == ETHER[4]
        and frame[LINK_HEADER + 2 : LINK_HEADER + 4] == b"\0\0"
    )


def with_other_lengths(name: str, frame: bytes) -> Iterator[bytes]:
    """The frame with each of its lengths another one."""
    for at, others in lengths(name, frame):
        for other in others:
            made = frame[:at] + bytes([other]) + frame[at + 1 :]
            if other != frame[at] and not is_open(made):
                yield made


def deep(frame: bytes) -> Iterator[bytes]:
    """The frame in too many tunnels, of each kind that can carry itself."""
    for name, wrap, kind in packets.wrappings():
        out = frame
        for _ in range(DEEP):
            payload, _, _ = wrap(out)
            out = LINK + (kind or ETHER[payload[0] >> 4]) + payload
            if len(out) > 60_000:
                break
        yield out


def captures(segments: list[Segment]) -> Iterator[tuple[str, bytes, int, Told]]:
    """The capture in each kind of tunnel, and cut into fragments, after broken copies of its
    longest packet: the name, the capture, how many packets it has more, and the tunnels."""
    longest = max(segments, key=lambda s: len(s.payload))
    begin = segments[0].time

    def behind(broken: list[bytes], frames: list[tuple[int, bytes]]) -> bytes:
        return packets.pcap([(begin, frame) for frame in broken] + frames)

    for name, wrap, kind in packets.wrappings():
        frames, told = [], {}
        for s in segments:
            payload, names, numbers = wrap(s.frame())
            frames.append((s.time, LINK + (kind or ETHER[payload[0] >> 4]) + payload))
            told[s.is_v6] = names, numbers
        payload, _, _ = wrap(longest.frame())
        whole = LINK + (kind or ETHER[payload[0] >> 4]) + payload
        yield f"cut in {name}", behind(
            broken := cut(whole, len(whole) - len(longest.payload)), frames
        ), len(broken), told
        yield f"other lengths in {name}", behind(
            broken := list(with_other_lengths(name, whole)), frames
        ), len(broken), told
    plain = [(s.time, s.frame()) for s in segments]
    none: Told = {False: ([], []), True: ([], [])}
    yield "too many tunnels", behind(broken := list(deep(longest.frame())), plain), len(
        broken
    ), none
    pieces = fragmenting.cut(
        longest.frame(), fragmenting.size_for(longest.frame()), segments.index(longest) + 1
    )
    broken = [part for piece in pieces for part in cut(piece, len(piece))]
    yield "fragments that are cut", behind(broken, plain), len(broken), none
    options = fragmenting.OPTIONS if longest.is_v6 else b""
    piece = fragmenting.cut(longest.frame(), fragmenting.size_for(longest.frame()), 1, options)[0]
    yield "a fragment's other lengths", behind(
        broken := list(with_other_lengths("", piece)), plain
    ), len(broken), none
