"""Datagrams cut into fragments (RFC 791, section 3.2; RFC 8200, section 4.5).

In any order, doubled, overlapping, disagreeing, after tags and in tunnels; and fragments that have
to be refused.
"""

from __future__ import annotations

import struct
from collections.abc import Callable, Iterator

from tests.support import packets
from tests.support.packets import ETHER, LINK, LINK_HEADER, Segment

# Of a frame and its number: the frames in its place, and how many bytes disagree.
Way = Callable[[bytes, int], tuple[list[bytes], int]]

V4_HEADER, V6_HEADER = 20, 40
FRAGMENT = 44
# Destination Options of 8 bytes without an option; a Fragment header follows.
OPTIONS = bytes([FRAGMENT, 0, 1, 4, 0, 0, 0, 0])
MAX_DATAGRAM = 65_535
DAY = 86_400_000_000


def parts_of(frame: bytes) -> tuple[bytes, bytes, int, bytes]:
    """Splits an Ethernet frame into the link header, the IP header with its options, the protocol
    after it, and the rest of the datagram."""
    link, ip = frame[:LINK_HEADER], frame[LINK_HEADER:]
    if ip[0] >> 4 == 6:
        return (
            link,
            ip[:V6_HEADER],
            ip[6],
            ip[V6_HEADER : V6_HEADER + int.from_bytes(ip[4:6], "big")],
        )
    length = ip[0] % 16 * 4
    return link, ip[:length], ip[9], ip[length : int.from_bytes(ip[2:4], "big")]


def fragment(
    frame: bytes,
    identification: int,
    offset: int,
    has_more: bool,
    payload: bytes,
    in_front: bytes = b"",
) -> bytes:
    """The frame with that fragment in the place of its datagram; in IPv6 after these headers."""
    link, header, protocol, _ = parts_of(frame)
    if header[0] >> 4 == 6:
        said = struct.pack(">BBHI", protocol, 0, offset | has_more, identification)
        behind = in_front + said + payload
        first = OPTIONS and (60 if in_front else FRAGMENT)
        return link + header[:4] + struct.pack(">HB", len(behind), first) + header[7:] + behind
    flags = offset // 8 | (0x2000 if has_more else 0)
    header = (
        header[:2]
        + struct.pack(">HHH", len(header) + len(payload), identification % 65536, flags)
        + header[8:10]
        + b"\0\0"
        + header[12:]
    )
    header = header[:10] + packets.checksum(packets.words(header)) + header[12:]
    return link + header + payload


def cut(
    frame: bytes, size: int, identification: int, in_front: bytes = b"", overlap: int = 0
) -> list[bytes]:
    """The fragments of the frame's datagram, each of this many bytes, which is a multiple of 8, and
    of so many of the next one's."""
    _, _, _, payload = parts_of(frame)
    made = []
    for offset in range(0, len(payload), size):
        piece = payload[offset : offset + size + overlap]
        has_more = offset + size < len(payload)
        if has_more and offset + len(piece) >= len(payload):
            piece = payload[offset : offset + size]
        made.append(fragment(frame, identification, offset, has_more, piece, in_front))
    return made


def with_ecn(frame: bytes, ecn: int) -> bytes:
    """The frame with that ECN field (RFC 3168, section 5)."""
    link, header, _, _ = parts_of(frame)
    behind = frame[len(link) + len(header) :]
    if header[0] >> 4 == 6:
        return link + header[:1] + bytes([header[1] & 0xCF | ecn << 4]) + header[2:] + behind
    header = header[:1] + bytes([header[1] & 0xFC | ecn]) + header[2:10] + b"\0\0" + header[12:]
    return link + header[:10] + packets.checksum(packets.words(header)) + header[12:] + behind


def halves(frame: bytes, identification: int) -> list[bytes]:
    """The frame's datagram in two fragments."""
    _, _, _, payload = parts_of(frame)
    return cut(frame, -(-len(payload) // 16) * 8, identification)


def halves_of_ecn(frame: bytes, identification: int, fields: tuple[int, int]) -> list[bytes]:
    """The frame's datagram in two fragments with these ECN fields."""
    return [
        with_ecn(half, ecn) for half, ecn in zip(halves(frame, identification), fields, strict=True)
    ]


def changed(
    frame: bytes, identification: int, made: list[bytes], size: int
) -> tuple[list[bytes], int]:
    """The same fragments, and after every other one a copy in which every second byte differs; and
    the number of these bytes."""
    _, _, _, payload = parts_of(frame)
    count, out = 0, []
    for number, piece in enumerate(made):
        out.append(piece)
        offset = number * size
        theirs = payload[offset : offset + size]
        if number % 2 or len(made) < 2 or number == len(made) - 1:
            continue
        other = bytes(byte ^ (at % 2) for at, byte in enumerate(theirs))
        count += sum(a != b for a, b in zip(theirs, other))
        out.append(fragment(frame, identification, offset, True, other))
    return out, count


def doubled(made: list[bytes]) -> list[bytes]:
    """All but the last of them twice: what came after the last would begin another datagram."""
    return made[:-1] + made[:-1] + made[-1:]


def size_for(frame: bytes) -> int:
    """A size that makes at most some 100 fragments."""
    _, _, _, payload = parts_of(frame)
    return max(8, len(payload) // 100 // 8 * 8)


def beside_wrong_header(made: list[bytes]) -> list[bytes]:
    """Behind the first fragment one of IPv4 with other bytes and a wrong header checksum: a host
    drops it."""
    first = made[0]
    if first[LINK_HEADER] >> 4 == 6:
        return made
    at = LINK_HEADER + 10
    wrong = first[:at] + bytes([first[at] ^ 1]) + first[at + 1 : -8] + b"x" * 8
    return [first, wrong, *made[1:]]


def behind_overlap(frame: bytes, number: int) -> list[bytes]:
    """Behind two fragments of the datagram with other bytes, which overlap: a host drops both."""
    two = [fragment(frame, number, offset, True, b"x" * 16) for offset in (8, 0)]
    return [*two, *cut(frame, size_for(frame), number)]


def behind_empty(frame: bytes, number: int) -> list[bytes]:
    """Behind a fragment with other bytes and an empty one, for which a host drops the datagram."""
    two = [fragment(frame, number, *at, b"x" * n) for at, n in (((0, True), 8), ((8, True), 0))]
    return [*two, *cut(frame, size_for(frame), number)]


def in_vlan(frame: bytes) -> bytes:
    return frame[:12] + b"\x81\0\0\x07" + frame[12:]


def in_vxlan(frame: bytes) -> bytes:
    payload = packets.ipv4(17, packets.udp(49152, 4789, b"\x08\0\0\0\0\x12\x34\0" + frame))
    return LINK + ETHER[4] + payload


def captures(
    segments: list[Segment],
) -> Iterator[tuple[str, bytes, list[str], dict[tuple[packets.End, packets.End], int]]]:
    """The capture with each datagram cut, in each way: its name, the capture, the tunnels, and how
    many bytes disagree, by the packet's source and destination."""

    def made(
        way: Way, jumps: bool = False
    ) -> tuple[bytes, dict[tuple[packets.End, packets.End], int]]:
        out, disagreeing = [], {}
        for number, s in enumerate(segments):
            frame = s.frame()
            frames, count = way(frame, number + 1)
            out += [(s.time, f) for f in frames]
            if jumps:
                out.insert(len(out) - 1, (s.time + DAY, fragment(frame, 60_000, 8, True, b"x" * 8)))
            if count:
                way_of = s.source, s.destination
                disagreeing[way_of] = disagreeing.get(way_of, 0) + count
        return packets.pcap(out), disagreeing

    def plain(order: Callable[[list[bytes]], list[bytes]]) -> Way:
        return lambda frame, number: (order(cut(frame, size_for(frame), number)), 0)

    def disagreeing(frame: bytes, number: int) -> tuple[list[bytes], int]:
        size = size_for(frame)
        return changed(frame, number, cut(frame, size, number), size)

    def tagged(frame: bytes, number: int) -> tuple[list[bytes], int]:
        return [in_vlan(f) for f in cut(frame, size_for(frame), number)[::-1]], 0

    def cut_in_vxlan(frame: bytes, number: int) -> tuple[list[bytes], int]:
        return [in_vxlan(f) for f in cut(frame, size_for(frame), number)[::-1]], 0

    def cut_vxlan(frame: bytes, number: int) -> tuple[list[bytes], int]:
        outer = in_vxlan(frame)
        return cut(outer, size_for(outer), number)[::-1], 0

    def cut_both(frame: bytes, number: int) -> tuple[list[bytes], int]:
        out = []
        for place, inner in enumerate(cut(frame, max(8, size_for(frame) * 25), number)):
            outer = in_vxlan(inner)
            out += cut(outer, 64, 100 * number + place)[::-1]
        return out, 0

    ways = {
        "in order": (plain(lambda m: m), []),
        "reversed": (plain(lambda m: m[::-1]), []),
        "odd ones first": (plain(lambda m: m[1::2] + m[::2]), []),
        "doubled": (plain(doubled), []),
        "rounded down": (
            lambda f, n: (cut(f, size_for(f), n, overlap=0 if f[LINK_HEADER] >> 4 == 6 else 7), 0),
            [],
        ),
        "beside a wrong header": (plain(beside_wrong_header), []),
        "behind an overlap": (lambda f, n: (behind_overlap(f, n), 0), []),
        "behind an empty one": (lambda f, n: (behind_empty(f, n), 0), []),
        "behind options": (
            lambda f, n: (
                cut(f, size_for(f), n, in_front=OPTIONS if f[LINK_HEADER] >> 4 == 6 else b""),
                0,
            ),
            [],
        ),
        "disagreeing": (disagreeing, []),
        "in a VLAN": (tagged, []),
        "in VXLAN": (cut_in_vxlan, ["vxlan"]),
        "of VXLAN": (cut_vxlan, ["vxlan"]),
        "of VXLAN, of fragments": (cut_both, ["vxlan"]),
    }
    for name, (way, tunnels) in ways.items():
        capture, count = made(way)
        yield name, capture, tunnels, count
    capture, count = made(plain(lambda m: m), jumps=True)
    yield "beside a clock that jumps", capture, [], count


def bad(segments: list[Segment]) -> Iterator[tuple[str, bytes, dict[str, int]]]:
    """Captures without a complete datagram: the name, the capture, and the expected counts."""
    s = max(segments, key=lambda s: len(s.payload))
    frame = s.frame()
    size = size_for(frame)
    pieces = cut(frame, size, 7)
    at = s.time
    _, header, _, payload = parts_of(frame)

    def told(frames: list[bytes], step: int = 0) -> bytes:
        return packets.pcap([(at + number * step, f) for number, f in enumerate(frames)])

    missing = "datagrams that were incomplete at the end"
    for number in range(len(pieces)):
        yield f"without fragment {number}", told(pieces[:number] + pieces[number + 1 :]), {
            missing: 1
        }
    other_end = "fragments that contradict their datagram's length"
    last = fragment(frame, 7, len(payload) // 8 * 8 + 8, False, b"x" * 8)
    yield "another end behind", told([*pieces[1:], last]), {other_end: 1}
    early = fragment(frame, 7, 8, False, payload[8:16])
    yield "another end in front", told([*pieces[1:], early]), {other_end: 1}
    behind = fragment(frame, 7, len(payload) // 8 * 8 + 16, True, b"x" * 8)
    yield "bytes behind the end", told([*pieces[1:], behind]), {other_end: 1}
    overlapping = "datagrams with overlapping fragments"
    two = [fragment(frame, 7, 8, True, payload[8:24]), fragment(frame, 7, 0, True, payload[:16])]
    yield "overlapping", told([*two, *pieces[:1]]), {overlapping: 1, missing: 1}
    yield "mixed ECN fields", told([*pieces[:-1], with_ecn(pieces[-1], 2)]), {
        "datagrams with contradictory ECN fields": 1
    }
    empty = "datagrams with an empty fragment"
    is_v6 = header[0] >> 4 == 6
    uneven = fragment(frame, 9, 0, True, payload[:7])
    yield "a length that is no multiple of 8", told([uneven]), {
        "fragments with a length that isn't a multiple of 8" if is_v6 else empty: 1
    }
    if is_v6:
        long = [fragment(frame, 9, 65_528, False, b"x" * 8)]
    else:
        long = [
            fragment(frame, 9, 0, True, b"x" * 32_768),
            fragment(frame, 9, 32_768, True, b"x" * 32_752),
            fragment(frame, 9, 65_520, False, b"x" * 8),
        ]
    yield "too long", told(long), {"fragments of datagrams above 65,535 bytes": 1}
    limit = 61_000_000 if is_v6 else 31_000_000
    yield "late", told(
        [*pieces[:-1], pieces[-1]], step=limit // max(1, len(pieces) - 1) + 1
    ), {"datagrams that were incomplete too long": 1, missing: 1}
    many = [fragment(frame, number, 8, True, b"x" * 8) for number in range(MANY)]
    yield "many that never end", told(many), {
        missing: WAITING,
        "datagrams that were incomplete, with no room for them": MANY - WAITING,
    }
    same = [fragment(frame, 7, 8, True, payload[8:16])] * 1000
    yield "the same again and again", told(same), {missing: 1}
    yield "empty ones", told(
        [fragment(frame, 7, 8 * number, True, b"") for number in range(1000)]
    ), {empty: 1000}


HELD_LIMIT = 33_554_432
# A datagram counts for twice its bytes and so many more for each run of bytes without a gap; of
# those with 8 bytes so many may wait.
DATAGRAM_COST, RUN_COST = 640, 128
WAITING = HELD_LIMIT // (2 * 8 + RUN_COST + DATAGRAM_COST)
MANY = 50_000
