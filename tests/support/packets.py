"""Captures of TCP and UDP: read, cut, reordered, in tunnels, on other links, and written in each
form.
"""

from __future__ import annotations

import struct
from collections.abc import Callable, Iterable, Iterator
from dataclasses import dataclass, replace

ETHERNET = 1
FIN, SYN, RST, PSH = 1, 2, 4, 8
FILE_HEADER, PACKET_HEADER, LINK_HEADER, UDP_HEADER = 24, 16, 14, 8
TCP, UDP = 6, 17
# An end of a connection: its address and its port.
End = tuple[bytes, bytes]
# A frame, with its time in microseconds.
Timed = tuple[int, bytes]
# Wraps a frame in tunnels: returns the bytes after the outer link's type, the names of the
# tunnels, and the number of each.
Wrap = Callable[[bytes], tuple[bytes, list[str], list[int]]]


@dataclass(frozen=True)
class Segment:
    """A packet of Ethernet with a segment of TCP, or a datagram of UDP. The time is in
    microseconds."""

    time: int
    front: bytes  # The headers of the link and of IP.
    tcp: bytes  # The header of TCP, with its options, or of UDP.
    payload: bytes

    @property
    def is_v6(self) -> bool:
        return self.front[LINK_HEADER] >> 4 == 6

    @property
    def source(self) -> End:
        return (
            self.front[LINK_HEADER + 8 : LINK_HEADER + 24]
            if self.is_v6
            else self.front[LINK_HEADER + 12 : LINK_HEADER + 16],
            self.tcp[0:2],
        )

    @property
    def destination(self) -> End:
        return (
            self.front[LINK_HEADER + 24 : LINK_HEADER + 40]
            if self.is_v6
            else self.front[LINK_HEADER + 16 : LINK_HEADER + 20],
            self.tcp[2:4],
        )

    @property
    def ends(self) -> frozenset[End]:
        return frozenset((self.source, self.destination))

    @property
    def sequence(self) -> int:
        return int.from_bytes(self.tcp[4:8], "big")

    @property
    def acknowledgment(self) -> int:
        return int.from_bytes(self.tcp[8:12], "big")

    @property
    def is_udp(self) -> bool:
        return len(self.tcp) == UDP_HEADER

    @property
    def flags(self) -> int:
        return 0 if self.is_udp else self.tcp[13]

    def says_nothing(self) -> bool:
        """It only acknowledges."""
        return not self.payload and not self.flags & (FIN | SYN | RST)

    def part(self, begin: int, end: int) -> Segment:
        """The segment of a part of its payload. The last part has its FIN."""
        flags = self.flags if end == len(self.payload) else self.flags & ~(FIN | PSH)
        sequence = (self.sequence + begin) % 2**32
        tcp = (
            self.tcp[:4]
            + sequence.to_bytes(4, "big")
            + self.tcp[8:13]
            + bytes([flags])
            + self.tcp[14:]
        )
        return replace(self, tcp=tcp, payload=self.payload[begin:end])

    def frame(self) -> bytes:
        """Its bytes, with the lengths and the checksums that they should have: hosts drop
        others."""
        front, behind = bytearray(self.front), len(self.tcp) + len(self.payload)
        if self.is_v6:
            front[LINK_HEADER + 4 : LINK_HEADER + 6] = (
                len(front) - LINK_HEADER - 40 + behind
            ).to_bytes(2, "big")
        else:
            front[LINK_HEADER + 2 : LINK_HEADER + 4] = (len(front) - LINK_HEADER + behind).to_bytes(
                2, "big"
            )
            front[LINK_HEADER + 10 : LINK_HEADER + 12] = bytes(2)
            front[LINK_HEADER + 10 : LINK_HEADER + 12] = checksum(words(front[LINK_HEADER:]))
        place = 6 if self.is_udp else 16
        tcp = self.tcp[:place] + bytes(2) + self.tcp[place + 2 :]
        pseudo = (
            words(self.source[0] + self.destination[0]) + (UDP if self.is_udp else TCP) + behind
        )
        sum_of_all = checksum(pseudo + words(tcp) + words(self.payload))
        return bytes(front) + tcp[:place] + sum_of_all + tcp[place + 2 :] + self.payload


def words(data: bytes) -> int:
    """The sum of its words of 16 bits (RFC 1071)."""
    return sum(struct.unpack(f">{(len(data) + 1) // 2}H", data + bytes(len(data) % 2)))


def checksum(total: int) -> bytes:
    """Returns the checksum of words with this sum. A checksum of 0 is sent as 0xffff, since 0 means
    none over UDP (RFC 768)."""
    return (-total % 65535 or 65535).to_bytes(2, "big")


def segment(time: int, frame: bytes) -> Segment:
    is_v6 = frame[LINK_HEADER] >> 4 == 6
    ip = LINK_HEADER + (40 if is_v6 else 4 * (frame[LINK_HEADER] & 15))
    is_udp = frame[LINK_HEADER + (6 if is_v6 else 9)] == UDP
    tcp = ip + (UDP_HEADER if is_udp else 4 * (frame[ip + 12] >> 4))
    return Segment(time, frame[:ip], frame[ip:tcp], frame[tcp:])


def read(capture: bytes) -> list[Segment]:
    """The segments of a capture as tcpdump writes it on this machine: pcap of little order,
    microseconds, Ethernet."""
    if capture[:4] != b"\xd4\xc3\xb2\xa1" or capture[20:24] != b"\1\0\0\0":
        raise ValueError("another form")
    found, at = [], FILE_HEADER
    while at < len(capture):
        seconds, micros, length, _ = struct.unpack("<4I", capture[at : at + PACKET_HEADER])
        at += PACKET_HEADER
        found.append(segment(seconds * 1_000_000 + micros, capture[at : at + length]))
        at += length
    return found


def ends_of_packets(capture: bytes) -> list[int]:
    """Where each packet of the file ends."""
    found, at = [], FILE_HEADER
    while at < len(capture):
        at += PACKET_HEADER + int.from_bytes(capture[at + 8 : at + 12], "little")
        found.append(at)
    return found


def pcap(
    packets: Iterable[Timed], order: str = "<", nano: bool = False, link: int = ETHERNET
) -> bytes:
    """A pcap file (draft-ietf-opsawg-pcap) of pairs of a time in microseconds and bytes."""
    parts = [
        struct.pack(order + "IHHiIII", 0xA1B23C4D if nano else 0xA1B2C3D4, 2, 4, 0, 0, 262144, link)
    ]
    for time, frame in packets:
        part = time % 1_000_000 * (1000 if nano else 1)
        parts += [struct.pack(order + "4I", time // 1_000_000, part, len(frame), len(frame)), frame]
    return b"".join(parts)


def block(order: str, kind: int, body: bytes) -> bytes:
    body += bytes(-len(body) % 4)
    return (
        struct.pack(order + "2I", kind, len(body) + 12)
        + body
        + struct.pack(order + "I", len(body) + 12)
    )


def pcapng(
    packets: Iterable[Timed],
    order: str = "<",
    nano: bool = False,
    is_obsolete: bool = False,
    link: int = ETHERNET,
    offset: int = 0,
) -> bytes:
    """A capture in blocks (draft-ietf-opsawg-pcapng), with a block of names that nobody reads. With
    an offset of its interface, all times are this many seconds after those in its packets."""
    options = struct.pack(order + "HHBxxx", 9, 1, 9) if nano else b""
    options += struct.pack(order + "HHq", 14, 8, offset) if offset else b""
    options += struct.pack(order + "HH", 0, 0) if options else b""
    parts = [
        block(order, 0x0A0D0D0A, struct.pack(order + "IHHq", 0x1A2B3C4D, 1, 0, -1)),
        block(order, 1, struct.pack(order + "HHI", link, 0, 262144) + options),
        block(order, 4, struct.pack(order + "HH", 0, 0)),
    ]
    for time, frame in packets:
        units = (time - offset * 1_000_000) * (1000 if nano else 1)
        front = struct.pack(
            order + "HH" if is_obsolete else order + "I", *((0, 0) if is_obsolete else (0,))
        )
        front += struct.pack(order + "4I", units >> 32, units % 2**32, len(frame), len(frame))
        parts.append(block(order, 2 if is_obsolete else 6, front + frame))
    return b"".join(parts)


def forms(segments: list[Segment]) -> Iterator[tuple[str, bytes]]:
    """The capture in each form, by its name."""
    plain = [(s.time, s.frame()) for s in segments]
    for order, name in (("<", "little"), (">", "big")):
        for nano in (False, True):
            unit = "nano" if nano else "micro"
            yield f"pcap {name} {unit}", pcap(plain, order, nano)
            yield f"pcapng {name} {unit}", pcapng(plain, order, nano)
        yield f"pcapng {name} obsolete", pcapng(plain, order, is_obsolete=True)
        for offset in (1_000_000_000, -1_000_000_000):
            yield f"pcapng {name} moved by {offset} seconds", pcapng(
                plain, order, nano, offset=offset
            )


def links(segments: list[Segment]) -> Iterator[tuple[str, bytes]]:
    """The capture as it would be of other links, by the name of the link
    (tcpdump.org/linktypes.html)."""
    kind = {False: b"\x08\x00", True: b"\x86\xdd"}

    def of(link: int, front: Callable[[Segment], bytes]) -> bytes:
        return pcap([(s.time, front(s) + s.frame()[LINK_HEADER:]) for s in segments], link=link)

    def inner(s: Segment, tags: bytes) -> bytes:
        return s.front[:12] + tags + kind[s.is_v6]

    yield "raw", of(101, lambda s: b"")
    yield "null", of(0, lambda s: (30 if s.is_v6 else 2).to_bytes(4, "little"))
    yield "loopback", of(108, lambda s: (24 if s.is_v6 else 2).to_bytes(4, "big"))
    yield "cooked", of(113, lambda s: b"\0\0\3\4\0\6" + bytes(8) + kind[s.is_v6])
    yield "cooked, tagged", of(
        113, lambda s: b"\0\0\3\4\0\6" + bytes(8) + b"\x81\0\0\7" + kind[s.is_v6]
    )
    yield "cooked 2", of(276, lambda s: kind[s.is_v6] + b"\0\0\0\0\0\1\3\4\0\6" + bytes(8))
    yield "cooked 2, tagged", of(
        276, lambda s: b"\x81\0" + b"\0\0\0\0\0\1\3\4\0\6" + bytes(8) + b"\0\7" + kind[s.is_v6]
    )
    yield "cooked 2, tagged twice", of(
        276, lambda s: b"\x88\xa8" + bytes(18) + b"\0\7\x81\0\0\7" + kind[s.is_v6]
    )
    yield "tagged", of(ETHERNET, lambda s: inner(s, b"\x81\0\0\7"))
    yield "tagged twice", of(ETHERNET, lambda s: inner(s, b"\x88\xa8\0\7\x81\0\0\7"))
    ppp = {False: b"\0\x21", True: b"\0\x57"}

    def session(s: Segment) -> bytes:
        return b"\x11\0\0\1" + (len(s.frame()) - LINK_HEADER + 2).to_bytes(2, "big") + ppp[s.is_v6]

    yield "PPPoE", of(ETHERNET, lambda s: s.front[:12] + b"\x88\x64" + session(s))
    yield "PPPoE alone", of(51, session)
    for link in (9, 50):
        yield f"PPP as {link}", of(link, lambda s: ppp[s.is_v6])
        yield f"PPP as {link}, compressed", of(link, lambda s: ppp[s.is_v6][1:])
        yield f"PPP as {link} in HDLC", of(link, lambda s: b"\xff\3" + ppp[s.is_v6])
        yield f"PPP as {link} in HDLC, compressed", of(link, lambda s: b"\xff\3" + ppp[s.is_v6][1:])
        yield f"Cisco's HDLC as {link}", of(link, lambda s: b"\x0f\0" + kind[s.is_v6])
        yield f"Cisco's HDLC as {link}, to many", of(link, lambda s: b"\x8f\0" + kind[s.is_v6])


# What carries packets from one network to another: addresses of the tunnels' ends.
ENDS_V4 = bytes([192, 0, 2, 1, 192, 0, 2, 2])
ENDS_V6 = bytes.fromhex("20010db8000000000000000000000001" "20010db8000000000000000000000002")
ETHER = {4: b"\x08\x00", 6: b"\x86\xdd"}
LINK = bytes.fromhex("020000000002" "020000000001")


def ipv4(protocol: int, payload: bytes, ends: bytes = ENDS_V4) -> bytes:
    header = struct.pack(">BBHHHBB", 0x45, 0, 20 + len(payload), 1, 0, 64, protocol)
    return header + checksum(words(header + ends)) + ends + payload


def ipv6(protocol: int, payload: bytes) -> bytes:
    return struct.pack(">IHBB", 0x60000000, len(payload), protocol, 64) + ENDS_V6 + payload


def udp(source: int, destination: int, payload: bytes) -> bytes:
    """One without a checksum, as VXLAN's mostly are."""
    return struct.pack(">4H", source, destination, 8 + len(payload), 0) + payload


def wrappings() -> Iterator[tuple[str, Wrap, bytes | None]]:
    """What wraps a packet, by name: makes of an Ethernet frame the bytes after the outer link's
    type, that type, and which tunnels these are, with the number of each (0 where it has none). The
    headers are those of the RFCs that crates/tunnels names."""

    def datagram(frame: bytes) -> tuple[bytes, int]:
        """Returns the payload of the frame, and its version of IP."""
        return frame[LINK_HEADER:], frame[LINK_HEADER] >> 4

    def in_ip(
        outer: Callable[[int, bytes], bytes],
        protocol: int | None,
        header: bytes = b"",
        name: str | None = None,
        number: int = 0,
    ) -> Wrap:
        """The datagram itself in one of IP, after a header."""

        def wrap(frame: bytes) -> tuple[bytes, list[str], list[int]]:
            inner, version = datagram(frame)
            kind = protocol or {4: 4, 6: 41}[version]
            return (
                outer(kind, header.replace(b"TT", ETHER[version]) + inner),
                [name or f"ipv{version}"],
                [number],
            )

        return wrap

    def over(
        protocol: int,
        header: bytes,
        name: str,
        number: int,
        outer: Callable[[int, bytes], bytes] = ipv4,
        port: int | None = None,
    ) -> Wrap:
        """The whole frame in one of IP, or in a user datagram."""

        def wrap(frame: bytes) -> tuple[bytes, list[str], list[int]]:
            payload = header + frame
            return outer(protocol, udp(49152, port, payload) if port else payload), [name], [number]

        return wrap

    def on_link(header: bytes, name: str, number: int, is_frame: bool) -> Wrap:
        def wrap(frame: bytes) -> tuple[bytes, list[str], list[int]]:
            return header + (frame if is_frame else frame[LINK_HEADER:]), [name], [number]

        return wrap

    def gtp(optional: bytes) -> Wrap:
        def wrap(frame: bytes) -> tuple[bytes, list[str], list[int]]:
            inner, _ = datagram(frame)
            flags = 0x34 if optional else 0x30
            message = (
                struct.pack(">BBHI", flags, 255, len(optional) + len(inner), 0xA0B0C0D)
                + optional
                + inner
            )
            return ipv4(17, udp(2152, 2152, message)), ["gtp"], [0xA0B0C0D]

        return wrap

    def geneve(frame: bytes) -> tuple[bytes, list[str], list[int]]:
        inner, version = datagram(frame)
        options = bytes.fromhex("0102" "0301" "00000007")
        return (
            ipv6(
                17, udp(49152, 6081, b"\x02\0" + ETHER[version] + b"\0\0\x09\0" + options + inner)
            ),
            ["geneve"],
            [9],
        )

    def teredo(headers: bytes) -> Wrap:
        def wrap(frame: bytes) -> tuple[bytes, list[str], list[int]]:
            inner, version = datagram(frame)
            if version == 6:
                return ipv4(17, udp(49152, 3544, headers + inner)), ["teredo"], [0]
            return ipv4(17, udp(3544, 49152, headers + ipv6(4, inner))), ["teredo", "ipv4"], [0, 0]

        return wrap

    def authenticated(outer: Callable[[int, bytes], bytes]) -> Wrap:
        """An Authentication Header is no tunnel; what follows it may be."""

        def wrap(frame: bytes) -> tuple[bytes, list[str], list[int]]:
            inner, version = datagram(frame)
            kind = {4: 4, 6: 41}[version]
            return outer(51, bytes([kind, 4, 0, 0]) + bytes(20) + inner), [f"ipv{version}"], [0]

        return wrap

    def nested(frame: bytes) -> tuple[bytes, list[str], list[int]]:
        """As many tunnels as are followed, of five kinds."""
        names, numbers = [], []
        for wrap in (vxlan, gre_frame, keyed, labels_in_gre, vxlan, gre_frame, keyed):
            payload, outer_names, outer_numbers = wrap(frame)
            names, numbers = outer_names + names, outer_numbers + numbers
            frame = LINK + ETHER[payload[0] >> 4] + payload
        return payload, names, numbers

    origin, identity = bytes.fromhex("0000" "1234" "c0000203"), bytes.fromhex(
        "0001" "0203" "4142" "515253"
    ) + bytes(9)
    vxlan = over(17, b"\x08\0\0\0\0\x12\x34\0", "vxlan", 0x1234, port=4789)
    gre_frame = over(47, b"\0\0\x65\x58", "gre", 0)
    keyed = in_ip(ipv6, 47, b"\x20\0TT\0\0\0\x07", "gre", 7)

    def labels_in_gre(frame: bytes) -> tuple[bytes, list[str], list[int]]:
        payload = b"\0\0\x88\x47" + bytes.fromhex("00010040" "00020140") + frame[LINK_HEADER:]
        return ipv4(47, payload), ["gre", "mpls"], [0, 32]

    everywhere = {
        "IP in IPv4": in_ip(ipv4, None),
        "IP in IPv6": in_ip(ipv6, None),
        "GRE": in_ip(ipv4, 47, b"\0\0TT", "gre"),
        "GRE with all fields": in_ip(
            ipv6, 47, b"\xb0\0TT" + bytes(4) + b"\0\0\1\0" + bytes(4), "gre", 256
        ),
        "GRE with frames": gre_frame,
        "GRE with a key": keyed,
        "MPLS in GRE": labels_in_gre,
        "ERSPAN I": over(47, b"\0\0\x88\xbe", "erspan", 0),
        "ERSPAN II": over(
            47, bytes.fromhex("100088be" "00000001" "10070123" "00000005"), "erspan", 0x123
        ),
        "ERSPAN III": over(
            47,
            bytes.fromhex("100022eb" "00000001" "20070123" "01020304" "00000000"),
            "erspan",
            0x123,
        ),
        "ERSPAN III with a platform": over(
            47,
            bytes.fromhex(
                "100022eb" "00000001" "20070123" "01020304" "00000001" "0000000000000000"
            ),
            "erspan",
            0x123,
        ),
        "VXLAN": vxlan,
        "VXLAN in Linux": over(17, b"\x08\0\0\0\0\x12\x35\0", "vxlan", 0x1235, ipv6, 8472),
        "GENEVE": over(17, b"\0\0\x65\x58\0\0\x08\0", "geneve", 8, port=6081),
        "GENEVE with options": geneve,
        "GTP-U": gtp(b""),
        "GTP-U with extensions": gtp(bytes.fromhex("00000085" "01000940" "0201010101010100")),
        "Teredo": teredo(b""),
        "Teredo with an origin": teredo(origin),
        "Teredo with both": teredo(identity + origin),
        "AH in IPv4": authenticated(ipv4),
        "AH in IPv6": authenticated(ipv6),
        "8 tunnels": nested,
    }
    for name, wrap in everywhere.items():
        yield name, wrap, None
    labels = bytes.fromhex("00010040" "00020140")
    yield "MPLS", on_link(labels, "mpls", 32, False), b"\x88\x47"
    yield "MPLS to many", on_link(labels, "mpls", 32, False), b"\x88\x48"
    yield "MPLS with frames", on_link(labels + bytes(4), "mpls", 32, True), b"\x88\x47"
    yield "a provider's backbone", on_link(
        bytes.fromhex("00000100"), "pbb", 256, True
    ), b"\x88\xa8\0\x05\x88\xe7"


def tunnels(
    segments: list[Segment],
) -> Iterator[tuple[str, bytes, dict[bool, tuple[list[str], list[int]]]]]:
    """The capture wrapped in each way: its name, the capture, and by whether a packet is of IPv6
    the tunnels and their numbers."""
    for name, wrap, kind in wrappings():
        made, told = [], {}
        for s in segments:
            payload, names, numbers = wrap(s.frame())
            made.append((s.time, LINK + (kind or ETHER[payload[0] >> 4]) + payload))
            told[s.is_v6] = names, numbers
        yield name, pcap(made), told


# What puts a frame into a network; and with it the names and the numbers of its tunnels.
Put = Callable[[bytes], bytes]
InNetwork = tuple[Put, tuple[list[str], list[int]]]


def outer_ends(frame: bytes, ends: bytes) -> bytes:
    """The ends of a tunnel around a frame, which its two directions swap."""
    packet = frame[LINK_HEADER:]
    first, size = (12, 4) if packet[0] >> 4 == 4 else (8, 16)
    is_back = packet[first : first + size] > packet[first + size : first + 2 * size]
    return ends[4:] + ends[:4] if is_back else ends


def networks() -> Iterator[tuple[str, bool, InNetwork, InNetwork]]:
    """Pairs of networks, by name, and whether they are apart by their tunnels alone: each puts an
    Ethernet frame into its network, where the addresses are the same, and has the names and numbers
    of its tunnels."""

    def tagged(*vlans: int) -> Put:
        """In VLANs, from outside in. A tag's priority (IEEE 802.1Q, section 9.6) is another from
        packet to packet."""

        def put(frame: bytes) -> bytes:
            tags = [b"\x81\0" + struct.pack(">H", (frame[-1] & 7) << 13 | vlan) for vlan in vlans]
            return frame[: LINK_HEADER - 2] + b"".join(tags) + frame[LINK_HEADER - 2 :]

        return put

    def vxlan(
        number: int, outside: Put = tagged(), inside: Put = tagged(), ends: bytes = ENDS_V4
    ) -> Put:
        """In a VXLAN (RFC 7348, section 5), whose datagrams and frames may be in VLANs."""

        def put(frame: bytes) -> bytes:
            message = b"\x08\0\0\0" + number.to_bytes(3, "big") + b"\0" + inside(frame)
            datagram = udp(49152, 4789, message)
            return outside(LINK + ETHER[4] + ipv4(UDP, datagram, outer_ends(frame, ends)))

        return put

    def keyed(key: int) -> Put:
        """In GRE with a key (RFC 2890, section 2.1)."""

        def put(frame: bytes) -> bytes:
            return (
                LINK
                + ETHER[4]
                + ipv4(
                    47,
                    b"\x20\0"
                    + frame[LINK_HEADER - 2 : LINK_HEADER]
                    + struct.pack(">I", key)
                    + frame[LINK_HEADER:],
                    outer_ends(frame, ENDS_V4),
                )
            )

        return put

    none, one, other = ([], []), (["vxlan"], [1]), (["vxlan"], [0x100001])
    third, fourth = (["gre"], [1]), (["gre"], [2])
    yield "two VLANs", False, (tagged(5), none), (tagged(0x805), none)
    yield "a VLAN and none", False, (tagged(5), none), (tagged(), none)
    yield "two VLANs in one", False, (tagged(5, 6), none), (tagged(5, 7), none)
    yield "a VLAN in another and the other way", False, (tagged(5, 6), none), (tagged(6, 5), none)
    yield "two VXLANs", True, (vxlan(1), one), (vxlan(0x100001), other)
    yield "two VLANs in a VXLAN", False, (vxlan(1, inside=tagged(5)), one), (
        vxlan(1, inside=tagged(6)),
        one,
    )
    yield "a VXLAN in two VLANs", False, (vxlan(1, outside=tagged(5)), one), (
        vxlan(1, outside=tagged(6)),
        one,
    )
    yield "a VXLAN and GRE of one number", True, (vxlan(1), one), (keyed(1), third)
    yield "a VXLAN and none", True, (vxlan(1), one), (tagged(), none)
    third_end = ENDS_V4[:4] + bytes([192, 0, 2, 3])
    yield "a VXLAN of two hosts", True, (vxlan(1), one), (vxlan(1, ends=third_end), one)
    yield "two keys of GRE", False, (keyed(1), third), (keyed(2), fourth)
