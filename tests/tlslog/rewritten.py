"""Parts that write a capture in another form, in tunnels or in fragments, with the same lines."""

from __future__ import annotations

import ipaddress
import json
from collections.abc import Iterator
from dataclasses import replace

from tests.faults import breaking
from tests.support import fragmenting, packets
from tests.support.shapes import Line
from tests.tlslog.program import Program, parsed, stop, without
from tests.tlslog.stored import TOP, Stored, counted, is_v6, of_packets

# Handshakes in tunnels that a kernel and Open vSwitch made (tests/recorders/record tunnels).
RECORDED = TOP / "captures/tunnels"
# Of these captures, packets with broken headers are made.
BROKEN = ["mixed", "openssl_rsa", "openssl_tls13_resumed", "openssl_dtls12_client_certificate"]
# The addresses of a third host's datagrams.
THIRD_HOST = bytes([203, 0, 113, 9, 192, 0, 2, 1])
# Longer frames have no room for the headers of a tunnel.
LONGEST = 65_000


def has_room(capture: Stored) -> bool:
    return max(len(s.frame()) for s in capture.segments) <= LONGEST


def same_lines(program: Program, captures: list[Stored]) -> None:
    """Each as stored, in each form of pcap and pcapng, on each link type, with each packet
    twice."""
    count = 0
    for capture in captures:
        kinds = [("as stored", capture.bytes)]
        kinds += [*packets.forms(capture.segments), *packets.links(capture.segments)]
        doubled = [(s.time, s.frame()) for s in capture.segments for _ in range(2)]
        kinds.append(("doubled", packets.pcap(doubled)))
        found = program.each([kind[1] for kind in kinds], {0}, capture.name)
        for (what, _), lines in zip(kinds, found):
            left_out = of_packets(capture.lines) if what == "doubled" else []
            if without(left_out, lines) != without(left_out, capture.lines):
                stop(f"{capture.name}, {what}: other lines: {lines}")
        count += len(kinds)
    print(f"tlslog: {count} captures in other forms, on other links and doubled: the stored lines")


def in_tunnels(program: Program, captures: list[Stored]) -> None:
    """Each in each kind of tunnel: the stored lines, with the tunnels. In one tunnel more than are
    followed: no line, and a count."""
    count = 0
    for capture in filter(has_room, captures):
        made = list(packets.tunnels(capture.segments))
        found = program.each([kind[1] for kind in made], {0}, capture.name)
        for (what, _, tunnels), lines in zip(made, found):
            if lines != [with_tunnels(line, *tunnels[is_v6(line)]) for line in capture.lines]:
                stop(f"{capture.name}, in {what}: other lines: {lines}")
        deeper = [(s.time, in_gre(frame)) for s, frame in deepest(capture)]
        status, text, report = program.run(given=packets.pcap(deeper))
        wanted = f"left out: {len(capture.segments)} packets in more than 8 nested tunnels"
        if status or text or wanted not in report:
            stop(f"{capture.name}, in too many tunnels: {status}, {report}{text}")
        count += len(made)
    recorded = json.loads((RECORDED / "wanted.json").read_text())
    for name, lines in recorded.items():
        status, text, report = program.run([RECORDED / name])
        if status or parsed(text) != lines:
            stop(f"the recorded tunnel {name}: {status}, {report}{text}")
    of_both = f"{count} captures in tunnels, and {len(recorded)} recorded ones"
    print(f"tlslog: {of_both}: the lines, with the tunnels")


def from_third_host(frame: bytes) -> bytes:
    """A frame in a VXLAN (RFC 7348, section 5), which anyone can send from their own address."""
    datagram = packets.udp(49152, 4789, b"\x08\0\0\0\0\0\1\0" + frame)
    return packets.LINK + packets.ETHER[4] + packets.ipv4(packets.UDP, datagram, THIRD_HOST)


def reset_behind(s: packets.Segment) -> packets.Segment:
    """The RST that ends a connection after this segment (RFC 9293, section 3.10.7.4)."""
    length = len(s.payload) + bool(s.flags & packets.SYN) + bool(s.flags & packets.FIN)
    number = (s.sequence + length) % 2**32
    front = s.tcp[:4] + number.to_bytes(4, "big") + s.tcp[8:12]
    return replace(s, tcp=front + bytes([0x50, packets.RST]) + s.tcp[14:20], payload=b"")


def other_data(s: packets.Segment) -> packets.Segment:
    """The segment with other letters, such as those of a server's name."""
    letters = bytes(byte ^ 1 if 97 < byte < 122 else byte for byte in s.payload)
    return replace(s, payload=letters)


def with_resets(segments: list[packets.Segment]) -> Iterator[packets.Timed]:
    for s in segments:
        yield s.time, s.frame()
        if not s.is_udp:
            yield s.time, from_third_host(reset_behind(s).frame())


def with_other_data(segments: list[packets.Segment]) -> Iterator[packets.Timed]:
    """Before all data of the side that speaks first, other data."""
    first: dict[frozenset[packets.End], packets.End] = {}
    for s in segments:
        if s.payload and first.setdefault(s.ends, s.source) == s.source:
            yield s.time, from_third_host(other_data(s).frame())
        yield s.time, s.frame()


def forged_in_tunnels(program: Program, captures: list[Stored]) -> None:
    """Each with packets of its connections in a VXLAN from a third host: RSTs, or other data. The
    stored lines, beside those of the VXLAN."""
    some = list(filter(has_room, captures))
    for capture in some:
        made = [with_resets(capture.segments), with_other_data(capture.segments)]
        for lines in program.each(list(map(packets.pcap, made)), {0}, capture.name):
            if [line for line in lines if "tunnels" not in line] != capture.lines:
                stop(f"{capture.name}, with forged packets in a tunnel: other lines: {lines}")
    print(f"tlslog: {len(some)} captures with forged packets in tunnels: the stored lines")


def in_gre(frame: bytes) -> bytes:
    return packets.LINK + b"\x08\0" + packets.ipv4(47, b"\0\0\x65\x58" + frame)


def with_tunnels(line: Line, names: list[str], numbers: list[int]) -> Line:
    return {**line, "tunnels": names, "tunnel_ids": numbers}


def deepest(capture: Stored) -> Iterator[tuple[packets.Segment, bytes]]:
    """Its segments, with their frames in as many tunnels as are followed."""
    wrap = dict((name, wrap) for name, wrap, _ in packets.wrappings())["8 tunnels"]
    for s in capture.segments:
        payload, _, _ = wrap(s.frame())
        yield s, packets.LINK + packets.ETHER[payload[0] >> 4] + payload


def broken_headers(program: Program, captures: list[Stored]) -> None:
    """The stored lines of captures after packets with broken headers: in each kind of tunnel and
    as fragments, cut at each byte before the payload, with each length changed, in 100 tunnels."""
    count = 0
    for capture in captures:
        if capture.name not in BROKEN:
            continue
        for what, file, extra, tunnels in breaking.captures(capture.segments):
            status, text, report = program.run(given=file)
            wanted = [in_tunnels_if_any(line, *tunnels[is_v6(line)]) for line in capture.lines]
            total = f"{extra + len(capture.segments)} packets\n"
            if status or parsed(text) != wanted or total not in report:
                stop(f"{capture.name}, {what}: {status}, {report}{text}")
            count += extra
    print(f"tlslog: {count} packets with broken headers have no line, and change none")


def in_tunnels_if_any(line: Line, names: list[str], numbers: list[int]) -> Line:
    return with_tunnels(line, names, numbers) if names else line


def in_fragments(program: Program, captures: list[Stored]) -> None:
    """Each with its datagrams in fragments, in each way: the stored lines, with the tunnels and
    counts of bytes that disagree. If a fragment is missing or refused: a count, and no line."""
    count = refused = 0
    for capture in filter(has_room, captures):
        made = list(fragmenting.captures(capture.segments))
        found = program.each([kind[1] for kind in made], {0}, capture.name)
        for (what, _, names, disagreeing), lines in zip(made, found):
            numbers = [0x1234]
            if lines != [
                in_tunnels_if_any(with_disagreeing(line, disagreeing), names, numbers)
                for line in capture.lines
            ]:
                stop(f"{capture.name}, its datagrams cut, {what}: other lines: {lines}")
        count += len(made)
        for what, file, counts in fragmenting.bad(capture.segments):
            status, text, report = program.run(given=file)
            lost = [line for line in report.splitlines() if "left out:" in line]
            wanted = [counted(number, *words.split(" ", 1)) for words, number in counts.items()]
            found = [line.split("left out: ")[1] for line in lost]
            if status or text or sorted(found) != sorted(wanted):
                stop(f"{capture.name}, fragments {what}: {status}, {report}{text}")
            refused += 1
    print(f"tlslog: {count} captures in fragments: the stored lines")
    print(f"tlslog: {refused} captures with bad fragments: no lines, and the counts")


def end_of(line: Line, side: str) -> packets.End:
    address, port = line[f"id.{side}_h"], line[f"id.{side}_p"]
    return ipaddress.ip_address(address).packed, port.to_bytes(2, "big")


def with_disagreeing(line: Line, disagreeing: dict[tuple[packets.End, packets.End], int]) -> Line:
    """The line with the counts of bytes that disagree, by the packets' source and destination."""
    out = dict(line)
    ends = {side: end_of(line, side) for side in ("orig", "resp")}
    for side, other in ("orig", "resp"), ("resp", "orig"):
        way = ends[side], ends[other]
        if way in disagreeing:
            out[f"{side}_disagreeing_bytes"] = disagreeing[way]
    return out
