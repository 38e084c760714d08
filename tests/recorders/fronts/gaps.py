"""Captures made of stored ones, that lack packets in front of TLS, or whose first segment has one
byte of TLS. Their lines are those of the whole captures."""

from __future__ import annotations

import json
from collections.abc import Iterator
from pathlib import Path

from tests.oracle import wanted
from tests.recorders.fronts import expected, misleading
from tests.support import packets
from tests.support.shapes import Line

# The source capture, and the packets that are missing: the side, and which of its packets with
# data, from 0 on.
LOST = {
    "gap_smtp_greeting": ("starttls_smtp", "s0"),
    "gap_imap_greeting": ("starttls_imap", "s0"),
    "gap_pop3_greeting": ("starttls_pop3", "s0"),
    "gap_sieve_greeting": ("starttls_sieve", "s0"),
    "gap_xmpp_stream": ("starttls_xmpp", "c0"),
    "gap_ldap_request": ("starttls_ldap", "c0"),
    "gap_postgres_request": ("postgres", "c0"),
    "gap_mysql_greeting": ("mysql", "s0"),
    "gap_mysql_request": ("mysql", "c0"),
    "gap_connect_request": ("connect", "c0"),
    "gap_socks5_methods": ("socks5", "c0"),
    "gap_rdp_request": ("rdp", "c0"),
    "gap_proxy_header": ("proxy_header", "c0"),
}
# The piece that is missing of the server's reply to EHLO, which comes in three segments.
PIECES = {"gap_smtp_reply_begin": 0, "gap_smtp_reply_middle": 1}
OF_PIECES, REPLY, COUNT = "starttls_smtp", "s1", 3
# SMTP goes on behind the gap in lines of its own.
FOUND_BY = dict.fromkeys(PIECES, "smtp")
# The source capture, whose opening is left out, the sides whose first byte comes in a segment of
# its own, and whether an acknowledgement follows that of the client.
FIRST_BYTE = {
    "first_byte_of_client": ("openssl_ecdhe", "c", False),
    "first_byte_of_client_tls13": ("openssl_tls13", "c", False),
    "first_byte_of_client_acknowledged": ("openssl_tls13", "c", True),
    "first_byte_of_server": ("openssl_ecdhe", "s", False),
    "first_byte_of_server_tls13": ("openssl_tls13", "s", False),
    "first_byte_of_both": ("openssl_tls13", "cs", False),
}
# The server's packets alone, whose first has one byte. And a connection without its opening, whose
# first packet is a keep-alive: its byte, which the client sent before, is that of a record's type.
ALONE, KEEP_ALIVE = "first_byte_of_server_alone", "keep_alive_of_type_22"
OF_SERVER = """version cipher curve server_version comp_method ssl_server_exts cert_count
    cert_chain_fps ja3s ja3s_string""".split()
# A single byte with which a connection begins, and its packet, aren't counted: they may be a
# keep-alive's.
UNCOUNTED = ("orig_bytes", "orig_pkts", "resp_pkts")
NAMES = [*LOST, *PIECES, *FIRST_BYTE, ALONE, KEEP_ALIVE]
TLS_PORT = 14433


def named(segments: list[packets.Segment]) -> Iterator[tuple[str, packets.Segment]]:
    """Returns each packet with its name in `LOST`, which is empty if it has no data."""
    counts = {"c": 0, "s": 0}
    for one in segments:
        side = "c" if one.source == segments[0].source else "s"
        yield (f"{side}{counts[side]}" if one.payload else ""), one
        counts[side] += bool(one.payload)


def in_pieces(one: packets.Segment, count: int) -> list[packets.Segment]:
    """Cuts a segment into so many of almost the same size."""
    places = [len(one.payload) * number // count for number in range(count + 1)]
    return [one.part(begin, end) for begin, end in zip(places, places[1:])]


def put(file: Path, segments: list[packets.Segment]) -> None:
    file.write_bytes(packets.pcap([(one.time, one.frame()) for one in segments]))
    print(file.stem, file.stat().st_size, "bytes", flush=True)


def of_whole(whole: Line, more: dict[str, int], gap: str, found_by: str | None) -> list[Line]:
    """Returns the whole capture's line with so many more packets of each side, and with a gap."""
    line = whole["line"]
    changed = {field: line[field] + count for field, count in more.items() if field in line}
    changed |= {"gap": gap} | ({"found_by": found_by} if found_by else {})
    left_out = {"found_by", "gap", *more}
    fields = {field: value for field, value in line.items() if field not in left_out}
    absent = [field for field in whole["absent"] if field not in left_out]
    sources = {
        source: [field for field in names if field not in left_out]
        for source, names in whole["from"].items()
    }
    sources["the whole capture, and the packets that are missing"] = list(changed)
    given = {source: names for source, names in sources.items() if names}
    return [expected.line(fields | changed, given, absent)]


def lost(folder: Path, name: str) -> list[Line]:
    source, missing = (OF_PIECES, REPLY) if name in PIECES else LOST[name]
    whole = json.loads((folder / "wanted.json").read_text())[f"{source}.pcap"]["lines"][0]
    segments = list(named(packets.read((folder / f"{source}.pcap").read_bytes())))
    if not {*missing.split()} <= {one for one, _ in segments}:
        raise ValueError(f"{source} has no such packets: {missing}")
    left: list[packets.Segment] = []
    more = {"orig_pkts": 0, "resp_pkts": 0}
    for one, segment in segments:
        if one not in missing.split():
            left.append(segment)
            continue
        pieces = in_pieces(segment, COUNT) if name in PIECES else [segment]
        kept = [piece for at, piece in enumerate(pieces) if at != PIECES.get(name, 0)]
        left += kept
        more["orig_pkts" if one[0] == "c" else "resp_pkts"] += len(kept) - 1
    put(folder / f"{name}.pcap", left)
    sides = {one[0] for one in missing.split()}
    gap = "both" if len(sides) == 2 else "orig" if sides == {"c"} else "resp"
    return of_whole(whole, more, gap, FOUND_BY.get(name))


def acknowledgement(hello: packets.Segment, answer: packets.Segment) -> packets.Segment:
    """Returns the server's acknowledgement of the first byte of the client's hello."""
    number = ((hello.sequence + 1) % 2**32).to_bytes(4, "big")
    tcp = answer.tcp[:8] + number + answer.tcp[12:13] + bytes([16]) + answer.tcp[14:]
    return packets.replace(answer, time=hello.time, tcp=tcp, payload=b"")


def first_byte(folder: Path, name: str) -> list[Line]:
    source, sides, is_acknowledged = FIRST_BYTE[name]
    stored = misleading.STORED.with_name(f"{source}.pcap")
    segments = list(named(packets.read(stored.read_bytes())))
    begin = next(at for at, (one, _) in enumerate(segments) if one)
    answer = next(segment for one, segment in segments if one == "s0")
    left: list[packets.Segment] = []
    for one, segment in segments[begin:]:
        if one not in {f"{side}0" for side in sides}:
            left.append(segment)
            continue
        parts = [segment.part(0, 1), segment.part(1, len(segment.payload))]
        between = [acknowledgement(segment, answer)] if is_acknowledged else []
        left += [parts[0], *between, parts[1]]
    file = folder / f"{name}.pcap"
    put(file, left)
    known = misleading.stored_line(stored)
    [found] = wanted.lines(file, TLS_PORT)
    counted = ("ts", "uid", "duration", "orig_pkts", "resp_pkts")
    fields = {field: value for field, value in known.items() if field not in counted}
    differing = {field for field in fields if fields[field] != found.get(field)}
    print(name, "tshark has other", sorted(differing), flush=True)
    by_tshark = {field: found[field] for field in counted}
    omitted = UNCOUNTED if "c" in sides else ()
    line = {field: value for field, value in (fields | by_tshark).items() if field not in omitted}
    sources = {
        f"{source}, tshark": [field for field in fields if field in line],
        "tshark": [*(field for field in by_tshark if field in line), "last_alert", "gap"],
    }
    return [expected.line(line, sources, ["last_alert", "gap"])]


def of_server(folder: Path) -> list[Line]:
    """The server is the originator, since its packet is the first. Nothing of a handshake is in
    front of a ClientHello."""
    stored = misleading.STORED
    segments = packets.read(stored.read_bytes())
    client = segments[0].source
    first, *others = [one for one in segments if one.source != client and one.payload]
    put(folder / f"{ALONE}.pcap", [first.part(0, 1), first.part(1, len(first.payload)), *others])
    known = misleading.stored_line(stored)
    ends = {
        f"id.{one}_{part}": known[f"id.{other}_{part}"]
        for one, other in (("orig", "resp"), ("resp", "orig"))
        for part in "hp"
    }
    of_tshark = {field: known[field] for field in OF_SERVER if field in known}
    by_hand = {"established": False, "outcome": "no_handshake"}
    absent = ["server_name", "client_version", "gap"]
    sources = {
        "the first packet": list(ends),
        f"{stored.stem}, tshark": list(of_tshark),
        "docs/HANDSHAKES.md: nothing is before a ClientHello": [*by_hand, *absent],
    }
    return [expected.line(ends | of_tshark | by_hand, sources, absent)]


def keep_alive(folder: Path) -> list[Line]:
    stored = misleading.STORED
    segments = packets.read(stored.read_bytes())
    begin = next(at for at, one in enumerate(segments) if one.payload)
    hello = segments[begin]
    number = ((hello.sequence - 1) % 2**32).to_bytes(4, "big")
    tcp = hello.tcp[:4] + number + hello.tcp[8:]
    probe = packets.replace(hello, tcp=tcp, payload=b"\x16")
    put(folder / f"{KEEP_ALIVE}.pcap", [probe, *segments[begin:]])
    known = misleading.stored_line(stored)
    fields = {field: known[field] for field in misleading.OF_TLS if field in known}
    source = f"{stored.stem}, tshark; a keep-alive's byte is none of the stream (RFC 9293, 3.8.4)"
    return [expected.line(fields, {source: [*fields, "gap"]}, ["gap"])]


def record(folder: Path, name: str) -> list[Line]:
    if name == ALONE:
        return of_server(folder)
    if name == KEEP_ALIVE:
        return keep_alive(folder)
    return first_byte(folder, name) if name in FIRST_BYTE else lost(folder, name)
