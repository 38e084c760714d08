"""Captures of TLS behind bytes of no dialogue, where a search has to find it: live peers (Python's
ssl) that speak a made-up protocol first, and transfers in which each side sends recorded TLS."""

from __future__ import annotations

import functools
import json
import socket
import ssl
import subprocess
from pathlib import Path

from tests.oracle import wanted
from tests.recorders import peers
from tests.recorders.fronts import expected, misleading, plain
from tests.support import packets
from tests.support.shapes import Line

PORT = 7171
NAME = "example.test"
V12, V13 = ssl.TLSVersion.TLSv1_2, ssl.TLSVersion.TLSv1_3
# What both sides say in turn, each 5 bytes or more: tshark joins fewer with what follows.
Turns = list[tuple[str, bytes]]
# What looks like the record of a ClientHello, but for its version 5.0.
NO_HELLO = bytes.fromhex("16 03 01 0010 01 00000c 0500") + bytes(10)
LINES = [
    ("s", b"READY box/1 4f21\r\n"),
    ("c", b"OPEN store.example.test secure\r\n"),
    ("s", b"AGREED secure\r\nlimit=65536\r\n\r\n"),
]
OTHER_LINES = [
    ("c", b"OPEN box/1\n"),
    ("s", b"WHO 77\n"),
    ("c", b"ME station-7 room=16030100\n"),
    ("s", b"GO AHEAD\n"),
]
BINARY = [
    ("c", b"\xc5\x01\xff\x20" + NO_HELLO),
    ("s", b"\xc5\x81\xff" + bytes(range(256))),
    ("c", b"\xc5\x02\xff" + b"\x16\x03" * 12),
    ("s", b"\xc5\x82\xff\x00\x00\x00"),
]
SERVER_FIRST = [
    ("s", b"\xd7\x00\xff\x01" + b"\x15\x03\x03" * 40),
    ("c", b"\xd7\x80\xff\x02\x00\x00"),
]
# What the peers say in front of TLS, and the highest version.
LIVE: dict[str, tuple[Turns, ssl.TLSVersion]] = {
    "search_lines": (LINES, V13),
    "search_lines_tls12": (OTHER_LINES, V12),
    "search_binary": (BINARY, V13),
    "search_binary_tls12": (SERVER_FIRST, V12),
    "search_client_alone": ([("c", b"\xc5BOX" + bytes(range(28)))], V13),
}
# The source capture, and the client's packet with data at which the capture begins.
UNOPENED = {
    "search_unopened": ("search_binary", 0),
    "search_unopened_tls12": ("search_lines_tls12", 0),
    "search_in_the_middle": ("search_binary", 1),
}
# The client's first bytes and the server's first bytes of two stored captures, which don't fit:
# another suite and session id, or a version that isn't offered.
UNFIT = {
    "search_other_suite": ("openssl_rsa", "gnutls_ecdhe"),
    "search_other_suite_no_session": ("openssl_rsa", "openssl_ecdhe"),
    "search_other_version": ("openssl_tls10", "openssl_tls11"),
    "search_other_version_tls12": ("gnutls_tls13", "openssl_ecdhe"),
    "search_other_version_tls13": ("openssl_ecdhe", "openssl_tls13"),
}
# The capture whose TLS follows.
FIT = {"search_hellos_fit": "openssl_ecdhe", "search_retry": "openssl_tls13_retry"}
ALERTED, BY_SESSION = "search_alert", "search_session_alone"
NAMES = [*LIVE, *UNOPENED, *UNFIT, *FIT, ALERTED, BY_SESSION]
SWAP = [("c", b"swap a.bin 1200\r\n"), ("s", b"swap b.bin 1400\r\n")]
# Suites of TLS 1.3 by number (RFC 8446, appendix B.4): the stored one, and one that isn't offered.
CHOSEN, UNOFFERED = bytes.fromhex("1302"), bytes.fromhex("1304")


def play(found: plain.Plain, turns: Turns, own: str) -> None:
    """Says a side's turns, and reads those of the other."""
    for side, text in turns:
        if side == own:
            found.say(text)
        else:
            found.take(len(text))


def run_client(turns: Turns) -> None:
    context = ssl.create_default_context()
    context.check_hostname, context.verify_mode = False, ssl.CERT_NONE
    with socket.create_connection((peers.HOST, PORT), timeout=30) as connection:
        play(plain.Plain(connection), turns, "c")
        with context.wrap_socket(connection, server_hostname=NAME) as talk:
            talk.sendall(b"GET / HTTP/1.0\r\n\r\n")
            while talk.recv(4096):
                pass


def preambles(file: Path) -> dict[str, int]:
    """Returns how many bytes each side sends in front of its first record, by tshark. A record is
    expected at the front of its segment."""
    command = ["tshark", "-r", str(file), "-d", f"tcp.port=={PORT},tls", "-Y", "tcp.len > 0"]
    command += "-T fields -e tcp.srcport -e tcp.len -e tls.record.content_type".split()
    rows = subprocess.run(command, capture_output=True, text=True, check=True).stdout.splitlines()
    counts, begun = {"orig_preamble_bytes": 0, "resp_preamble_bytes": 0}, set[str]()
    for row in rows:
        port, length, records = row.split("\t")
        side = "resp_preamble_bytes" if int(port) == PORT else "orig_preamble_bytes"
        begun |= {side} if records else set()
        counts[side] += 0 if side in begun else int(length)
    return counts


def live(work: Path, file: Path, turns: Turns, highest: ssl.TLSVersion) -> list[Line]:
    server = plain.Server(PORT, functools.partial(play, turns=turns, own="s"), work, highest)
    with peers.Dump(file, f"tcp port {PORT}"):
        server.start()
        run_client(turns)
        server.join(3)
    seen = server.seen
    counts = preambles(file)
    if (*counts.values(),) != (seen["orig_front"], seen["resp_front"]):
        raise ValueError(f"tshark has {counts} bytes in front, the peers {seen}")
    print(file.stem, file.stat().st_size, "bytes", counts, flush=True)
    return expected.of_front(file, PORT, seen, "search", PORT)


def unopened(folder: Path, file: Path, source: str, number: int) -> list[Line]:
    """Leaves out the packets in front of one with the client's data."""
    segments = packets.read((folder / f"{source}.pcap").read_bytes())
    client = segments[0].source
    said = [at for at, one in enumerate(segments) if one.payload and one.source == client]
    file.write_bytes(packets.pcap([(one.time, one.frame()) for one in segments[said[number] :]]))
    known = json.loads((folder / "wanted.json").read_text())[f"{source}.pcap"]["lines"][0]["line"]
    [found] = wanted.lines(file, PORT)
    seen = {one: known[one] for one in ("server_name", "version", "established", "found_by")}
    if any(found[one] != seen[one] for one in seen if one != "found_by"):
        raise ValueError(f"tshark has other fields: {found}")
    fields = found | preambles(file) | seen
    others = [one for one in fields if one not in seen]
    print(file.stem, file.stat().st_size, "bytes", preambles(file), flush=True)
    sources = {f"{source}, seen": list(seen), "tshark": [*others, "last_alert", "gap"]}
    return [expected.line(fields, sources, ["last_alert", "gap"])]


def stored(name: str) -> Path:
    return misleading.STORED.with_name(f"{name}.pcap")


def first_bytes(name: str, side: str) -> bytes:
    """Returns what a side of a stored capture sends first."""
    return next(part for one, part in misleading.stored_talk(stored(name)) if one == side)


def by_session(file: Path) -> list[Line]:
    """A ServerHello with a suite that isn't offered, and with the session id that is."""
    source = stored("openssl_tls13")
    client, (_, answer), *others = misleading.stored_talk(source)
    # Behind the headers of the record and of the message: the version, the random, the session id.
    at = 5 + 4 + 2 + 32 + 1 + 32
    if answer[at : at + 2] != CHOSEN:
        raise ValueError("another form of the ServerHello")
    answer = answer[:at] + UNOFFERED + answer[at + 2 :]
    tls = [client, ("s", answer), *others]
    talk = misleading.Talk(PORT, SWAP, "search", tls, source)
    [line] = misleading.record_talk(file, talk)
    fields = {one: value for one, value in line["line"].items() if one not in ("cipher", "ja3s")}
    sources = {
        source: [one for one in names if one in fields or one in line["absent"]]
        for source, names in line["from"].items()
    }
    sources["RFC 8446, B.4, by hand"] = ["cipher"]
    return [expected.line(fields | {"cipher": "TLS_AES_128_CCM_SHA256"}, sources, line["absent"])]


def record(work: Path, folder: Path, name: str) -> list[Line]:
    file = folder / f"{name}.pcap"
    if name in LIVE:
        return live(work, file, *LIVE[name])
    if name in UNOPENED:
        return unopened(folder, file, *UNOPENED[name])
    if name == BY_SESSION:
        return by_session(file)
    if name in UNFIT:
        client, server = UNFIT[name]
        tls = [("c", first_bytes(client, "c")), ("s", first_bytes(server, "s"))]
        return misleading.record_talk(file, misleading.Talk(PORT, SWAP, None, tls))
    if name in FIT:
        talk = misleading.Talk(PORT, SWAP, "search", None, stored(FIT[name]))
        return misleading.record_talk(file, talk)
    tls = [misleading.stored_talk()[0], ("s", misleading.ALERT)]
    return misleading.record_talk(file, misleading.Talk(PORT, SWAP[:1], "search", tls))
