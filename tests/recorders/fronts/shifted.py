"""Captures derived from others: connections without their beginning, DTLS after CAPWAP headers, and
FINs behind segments that were sent later. Also DTLS of version 0x0100."""

from __future__ import annotations

import json
import time
from pathlib import Path

from tests.recorders import peers
from tests.oracle import wanted
from tests.support import packets
from tests.recorders.fronts import expected
from tests.support.shapes import Line

TOP = Path(__file__).resolve().parents[3]
STORED = TOP / "crates" / "tlslog" / "data"
# The source capture, and how many packets at its start are left out: all up to the client's last
# handshake records.
CUT = {
    "late_alerts_tls10": ("openssl_tls10", 10),
    "late_alerts_tls11": ("openssl_tls11", 10),
    "late_alerts_tls12": ("openssl_ecdhe", 10),
    "late_alerts_gnutls": ("gnutls_ecdhe", 12),
}
WITH_DATA = {"late_alerts_behind_data": "postgres"}
CAPWAP = {"capwap_openssl": "openssl_dtls12_cookie", "capwap_gnutls": "gnutls_dtls12"}
CONTROL = 5246  # The port of CAPWAP's control channel (RFC 5415, section 3.1).
HEADER = bytes.fromhex(
    "01 00 00 00"
)  # Version 0, type 1: DTLS; the rest is reserved (RFC 5415, sections 4.1 and 4.2).
OLD = "dtls_0100"
OLD_PRIORITY = "NORMAL:-VERS-ALL:+VERS-DTLS0.9:-CIPHER-ALL:+AES-128-CBC:-KX-ALL:+RSA:-MAC-ALL:+SHA1:-SIGN-ALL:+SIGN-RSA-SHA1:%COMPAT"
OLD_KEYS = "--disable-client-cert --x509certfile rsa.pem --x509keyfile rsa.key"
# A capture of captures/evasions, the place of a FIN, and that of the segment behind which it comes:
# one of its sender, whose number is the next.
FINS = {"fin_of_server_behind_its_ack": ("fin_again_in_time_wait", 12, 14)}
NAMES = [*CUT, *WITH_DATA, *CAPWAP, *FINS, OLD]
PORT = 14433


def put(file: Path, segments: list[packets.Segment]) -> None:
    file.write_bytes(packets.pcap([(one.time, one.frame()) for one in segments]))


def stored_hello() -> bytes:
    """Returns the record of a stored ClientHello."""
    return next(
        one.payload
        for one in packets.read((STORED / "openssl_tls13.pcap").read_bytes())
        if one.payload
    )


def of_late(file: Path, port: int) -> list[Line]:
    """The captured records are encrypted, so no alert in them can be read."""
    [found] = wanted.lines(file, port)
    if "last_alert" in found:
        raise ValueError(f"an alert in the clear: {found}")
    kept = """
        ts id.orig_h id.orig_p id.resp_h id.resp_p proto duration orig_pkts resp_pkts orig_bytes resp_bytes orig_records resp_records
    """.split()
    fields = {field: found[field] for field in kept} | {
        "established": False,
        "outcome": "no_handshake",
    }
    absent = ["last_alert", "version", "client_version"]
    sources = {
        "tshark": [*kept, *absent],
        "docs/HANDSHAKES.md: nothing is before a ClientHello": ["established", "outcome"],
    }
    return [expected.line(fields, sources, absent)]


def cut(folder: Path, name: str) -> list[Line]:
    file = folder / f"{name}.pcap"
    if name in CUT:
        stored, count = CUT[name]
        segments = packets.read((STORED / f"{stored}.pcap").read_bytes())[count:]
        port = PORT
    else:
        segments = packets.read((folder / f"{WITH_DATA[name]}.pcap").read_bytes())
        data = next(at for at, one in enumerate(segments) if one.payload[:1] == b"\x17")
        segments, port = segments[data:], 5432
    put(file, segments)
    return of_late(file, port)


def capwap(folder: Path, name: str) -> list[Line]:
    """Adds the header to each datagram of a stored capture, and sets the server's port to
    CAPWAP's."""
    file = folder / f"{name}.pcap"

    def wrapped(one: packets.Segment) -> packets.Segment:
        ports = [
            CONTROL if number == PORT else number
            for number in (int.from_bytes(one.tcp[at : at + 2], "big") for at in (0, 2))
        ]
        payload = HEADER + one.payload
        udp = b"".join(
            part.to_bytes(2, "big") for part in (*ports, 8 + len(payload), 0)
        )  # A checksum of 0 means none (RFC 768).
        return packets.replace(one, tcp=udp, payload=payload)

    before = packets.read((TOP / "captures" / "dtls" / f"{CAPWAP[name]}.pcap").read_bytes())
    put(file, [wrapped(one) for one in before])
    time_of = before[0].time / 1_000_000
    lines = map(json.loads, (TOP / "captures" / "dtls" / "lines").read_text().splitlines())
    [fields] = [line for line in lines if abs(line["ts"] - time_of) < 0.0000015]
    fields |= {"id.resp_p": CONTROL}
    for side in ("orig", "resp"):
        fields[f"{side}_bytes"] += len(HEADER) * fields[f"{side}_pkts"]
    [found] = wanted.lines(file, udp=True)
    if found != {**fields, "duration": found["duration"], "ts": found["ts"]}:
        raise ValueError(
            f"tshark has other fields: {[(key, found.get(key), fields[key]) for key in fields if found.get(key) != fields[key]]}"
        )
    return [
        expected.line(
            fields,
            {"tshark, and captures/dtls/lines": [*fields, "last_alert", "gap"]},
            ["last_alert", "gap"],
        )
    ]


def late_fin(folder: Path, name: str) -> list[Line]:
    """Moves a FIN behind a later segment, as a capture of two interfaces may have it."""
    source, fin, behind = FINS[name]
    evasions = TOP / "captures" / "evasions"
    segments = packets.read((evasions / f"{source}.pcap").read_bytes())
    moved, later = segments[fin], segments[behind]
    if not moved.flags & packets.FIN or later.sequence != moved.sequence + 1:
        raise ValueError("other segments")
    order = [*segments[:fin], *segments[fin + 1 : behind + 1], moved, *segments[behind + 1 :]]
    times = sorted(one.time for one in segments)
    put(folder / f"{name}.pcap", [packets.replace(one, time=at) for one, at in zip(order, times)])
    known = json.loads((evasions / "wanted.json").read_text())["captures"]
    [stored] = [one["lines"] for one in known if one["capture"] == f"{source}.pcap"]
    kept = """
        id.orig_h id.orig_p id.resp_h id.resp_p server_name version cipher established outcome
        ssl_history orig_bytes resp_bytes cert_chain_fps
    """.split()
    fields = {field: stored[0][field] for field in kept}
    source_of = f"captures/evasions/{source}: a FIN is no byte, wherever it is (RFC 9293, 3.4)"
    return [expected.line(fields, {source_of: [*kept, "gap"]}, ["gap"])]


def old(work: Path, folder: Path) -> list[Line]:
    """Records GnuTLS's peers with version 0x0100, which GnuTLS calls DTLS 0.9, and tshark DTLS 1.0
    of OpenSSL before 0.9.8f."""
    file = folder / f"{OLD}.pcap"
    server = f"gnutls-serv -p {PORT} --udp --nocookie --echo --priority {OLD_PRIORITY} {OLD_KEYS}"
    client = f"gnutls-cli -p {PORT} --udp --insecure --sni-hostname example.test --priority {OLD_PRIORITY} {peers.HOST}"
    with peers.Dump(file, f"udp port {PORT}"):
        other = peers.Peer(work, server, "server")
        time.sleep(0.5)
        own = peers.Peer(work, client, "client")
        is_done = own.waits_for(["Handshake was completed"], 5)
        own.tell(b"hello from the client\n")
        own.waits_for(["hello from the client"], 1)
        own.end(1)
        other.kill()
    seen = [line.strip("- ") for line in own.output().splitlines() if "Description" in line]
    print(OLD, file.stat().st_size, "bytes", seen, flush=True)
    if not is_done or "DTLS0.9" not in seen[0]:
        raise ValueError(f"another version: {seen}")
    wanted.VERSIONS[0x100] = "0x0100"
    [found] = wanted.lines(file, PORT, udp=True)
    certain = {
        "version": "0x0100",
        "server_name": "example.test",
        "established": True,
        "outcome": "full",
    }
    if any(found[field] != value for field, value in certain.items()):
        raise ValueError(f"tshark has other fields: {found}")
    fields = {field: value for field, value in found.items() if field != "ja4"}
    sources = {
        "seen": list(certain),
        "tshark": [*(field for field in fields if field not in certain), "last_alert", "gap"],
    }
    return [expected.line(fields, sources, ["last_alert", "gap"])]


def record(work: Path, folder: Path, name: str) -> list[Line]:
    if name == OLD:
        return old(work, folder)
    if name in FINS:
        return late_fin(folder, name)
    return capwap(folder, name) if name in CAPWAP else cut(folder, name)
