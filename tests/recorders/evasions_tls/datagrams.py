"""Captures of DTLS 1.2 with datagrams injected between two live peers, which complete their
handshake or don't."""

from __future__ import annotations

import tempfile
import time
from collections.abc import Callable
from pathlib import Path

from tests.recorders import peers
from tests.oracle import wanted
from tests.support import packets
from tests.recorders.evasions_tls import around, dtls, outputs
from tests.recorders.evasions_tls.dtls import (
    CLIENT,
    HELLO,
    RELAY_PORT,
    SERVER,
    SERVER_HELLO,
    SERVER_PORT,
)
from tests.support.shapes import Line

OPENSSL, GNUTLS = "openssl", "gnutls"
NAME, FORGED = "example.test", "forged.test."
PRIORITY = "--priority NORMAL:-VERS-ALL:+VERS-DTLS1.2"
SERVERS = {
    OPENSSL: f"openssl s_server -accept {peers.HOST}:{SERVER_PORT} -dtls1_2 -cert ec.pem -key ec.key -servername {NAME} -cert2 ec.pem -key2 ec.key -state",
    GNUTLS: f"gnutls-serv -p {SERVER_PORT} --udp --echo {PRIORITY} --disable-client-cert --x509certfile ec.pem --x509keyfile ec.key "
    f"--sni-hostname {NAME} --sni-hostname-fatal",
}
CLIENTS = {
    OPENSSL: f"openssl s_client -connect {peers.HOST}:{RELAY_PORT} -dtls1_2 -servername {NAME} -state",
    GNUTLS: f"gnutls-cli -p {RELAY_PORT} --udp --insecure --sni-hostname {NAME} {PRIORITY} {peers.HOST}",
}
IS_DONE = {OPENSSL: "SSL_connect:SSLv3/TLS read finished", GNUTLS: "Handshake was completed"}
HAS_FAILED = ["errno=", ":error:", "Fatal error", "failed"]
# The client is GnuTLS's if the handshake completes all the same, else OpenSSL's. The server is
# OpenSSL's.
ENDS_GNUTLS = {
    "cut_alone",
    "cut_in_header",
    "empty_datagram",
    "halves_other_type_first",
    "halves_other_length",
    "halves_other_length_first",
    "halves_other_bytes",
    "other_version",
}
STORED = [
    *((name, CLIENT, OPENSSL) for name in around.ALL),
    *((name, SERVER, OPENSSL if name in ENDS_GNUTLS else GNUTLS) for name in around.ALL),
    *(
        (name, SERVER, OPENSSL)
        for name in (
            "in_two_datagrams",
            "change_in_front",
            "change_behind",
            "next_message",
            "fragment_beyond",
        )
    ),
    *((name, SERVER, GNUTLS) for name in ("cut_alone", "other_version")),
    ("fragment_beyond", CLIENT, GNUTLS),
]
# Fields that count captured datagrams: those that a peer drops may count or not.
COUNTS = {
    f"{side}_{what}" for side in ("orig", "resp") for what in ("pkts", "bytes", "records")
} | {"duration"}


class Rule:
    """Injects datagrams around the first one with the message."""

    def __init__(self, name: str, side: str) -> None:
        self.place, self.side, self.is_placed = around.ALL[name], side, False

    def __call__(self, sender: str, datagram: bytes) -> list[bytes]:
        if sender == self.side and not self.is_placed:
            for record, message in dtls.messages(datagram)[:1]:
                if (
                    (message.kind, message.number) == (HELLO, 1)
                    if sender == CLIENT
                    else message.kind == SERVER_HELLO
                ):
                    self.is_placed = True
                    return self.place(datagram, record, message)
        return [datagram]


class Placed:
    """The datagrams that were sent in place of one."""

    def __init__(self, datagram: bytes, parts: list[bytes]) -> None:
        self.datagram, self.left, self.is_taken = datagram, list(parts), False

    def takes(self, is_answered: bool) -> bool:
        """Returns whether the next part is the one that the peer accepted: the whole datagram, the
        last of its fragments, or the one that was answered."""
        part = self.left.pop(0)
        if self.is_taken or not (
            self.datagram in part
            or (
                not any(self.datagram in other for other in self.left)
                and (is_answered or not self.left)
            )
        ):
            return False
        self.is_taken = True
        return True


def untouched(
    segments: list[packets.Segment], handed: list[tuple[str, bytes, list[bytes]]], side: str
) -> list[packets.Segment]:
    """Returns the segments, with the original datagrams in place of the relay's."""
    found, waiting = [], {CLIENT: [], SERVER: []}
    port = (SERVER_PORT if side == CLIENT else RELAY_PORT).to_bytes(2, "big")
    for sender, datagram, parts in handed:
        waiting[sender].append(Placed(datagram, parts if sender == side else [datagram]))
    for one, following in zip(segments, [*segments[1:], None]):
        queue = waiting[CLIENT if one.destination[1] == port else SERVER]
        placed = queue[0]
        if placed.takes(following is not None and following.source != one.source):
            head = one.tcp[:4] + (len(placed.datagram) + 8).to_bytes(2, "big") + one.tcp[6:]
            found.append(packets.Segment(one.time, one.front, head, placed.datagram))
        if not placed.left:
            queue.pop(0)
    return found


def without_repeats(segments: list[packets.Segment]) -> list[packets.Segment]:
    """Returns the segments except those with only fragments of earlier messages."""
    found, known = [], {}
    for one in segments:
        parts = dtls.messages(one.payload)
        is_new = len(parts) < len(dtls.records(one.payload))
        for _, message in parts:
            bytes_ = set(range(message.offset, message.offset + max(len(message.body), 1)))
            before = known.setdefault((one.source, message.kind, message.number), set())
            is_new |= not bytes_ <= before
            before |= bytes_
        if is_new:
            found.append(one)
    return found


def line_of(segments: list[packets.Segment], port: int | None) -> Line:
    """Returns tshark's line of a capture."""
    with tempfile.NamedTemporaryFile(suffix=".pcap") as file:
        Path(file.name).write_bytes(packets.pcap([(one.time, one.frame()) for one in segments]))
        [found] = wanted.lines(file.name, port, udp=True)
    return found


def wanted_of(
    segments: list[packets.Segment],
    handed: list[tuple[str, bytes, list[bytes]]],
    side: str,
    seen: Line,
) -> list[Line]:
    """Returns the expected lines: if both sides completed the handshake, the line of the datagrams
    that they accepted; else only the fields that are certain."""
    port = SERVER_PORT if side == CLIENT else RELAY_PORT
    taken = without_repeats(untouched(segments, handed, side))
    found = line_of(taken, port)
    ends = {
        field: found[field]
        for field in ("id.orig_h", "id.orig_p", "id.resp_h", "id.resp_p", "proto")
    }
    if seen["client"] == seen["server"] == "completed":
        fields = {field: value for field, value in found.items() if field not in COUNTS}
        certain = {
            "server_name": NAME,
            "version": "DTLSv12",
            "established": True,
            "outcome": "full",
        }
        if any(found[field] != value for field, value in certain.items()):
            raise ValueError(f"tshark has other fields: {found}")
        others = [field for field in fields if field not in (*certain, *ends)]
        sources = {"the first packet": list(ends), "seen": list(certain)}
        sources["tshark, of the datagrams that the peers took"] = [*others, "last_alert", "gap"]
        return [outputs.line(fields, ["last_alert", "gap"], sources)]
    fields = {**ends, "server_name": NAME, "established": False}
    sources = {"the first packet": list(ends), "seen": ["established", "last_alert"]}
    sources["RFC 6347, 4.2.1: the hello that was answered first"] = ["server_name"]
    if not seen["alerts"]:
        return [outputs.line(fields, ["last_alert"], sources)]
    fields["last_alert"] = wanted.ALERTS[seen["alerts"][-1][2]]
    return [outputs.line(fields, [], sources)]


def run(
    work: Path,
    file: Path,
    server: str,
    client: str,
    relay: dtls.Relay,
    port: int,
    words: bytes = b"hello from the client\n",
) -> tuple[str, str]:
    """Runs one connection. Returns what the server and the client printed, and whether the client
    completed its handshake."""
    with peers.Dump(file, f"udp port {port}"):
        other = peers.Peer(work, "stdbuf -oL " + SERVERS[server], "server")
        time.sleep(0.5)
        relay.start()
        own = peers.Peer(work, "stdbuf -oL " + CLIENTS[client], "client")
        own.waits_for([IS_DONE[client], *HAS_FAILED], 4)
        time.sleep(0.1)
        own.tell(words)
        (own if server == GNUTLS else other).waits_for([words.decode().strip()], 1)
        own.end(1)
        other.kill()
        relay.end()
    return other.output(), own.output()


def record(
    work: Path, folder: Path, name: str, side: str, peer: str
) -> tuple[Path, list[Line], Line]:
    """Records one. Returns its file, the expected lines, and what the peers did."""
    file = folder / f"dtls_{side}_{name}_{peer}.pcap"
    server, client = (peer, OPENSSL) if side == CLIENT else (OPENSSL, peer)
    relay = dtls.Relay(Rule(name, side))
    port = SERVER_PORT if side == CLIENT else RELAY_PORT
    by_server, by_client = run(work, file, server, client, relay, port)
    seen = {
        "client": "completed" if IS_DONE[client] in by_client else outputs.fault(by_client),
        "server": "completed"
        if "CIPHER is" in by_server or "hello from the client" in by_client + by_server
        else outputs.fault(by_server),
        "name": outputs.host(by_server),
        "data": "hello from the client" in (by_server if server == OPENSSL else by_client),
    }
    segments = packets.read(file.read_bytes())
    seen["alerts"] = outputs.alerts(segments)
    if not relay.rule.is_placed:
        raise ValueError(f"{file.name}: not placed")
    return file, wanted_of(segments, relay.handed, side, seen), seen


def captures() -> dict[str, Callable[[Path, Path], tuple[Path, list[Line], Line]]]:
    return {
        f"dtls_{side}_{name}_{peer}": lambda work, folder, of=(name, side, peer): record(
            work, folder, *of
        )
        for name, side, peer in STORED
    }
