"""Captures of TLS with bytes injected into one peer's stream: unexpected hellos, and other versions
in record headers."""

from __future__ import annotations

import subprocess
import tempfile
import time
from collections.abc import Callable, Iterable
from pathlib import Path

from tests.recorders import peers
from tests.oracle import wanted, wanted_hellos
from tests.support import packets
from tests.recorders.evasions_tls import outputs, tls
from tests.recorders.evasions_tls.tls import (
    CHANGE,
    CLIENT,
    HELLO,
    RELAY_PORT,
    SERVER,
    SERVER_HELLO,
    SERVER_PORT,
)
from tests.support.shapes import Line

OPENSSL, GNUTLS = "openssl", "gnutls"
NAME, FORGED = b"example.test", b"forged.test."
V12, V13 = "TLSv12", "TLSv13"
OF_OPENSSL = {V12: "-tls1_2", V13: "-tls1_3"}
OF_GNUTLS = {V12: "NORMAL:-VERS-ALL:+VERS-TLS1.2", V13: "NORMAL:-VERS-ALL:+VERS-TLS1.3"}
IS_DONE = {OPENSSL: "SSL_connect:SSLv3/TLS read finished", GNUTLS: "Handshake was completed"}
HAS_FAILED = ["errno=", ":error:", "Fatal error", "failed", "peer has closed"]


def server_of(peer: str, version: str) -> str:
    if peer == GNUTLS:
        return (
            f"gnutls-serv -p {SERVER_PORT} --echo --priority {OF_GNUTLS[version]} --disable-client-cert --x509certfile ec.pem --x509keyfile ec.key "
            f"--sni-hostname {NAME.decode()} --sni-hostname-fatal"
        )
    keys = f"-cert ec.pem -key ec.key -servername {NAME.decode()} -cert2 ec.pem -key2 ec.key"
    return (
        f"openssl s_server -accept {peers.HOST}:{SERVER_PORT} {OF_OPENSSL[version]} {keys} -state"
    )


def client_of(peer: str, version: str) -> str:
    if peer == GNUTLS:
        return f"gnutls-cli -p {RELAY_PORT} --insecure --sni-hostname {NAME.decode()} --priority {OF_GNUTLS[version]} {peers.HOST}"
    return f"openssl s_client -connect {peers.HOST}:{RELAY_PORT} {OF_OPENSSL[version]} -servername {NAME.decode()} -state"


class Rule:
    """Injects bytes beside records. Keeps the client's hello, from which it forges others."""

    def __init__(self, name: str, side: str) -> None:
        self.name, self.side, self.hello, self.put, self.is_placed = name, side, None, [], False
        self.pause = 0 if name == "hello_behind_hello" else 0.02

    def __call__(self, sender: str, record: bytes) -> list[bytes]:
        if sender == CLIENT and tls.is_message(record, HELLO) and not self.hello:
            self.hello = record
        if self.is_placed or sender != self.side:
            return [record]
        if self.name.startswith("version"):
            return self.with_version(record, int(self.name[-4:], 16))
        return getattr(self, self.name)(record)

    def note(self, made: bytes) -> bytes:
        self.is_placed = True
        self.put.append(made)
        return made

    def forged(self, version: bytes = b"\3\3") -> bytes:
        """Returns the hello with another name, in a record of this version: by default that of all
        records after the hellos, in TLS 1.2 and 1.3."""
        if NAME not in self.hello:
            raise ValueError("no name")
        return self.hello[:1] + version + self.hello[3:].replace(NAME, FORGED)

    def hello_at_once(self, record: bytes) -> list[bytes]:
        """Adds a second hello in the same segment as the first."""
        return [record + self.note(self.forged())] if tls.is_message(record, HELLO) else [record]

    def hello_behind_hello(self, record: bytes) -> list[bytes]:
        """Adds a second hello in a separate segment, before the answer."""
        return [record, self.note(self.forged())] if tls.is_message(record, HELLO) else [record]

    def hello_behind_answer(self, record: bytes) -> list[bytes]:
        """Adds the hello before the client's next record, which follows the ServerHello."""
        return [record] if tls.is_message(record, HELLO) else [self.note(self.forged()), record]

    def hello_behind_answer_0301(self, record: bytes) -> list[bytes]:
        """Adds the hello at the same place, with the record version of a first hello."""
        return (
            [record] if tls.is_message(record, HELLO) else [self.note(self.forged(b"\3\1")), record]
        )

    def hello_behind_change(self, record: bytes) -> list[bytes]:
        """Adds the hello unencrypted after the client's ChangeCipherSpec."""
        return [record, self.note(self.forged())] if record[0] == CHANGE else [record]

    def hello_by_server(self, record: bytes) -> list[bytes]:
        """Adds the client's hello before the server's first record."""
        return [self.note(self.forged()), record]

    def server_hello_by_client_first(self, record: bytes) -> list[bytes]:
        """Adds it before the client's hello."""
        return [self.note(tls.STRAY_SERVER_HELLO), record]

    def server_hello_by_client(self, record: bytes) -> list[bytes]:
        """Adds it right after the client's hello."""
        return (
            [record, self.note(tls.STRAY_SERVER_HELLO)]
            if tls.is_message(record, HELLO)
            else [record]
        )

    def with_version(self, record: bytes, number: int) -> list[bytes]:
        """Returns that side's hello with another version in its record header."""
        kind = HELLO if self.side == CLIENT else SERVER_HELLO
        if not tls.is_message(record, kind):
            return [record]
        self.is_placed = True
        return [record[:1] + number.to_bytes(2, "big") + record[3:]]


# What is injected, by whom, the version, and the peer that receives it; the other is OpenSSL's.
STORED = [
    ("hello_at_once", CLIENT, V12, OPENSSL),
    ("hello_at_once", CLIENT, V13, OPENSSL),
    ("hello_at_once", CLIENT, V13, GNUTLS),
    ("hello_behind_hello", CLIENT, V12, GNUTLS),
    ("hello_behind_hello", CLIENT, V13, OPENSSL),
    ("hello_behind_answer", CLIENT, V12, OPENSSL),
    ("hello_behind_answer", CLIENT, V13, OPENSSL),
    ("hello_behind_answer_0301", CLIENT, V12, OPENSSL),
    ("hello_behind_change", CLIENT, V12, OPENSSL),
    ("hello_behind_change", CLIENT, V13, OPENSSL),
    ("hello_behind_change", CLIENT, V13, GNUTLS),
    ("hello_by_server", SERVER, V12, OPENSSL),
    ("hello_by_server", SERVER, V13, GNUTLS),
    ("server_hello_by_client_first", CLIENT, V12, OPENSSL),
    ("server_hello_by_client", CLIENT, V12, OPENSSL),
    ("server_hello_by_client", CLIENT, V13, OPENSSL),
    ("version_0300", CLIENT, V13, OPENSSL),
    ("version_0300", SERVER, V12, GNUTLS),
    ("version_0309", CLIENT, V12, OPENSSL),
    ("version_0309", SERVER, V13, OPENSSL),
    ("version_03ff", CLIENT, V13, GNUTLS),
    ("version_03ff", SERVER, V12, OPENSSL),
]
OF_HELLOS = ["version", "cipher", "curve", "server_name", "next_protocol", *wanted_hellos.ORDER]


def run(
    work: Path, file: Path, rule: Rule, version: str, server: str, client: str
) -> tuple[str, str]:
    port = SERVER_PORT if rule.side == CLIENT else RELAY_PORT
    relay = tls.Relay(rule)
    other = peers.Peer(work, "stdbuf -oL " + server_of(server, version), "server")
    time.sleep(0.5)
    with peers.Dump(file, f"tcp port {port}"):
        relay.start()
        own = peers.Peer(work, "stdbuf -oL " + client_of(client, version), "client")
        own.waits_for([IS_DONE[client], *HAS_FAILED], 3)
        time.sleep(0.2)
        own.tell(b"hello from the client\n")
        (own if server == GNUTLS else other).waits_for(["hello from the client"], 0.7)
        own.end(1)
        time.sleep(0.1)
        other.kill()
        relay.end()
    return other.output(), own.output()


def alerts(file: Path, port: int) -> list[str]:
    """Returns tshark's names of the unencrypted alerts."""
    command = [
        "tshark",
        "-r",
        str(file),
        "-d",
        f"tcp.port=={port},tls",
        "-Y",
        "tls.alert_message.desc",
        "-T",
        "fields",
        "-e",
        "tls.alert_message.desc",
    ]
    found = subprocess.run(
        command, stdout=subprocess.PIPE, stderr=subprocess.DEVNULL, text=True, check=True
    ).stdout.split()
    return [wanted.ALERTS[int(one)] for one in found]


def line_of(segments: list[packets.Segment], port: int) -> Line:
    with tempfile.NamedTemporaryFile(suffix=".pcap") as file:
        Path(file.name).write_bytes(packets.pcap([(one.time, one.frame()) for one in segments]))
        [found] = wanted.lines(file.name, port)
    return found


def to_the_answer(segments: list[packets.Segment], put: Iterable[bytes]) -> list[packets.Segment]:
    """Returns the segments up to the server's first data without the injected bytes: the hello that
    was answered, and its answer."""
    found = []
    for one in segments:
        kept = one
        for made in put:
            kept = packets.replace(kept, payload=kept.payload.replace(made, b""))
        if kept.payload or not one.payload:
            found.append(kept)
        if kept.payload and int.from_bytes(one.source[1], "big") in (SERVER_PORT, RELAY_PORT):
            return found
    raise ValueError("no answer")


def is_in_front(segments: list[packets.Segment], made: bytes) -> bool:
    """Returns whether the injected bytes came before the server's first data."""
    data = [one for one in segments if one.payload]
    answer = next(
        at
        for at, one in enumerate(data)
        if int.from_bytes(one.source[1], "big") in (SERVER_PORT, RELAY_PORT)
    )
    return any(made in one.payload for one in data[:answer])


def with_usual_versions(segments: list[packets.Segment], number: int) -> list[packets.Segment]:
    """Restores the version that the peer wrote in the hello's record."""

    def usual(one: packets.Segment) -> packets.Segment:
        head = one.payload[:3]
        if head != bytes([tls.HANDSHAKE]) + number.to_bytes(2, "big"):
            return one
        return packets.replace(
            one,
            payload=head[:1] + (b"\3\1" if one.payload[5] == HELLO else b"\3\3") + one.payload[3:],
        )

    return [usual(one) for one in segments]


def wanted_of(file: Path, rule: Rule, version: str, seen: Line) -> list[Line]:
    port = SERVER_PORT if rule.side == CLIENT else RELAY_PORT
    segments = packets.read(file.read_bytes())
    if rule.name.startswith("version"):
        fields = line_of(with_usual_versions(segments, int(rule.name[-4:], 16)), port)
        certain = {
            "server_name": NAME.decode(),
            "version": version,
            "established": True,
            "outcome": "tls13" if version == V13 else "full",
        }
        if (
            seen["client"] != "completed"
            or seen["server"] != "completed"
            or any(fields[field] != value for field, value in certain.items())
        ):
            raise ValueError(f"tshark has other fields: {fields}, {seen}")
        others = [field for field in fields if field not in certain]
        sources = {
            "seen": list(certain),
            "tshark, with the usual version": [*others, "last_alert", "gap"],
        }
        return [outputs.line(fields, ["last_alert", "gap"], sources)]
    ends = {
        "id.orig_h": peers.HOST,
        "id.orig_p": int.from_bytes(segments[0].source[1], "big"),
        "id.resp_h": peers.HOST,
        "id.resp_p": port,
        "proto": "tcp",
    }
    if rule.name in ("hello_at_once", "hello_behind_hello") and not is_in_front(
        segments, rule.put[0]
    ):
        raise ValueError("the server was faster")
    clear = alerts(file, port)
    fields, sources = dict(ends), {"the first packet": list(ends)}
    absent = [] if clear else ["last_alert"]
    if clear:
        fields |= {"last_alert": clear[-1], "outcome": "broken_off", "established": False}
        sources["seen"] = ["last_alert", "outcome", "established"]
    else:
        fields["established"] = True
        sources["seen"] = ["established", "last_alert"]
    if rule.name == "hello_by_server":
        fields["server_name"] = NAME.decode()
        sources["RFC 8446, 4.1.2 and 4.1.3: the server says no ClientHello"] = ["server_name"]
    elif rule.name == "server_hello_by_client_first":
        absent += ["version", "cipher", "server_version"]
        sources["RFC 8446, 4.1.3: the client says no ServerHello"] = [
            "version",
            "cipher",
            "server_version",
        ]
    else:
        found = line_of(to_the_answer(segments, rule.put), port)
        said_there = {field: found[field] for field in OF_HELLOS if field in found}
        if said_there["server_name"] != NAME.decode() or seen["name"] not in (None, NAME.decode()):
            raise ValueError(f"another name: {said_there}, {seen}")
        fields |= said_there
        sources["tshark, of the hello that was answered and of its answer"] = list(said_there)
        if not clear and rule.name.startswith(("hello_behind_answer", "hello_behind_change")):
            fields["outcome"] = "tls13"
            sources["docs/HANDSHAKES.md: every message keeps the states of TLS 1.3"] = ["outcome"]
    return [outputs.line(fields, absent, sources)]


def record(
    work: Path, folder: Path, name: str, side: str, version: str, peer: str
) -> tuple[Path, list[Line], Line]:
    file = folder / f"tls_{name}_{side}_{version.lower()}_{peer}.pcap"
    server, client = (peer, OPENSSL) if side == CLIENT else (OPENSSL, peer)
    rule = Rule(name, side)
    by_server, by_client = run(work, file, rule, version, server, client)
    if not rule.is_placed:
        raise ValueError(f"{file.name}: not placed")
    seen = {
        "client": "completed" if IS_DONE[client] in by_client else outputs.fault(by_client),
        "server": "completed"
        if "CIPHER is" in by_server or "hello from the client" in by_client + by_server
        else outputs.fault(by_server),
        "name": outputs.host(by_server),
        "data": "hello from the client" in (by_server if server == OPENSSL else by_client),
    }
    seen["alerts in the clear"] = alerts(file, SERVER_PORT if side == CLIENT else RELAY_PORT)
    return file, wanted_of(file, rule, version, seen), seen


def captures() -> dict[str, Callable[[Path, Path], tuple[Path, list[Line], Line]]]:
    return {
        f"tls_{name}_{side}_{version.lower()}_{peer}": lambda work, folder, of=(
            name,
            side,
            version,
            peer,
        ): record(work, folder, *of)
        for name, side, version, peer in STORED
    }
