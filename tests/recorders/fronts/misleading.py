"""Connections made of the bytes of stored ones: dialogues in front of TLS whose values look like a
hello, and dialogues behind which little TLS follows.

The dialogues are written by hand, by the RFC of each. The TLS is that of a stored capture, so the
line has that capture's fields, which tshark gave.
"""

from __future__ import annotations

import json
from dataclasses import dataclass
from pathlib import Path

from tests.recorders.fronts import expected
from tests.support import packets
from tests.support.shapes import Line

TOP = Path(__file__).resolve().parents[3]
STORED = TOP / "crates" / "tlslog" / "data" / "openssl_ecdhe.pcap"
CLIENT, SERVER = bytes([192, 0, 2, 10]), bytes([192, 0, 2, 20])
CLIENT_PORT = 40000
START = 1_795_600_000_000_000
ACK, PSH, FIN, SYN = 16, 8, 1, 2
# A ClientHello for fake.test, and without a byte of LF, CR or 0x3e, so that it fits into a line or a
# tag (RFC 8446, section 4.1.2; the name by RFC 6066, section 3).
NAME = bytes.fromhex("0000 000e 000c 00 0009") + b"fake.test"
BODY = b"\x03\x03" + b"r" * 32 + bytes.fromhex("00 0002 c02f 01 00")
FAKE_BODY = BODY + len(NAME).to_bytes(2, "big") + NAME
FAKE_MESSAGE = b"\x01" + len(FAKE_BODY).to_bytes(3, "big") + FAKE_BODY
FAKE = b"\x16\x03\x01" + len(FAKE_MESSAGE).to_bytes(2, "big") + FAKE_MESSAGE
# Fatal, handshake_failure (RFC 8446, section 6).
ALERT = bytes.fromhex("15 03 03 0002 02 28")
PROXY_2 = bytes.fromhex("0d0a0d0a000d0a515549540a 21 11") + (12 + 3 + len(FAKE)).to_bytes(2, "big")
PROXY_2 += CLIENT + SERVER + (CLIENT_PORT).to_bytes(2, "big") + (443).to_bytes(2, "big")
# PP2_TYPE_NOOP (the PROXY protocol, section 2.2.4).
PROXY_2 += b"\x04" + len(FAKE).to_bytes(2, "big") + FAKE


def element(tag: int, content: bytes) -> bytes:
    """Returns an element of BER with a length of one or two bytes (X.690, section 8.1.3)."""
    size = len(content)
    length = bytes([size]) if size < 128 else bytes([0x81, size])
    return bytes([tag]) + length + content


def message(number: int, operation: bytes) -> bytes:
    """Returns an LDAPMessage (RFC 4511, section 4.1.1)."""
    return element(0x30, element(0x02, bytes([number])) + operation)


# BindRequest with simple authentication, BindResponse: success; StartTLS and its success (RFC 4511,
# sections 4.2 and 4.14).
BIND = message(1, element(0x60, b"\x02\x01\x03\x04\x00" + element(0x80, FAKE)))
BOUND = message(1, element(0x61, b"\x0a\x01\x00\x04\x00\x04\x00"))
START_TLS = message(2, element(0x77, element(0x80, b"1.3.6.1.4.1.1466.20037")))
STARTED = message(2, element(0x78, b"\x0a\x01\x00\x04\x00\x04\x00"))
# Options of PRELOGIN ([MS-TDS], section 2.2.6.5): VERSION, ENCRYPTION, INSTOPT (an instance's name).
VERSION, ENCRYPTION, INSTANCE = 0, 1, 2
# Values of ENCRYPTION: on, and not supported.
ON, NOT_SUPPORTED = b"\1", b"\2"
PRELOGIN, ANSWER, LOGIN = 18, 4, 16


def options(*known: tuple[int, bytes]) -> bytes:
    """Returns options of PRELOGIN: the number, the place and the length of each, and their values."""
    place, heads = 5 * len(known) + 1, b""
    for number, value in known:
        heads += bytes([number]) + place.to_bytes(2, "big") + len(value).to_bytes(2, "big")
        place += len(value)
    return heads + b"\xff" + b"".join(value for _, value in known)


def packet(kind: int, content: bytes, status: int = 1) -> bytes:
    """Returns a packet of TDS ([MS-TDS], section 2.2.3.1). The status 1 is that of a message's last."""
    return bytes([kind, status]) + (len(content) + 8).to_bytes(2, "big") + b"\0\0\1\0" + content


@dataclass(frozen=True)
class Talk:
    """The port, what both sides say in turn before TLS, the name of the dialogue, and what of TLS
    follows: all, or other bytes in turn. And the capture whose fields hold."""

    port: int
    said: list[tuple[str, bytes]]
    found_by: str | None
    tls: list[tuple[str, bytes]] | None = None
    stored: Path = STORED


def stored_talk(stored: Path = STORED) -> list[tuple[str, bytes]]:
    """Returns the payloads of a stored capture's first connection, in turn."""
    segments = packets.read(stored.read_bytes())
    client = segments[0].source
    ends = segments[0].ends
    return [
        ("c" if one.source == client else "s", one.payload)
        for one in segments
        if one.payload and one.ends == ends
    ]


def hello_in_small_records() -> list[tuple[str, bytes]]:
    """Cuts the ClientHello into records of 1, 5 and the other bytes (RFC 8446, section 5.1)."""
    (_, first), *others = stored_talk()
    header, body = first[:3], first[5 : 5 + int.from_bytes(first[3:5], "big")]
    behind = first[5 + len(body) :]
    parts = [body[:1], body[1:6], body[6:]]
    records = b"".join(header + len(part).to_bytes(2, "big") + part for part in parts)
    return [("c", records + behind), *others]


def tls_in_packets() -> list[tuple[str, bytes]]:
    """Returns the stored handshake in packets of TDS, and what follows it without: the ClientHello in
    two packets, of which the first has 20 bytes."""
    (_, first), *others = stored_talk()
    hello = packet(PRELOGIN, first[:20], 0) + packet(PRELOGIN, first[20:])
    handshake = [(side, packet(PRELOGIN, part)) for side, part in others[:3]]
    return [("c", hello), *handshake, *others[3:]]


def of_responder(size: int) -> list[tuple[str, bytes]]:
    """Turns the sides of the stored TLS: the TCP responder is its client. The first segment of its
    ClientHello has this many bytes."""
    (_, first), *others = stored_talk()
    turned = [("s" if side == "c" else "c", part) for side, part in others]
    return [("s", first[:size]), ("s", first[size:]), *turned]


def client_hello() -> bytes:
    return stored_talk()[0][1]


def http(first: str, body: bytes, *more: str) -> bytes:
    """Returns a message of HTTP with a body (RFC 9112, section 2.1)."""
    lines = [first, *more, f"Content-Length: {len(body)}", "", ""]
    return "\r\n".join(lines).encode() + body


def echoes() -> dict[str, Talk]:
    """Returns uploads of a ClientHello by methods of HTTP. The answers have a server's TLS in their
    bodies, some the upload too."""
    hello = client_hello()
    tls = b"".join(part for side, part in stored_talk() if side == "s")

    def echo(method: str, status: str, body: bytes) -> Talk:
        request = http(f"{method} /kept HTTP/1.1", hello, "Host: example.test")
        return Talk(80, [("c", request), ("s", http(f"HTTP/1.1 {status}", body))], None, [])

    return {
        "upload_is_echoed": echo("PUT", "200 OK", tls),
        "patch_is_echoed": echo("PATCH", "200 OK", tls),
        "patch_is_echoed_with_hello": echo("PATCH", "200 OK", hello + tls),
        "propfind_is_echoed": echo("PROPFIND", "207 Multi-Status", hello + tls),
        "delete_is_echoed": echo("DELETE", "200 OK", hello + tls),
    }


def talks() -> dict[str, Talk]:
    """Returns the captures by name."""
    greeting = ("s", b"220 mail.example.test ESMTP\r\n")
    hello = [("c", b"EHLO me.example.test\r\n"), ("s", b"250-mail.example.test\r\n250 STARTTLS\r\n")]
    starttls = [("c", b"STARTTLS\r\n"), ("s", b"220 Go ahead\r\n")]
    smtp = [greeting, *hello, *starttls]
    connect = [
        ("c", b"CONNECT example.test:443 HTTP/1.1\r\nHost: example.test:443\r\n\r\n"),
        ("s", b"HTTP/1.1 200 Connection established\r\n\r\n"),
    ]
    # A device that calls home over a proxy: it is the TLS server (RFC 8071, sections 3.1 and 4.1).
    home = [
        ("c", b"CONNECT home.example.test:4335 HTTP/1.1\r\nHost: home.example.test:4335\r\n\r\n"),
        connect[1],
    ]
    challenge = b"HTTP/1.1 407 Proxy Authentication Required\r\nContent-Length: " + str(
        len(FAKE)
    ).encode() + b"\r\nProxy-Authenticate: Basic realm=\"it\"\r\n\r\n"
    tls = stored_talk()
    answer = b"".join(part for side, part in tls if side == "s")
    version = (VERSION, b"\x10\0\4\x20\0\0")
    prelogin = packet(PRELOGIN, options(version, (ENCRYPTION, ON), (INSTANCE, FAKE + b"\0")))
    return {
        "misleading_smtp_noop": Talk(
            25, [greeting, *hello, ("c", b"NOOP " + FAKE + b"\r\n"), ("s", b"250 OK\r\n"), *starttls],
            "smtp",
        ),
        "misleading_ftp_password": Talk(
            21,
            [
                ("s", b"220 ready\r\n"),
                ("c", b"USER me\r\n"),
                ("s", b"331 Password required\r\n"),
                ("c", b"PASS " + FAKE + b"\r\n"),
                ("s", b"230 Logged in\r\n"),
                ("c", b"AUTH TLS\r\n"),
                ("s", b"234 Proceed\r\n"),
            ],
            "ftp",
        ),
        "misleading_ldap_bind": Talk(
            389, [("c", BIND), ("s", BOUND), ("c", START_TLS), ("s", STARTED)], "ldap"
        ),
        "misleading_proxy_tlv": Talk(443, [("c", PROXY_2)], "proxy"),
        "connect_behind_407": Talk(
            8080,
            [connect[0], ("s", challenge + FAKE), ("c", connect[0][1][:-2]
              + b"Proxy-Authorization: Basic bWU6aXQ=\r\n\r\n"), connect[1]],
            "http_connect",
        ),
        "misleading_tds_instance": Talk(
            1433,
            [
                ("c", prelogin),
                ("s", packet(ANSWER, options(version, (ENCRYPTION, ON), (INSTANCE, b"\0")))),
            ],
            "tds",
            tls_in_packets(),
        ),
        "tds_without_tls": Talk(
            1433,
            [
                ("c", prelogin),
                ("s", packet(ANSWER, options(version, (ENCRYPTION, NOT_SUPPORTED)))),
                ("c", packet(LOGIN, client_hello())),
                ("s", packet(ANSWER, answer)),
            ],
            None,
            [],
        ),
        "proxy_in_front_of_smtp": Talk(
            25, [("c", b"PROXY TCP4 192.0.2.10 192.0.2.20 40000 25\r\n"), *smtp], "smtp"
        ),
        "alert_behind_starttls": Talk(25, smtp, "smtp", [tls[0], ("s", ALERT)]),
        "alert_behind_connect": Talk(8080, connect, "http_connect", [tls[0], ("s", ALERT)]),
        "hello_alone_behind_starttls": Talk(25, smtp, "smtp", [tls[0]]),
        "hello_of_responder_behind_connect": Talk(8080, home, "http_connect", of_responder(3)),
        "hello_of_responder_behind_starttls": Talk(25, smtp, "smtp", of_responder(3)),
        "small_records_behind_starttls": Talk(25, smtp, "smtp", hello_in_small_records()),
        **echoes(),
    }


NAMES = list(talks())


def frames(talk: Talk) -> list[tuple[int, bytes]]:
    """Returns the packets of a connection, in which each payload is acknowledged by the next one."""
    numbers, said = {"c": 1000, "s": 5000}, []

    def segment(side: str, flags: int, payload: bytes = b"") -> None:
        other = "s" if side == "c" else "c"
        ends = (CLIENT, SERVER) if side == "c" else (SERVER, CLIENT)
        ports = (CLIENT_PORT, talk.port) if side == "c" else (talk.port, CLIENT_PORT)
        ip = bytes.fromhex("4500 0000 0000 4000 4006 0000") + ends[0] + ends[1]
        tcp = b"".join(port.to_bytes(2, "big") for port in ports)
        tcp += numbers[side].to_bytes(4, "big")
        tcp += (numbers[other] if flags & ACK else 0).to_bytes(4, "big")
        tcp += bytes([0x50, flags]) + bytes.fromhex("ffff 0000 0000")
        link = bytes(12) + b"\x08\x00"
        time = START + 1000 * len(said)
        one = packets.Segment(time, link + ip, tcp, payload)
        said.append((time, one.frame()))
        numbers[side] += len(payload) + bool(flags & (SYN | FIN))

    segment("c", SYN)
    segment("s", SYN | ACK)
    segment("c", ACK)
    behind = stored_talk(talk.stored) if talk.tls is None else talk.tls
    for side, payload in [*talk.said, *behind]:
        for at in range(0, len(payload), 1400):
            segment(side, ACK | PSH, payload[at : at + 1400])
    segment("c", FIN | ACK)
    segment("s", FIN | ACK)
    segment("c", ACK)
    return said


# Fields of the stored line that hold here too, if all of its TLS follows.
OF_TLS = """version cipher curve server_name established resumed outcome ssl_history client_version
    client_ciphers ssl_client_exts ja3 ja3s ja4 server_version cert_chain_fps""".split()
OF_HELLO = "server_name client_version client_ciphers ssl_client_exts ja3 ja4".split()


def stored_line(stored: Path = STORED) -> Line:
    """Returns the stored line of a capture, by the time of its first packet."""
    time = packets.read(stored.read_bytes())[0].time / 1_000_000
    lines = map(json.loads, (TOP / "crates/tlslog/stdout").read_text().splitlines())
    [found] = [line for line in lines if abs(line["ts"] - time) < 0.0000015]
    return found


def record(folder: Path, name: str) -> list[Line]:
    """Makes a capture, and returns its line."""
    return record_talk(folder / f"{name}.pcap", talks()[name])


def record_talk(file: Path, talk: Talk) -> list[Line]:
    file.write_bytes(packets.pcap(frames(talk)))
    if talk.found_by is None:
        return []
    stored = stored_line(talk.stored)
    kept = OF_TLS if talk.tls is None or len(talk.tls) > 2 else OF_HELLO
    of_tshark = {field: stored[field] for field in kept if field in stored}
    front = {
        side: sum(len(payload) for one, payload in talk.said if one == side) for side in ("c", "s")
    }
    by_hand: Line = {"found_by": talk.found_by}
    by_hand |= {"orig_preamble_bytes": front["c"]} if front["c"] else {}
    by_hand |= {"resp_preamble_bytes": front["s"]} if front["s"] else {}
    known = expected.ends(file, talk.port)
    if talk.tls is not None and len(talk.tls) <= 2:
        by_hand["established"] = False
    if talk.tls is not None and talk.tls[1:] == [("s", ALERT)]:
        by_hand["last_alert"] = "handshake_failure"
    absent = [] if front["s"] else ["resp_preamble_bytes"]
    grammar = "the RFC of the dialogue" if talk.found_by != "search" else expected.NO_DIALOGUE
    sources = {
        "the first packet": list(known),
        "tshark, of the stored capture": list(of_tshark),
        grammar: [*by_hand, *absent],
    }
    return [expected.line({**known, **of_tshark, **by_hand}, sources, absent)]
