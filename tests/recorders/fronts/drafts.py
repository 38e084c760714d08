"""Captures of drafts of TLS 1.3, derived from one of TLS 1.3 by rewriting its ServerHello. Nobody
could decrypt them."""

from __future__ import annotations

from collections.abc import Iterator
from pathlib import Path

from tests.oracle import wanted
from tests.support import packets
from tests.recorders.fronts import expected
from tests.support.shapes import Line

STORED = Path(__file__).resolve().parents[3] / "crates" / "tlslog" / "data" / "openssl_tls13.pcap"
# The version's number, and its name. Up to draft 21 the ServerHello has the form of draft 18
# (draft-ietf-tls-tls13-18, section 4.1.3); from draft 22 on it has the form of RFC 8446.
DRAFTS = {
    "draft_14": (0x7F0E, "TLSv13-draft14"),
    "draft_21": (0x7F15, "TLSv13-draft21"),
    "draft_28": (0x7F1C, "TLSv13-draft28"),
    "draft_facebook23": (0xFB17, "TLSv13-facebook23"),
    "draft_facebook26": (0xFB1A, "TLSv13-facebook26"),
    "draft_boringssl2": (0x7E02, "TLSv13-boringssl2"),
    # Of no draft that is known, so it is written as a number.
    "draft_unknown": (0xFB28, "0xfb28"),
}
NAMES = [*DRAFTS]
OLD_FORMS = range(0x7F00, 0x7F16)
PORT = 14433
SUPPORTED_VERSIONS = b"\x00\x2b"
HEADERS = 9  # Those of the record and of the message.


def counted(data: bytes, width: int) -> bytes:
    return len(data).to_bytes(width, "big") + data


def offered(payload: bytes, number: int) -> bytes:
    """Returns the ClientHello with the draft's version for that of TLS 1.3 (RFC 8446, 4.2.1)."""
    at = payload.index(SUPPORTED_VERSIONS)
    end = at + 4 + int.from_bytes(payload[at + 2 : at + 4], "big")
    return (
        payload[:at]
        + payload[at:end].replace(b"\x03\x04", number.to_bytes(2, "big"))
        + payload[end:]
    )


def extensions(block: bytes) -> Iterator[bytes]:
    while block:
        end = 4 + int.from_bytes(block[2:4], "big")
        yield block[:end]
        block = block[end:]


def answered(payload: bytes, number: int) -> bytes:
    """Returns the payload with its ServerHello in the draft's form."""
    end = 5 + int.from_bytes(payload[3:5], "big")
    hello, rest = payload[HEADERS:end], payload[end:]
    if number not in OLD_FORMS:
        return (
            payload[:HEADERS]
            + hello.replace(
                SUPPORTED_VERSIONS + b"\x00\x02\x03\x04",
                SUPPORTED_VERSIONS + b"\x00\x02" + number.to_bytes(2, "big"),
            )
            + rest
        )
    version, random, behind = number.to_bytes(2, "big"), hello[2:34], hello[35 + hello[34] :]
    block = b"".join(one for one in extensions(behind[5:]) if one[:2] != SUPPORTED_VERSIONS)
    message = b"\x02" + counted(version + random + behind[:2] + counted(block, 2), 3)
    return b"\x16\x03\x01" + counted(message, 2) + rest


def moved(one: packets.Segment, sequence: int, acknowledgment: int) -> packets.Segment:
    """Returns the segment with its sequence and acknowledgement numbers lowered."""
    numbers = (
        (number - less) % 2**32
        for number, less in ((one.sequence, sequence), (one.acknowledgment, acknowledgment))
    )
    return packets.replace(
        one,
        tcp=one.tcp[:4] + b"".join(number.to_bytes(4, "big") for number in numbers) + one.tcp[12:],
    )


def made(segments: list[packets.Segment], number: int) -> Iterator[packets.Segment]:
    less, server = 0, None
    for one in segments:
        if one.payload[:6] == b"\x16\x03\x01" + one.payload[3:5] + b"\x01":
            yield packets.replace(one, payload=offered(one.payload, number))
        elif server is None and one.payload[:1] == b"\x16" and one.payload[5] == 2:
            server = one.source
            now = packets.replace(one, payload=answered(one.payload, number))
            less = len(one.payload) - len(now.payload)
            yield now
        else:
            yield moved(one, *((less, 0) if one.source == server else (0, less)))


def record(folder: Path, name: str) -> list[Line]:
    file = folder / f"{name}.pcap"
    number, version = DRAFTS[name]
    segments = list(made(packets.read(STORED.read_bytes()), number))
    file.write_bytes(packets.pcap([(one.time, one.frame()) for one in segments]))
    wanted.VERSIONS[number] = version
    [found] = wanted.lines(file, PORT)
    by_hand = {
        "version": version,
        "resumed": False,
        "established": True,
        "outcome": "tls13",
        "ssl_history": "CsiI",
    }
    fields = {field: value for field, value in found.items() if field != "ja4"} | by_hand
    sources = {
        "draft-ietf-tls-tls13-18, 4.1.3, and -22, 4.1.3, by hand": list(by_hand),
        "tshark": [*(field for field in fields if field not in by_hand), "last_alert", "gap"],
    }
    differing = [
        (field, found.get(field)) for field, value in by_hand.items() if found.get(field) != value
    ]
    print(name, file.stat().st_size, "bytes, tshark has", differing or "the same", flush=True)
    return [expected.line(fields, sources, ["last_alert", "gap"])]
