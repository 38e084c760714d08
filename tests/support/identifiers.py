"""A connection's identifiers, by hashlib from a line's fields (docs/TLSLOG.md, "Identifiers")."""

from __future__ import annotations

import base64
import hashlib
import ipaddress
from collections.abc import Iterator

from tests.support.shapes import Line

PROTOCOLS = {"tcp": 6, "udp": 17}
KEY = b"wispuddera uid 1"
DIGITS = "0123456789abcdefghijklmnopqrstuvwxyzABCDEFGHIJKLMNOPQRSTUVWXYZ"


def ends(line: Line) -> Iterator[tuple[bytes, int]]:
    """Address and port of the originator and of the responder, as bytes."""
    for side in ("orig", "resp"):
        yield ipaddress.ip_address(line[f"id.{side}_h"]).packed, line[f"id.{side}_p"].to_bytes(
            2, "big"
        )


def community_id(line: Line) -> str:
    """By Corelight's definition, version 1, with a seed of 0."""
    (one, one_port), (other, other_port) = sorted(ends(line))
    hashed = bytes(2) + one + other + bytes([PROTOCOLS[line["proto"]], 0]) + one_port + other_port
    return "1:" + base64.b64encode(hashlib.sha1(hashed).digest()).decode()


def digest(line: Line) -> bytes:
    """What uid and flow_id are made of."""
    (originator, its_port), (responder, other_port) = ends(line)
    microseconds = round(line["ts"] * 1_000_000)
    hashed = (
        KEY
        + originator
        + responder
        + bytes([PROTOCOLS[line["proto"]]])
        + its_port
        + other_port
        + microseconds.to_bytes(8, "big")
    )
    return hashlib.sha256(hashed).digest()


def uid(line: Line) -> str:
    number, digits = int.from_bytes(digest(line)[:16], "big"), ""
    for _ in range(17):
        number, digit = divmod(number, 62)
        digits += DIGITS[digit]
    return "C" + digits


def flow_id(line: Line) -> int:
    """The number of Suricata's events."""
    return int.from_bytes(digest(line)[16:24], "big") >> 12


def of_connection(line: Line) -> Line:
    """The line of a connection with both, in their places."""
    made = {"ts": ("uid", uid(line)), "proto": ("community_id", community_id(line))}
    found = {}
    for field, value in line.items():
        if field in ("uid", "community_id"):
            continue
        found[field] = value
        if field in made:
            name, value = made[field]
            found[name] = value
    return found
