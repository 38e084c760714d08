"""Parses what peers print, and builds expected lines."""

from __future__ import annotations

import re
from collections.abc import Iterable

from tests.support import packets
from tests.support.shapes import Line

ALERT = 21


def fault(text: str) -> str:
    """Returns the last line that reports a fault."""
    of_keys = "verify error|Verif|[*]{3} PKI"  # Messages about untrusted issuers.
    lines = [
        line
        for line in text.splitlines()
        if re.search("rror|alert (read|write):fatal|fail", line) and not re.match(of_keys, line)
    ]
    return re.sub("^[0-9A-F]{8,}:", "", lines[-1]) if lines else "silent"


def host(text: str) -> str | None:
    """Returns the name that `openssl s_server` printed last."""
    names = re.findall('Hostname in TLS extension: "([^"]*)"', text)
    return names[-1] if names else None


def alerts(segments: list[packets.Segment]) -> list[tuple[int, ...]]:
    """Returns the unencrypted alerts in datagrams: the sender's port, the level and the
    description."""
    found = []
    for one in segments:
        at, bytes_ = 0, one.payload
        while at + 13 <= len(bytes_):
            length = int.from_bytes(bytes_[at + 11 : at + 13], "big")
            if (
                bytes_[at] == ALERT
                and bytes_[at + 1] == 0xFE
                and bytes_[at + 3 : at + 5] == b"\0\0"
                and length == 2
            ):
                found.append((int.from_bytes(one.source[1], "big"), *bytes_[at + 13 : at + 15]))
            at += 13 + length
    return found


def line(
    fields: Line, absent: Iterable[str] = (), sources: dict[str, list[str]] | None = None
) -> Line:
    return {"line": fields, "absent": list(absent), "from": sources or {}}
