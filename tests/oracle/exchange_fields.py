"""The fields that tlslog has of key exchanges, of CertificateVerify, and of some extensions, as
`tests/oracle/write exchanges` has them from tshark."""

from __future__ import annotations

import re
from collections.abc import Iterable, Iterator
from typing import Any

from tests.support.shapes import Line

# A field of a message is a number, bytes in hexadecimal, or escaped text.
NUMBERS = {
    "curve_type",
    "namedcurve",
    "algorithm",
    "obfuscated_ticket_age",
    "selected_identity",
    "algorithms",
}
BYTES = {
    "public",
    "dh_p",
    "dh_g",
    "dh_Ys",
    "signature",
    "pre_master_secret",
    "dh_Yc",
    "ecdh_Yc",
    "identity",
}
TEXTS = {"psk_identity_hint", "psk_identity"}
# Certificates, OCSP responses and timestamps.
ELSEWHERE = {"certificates", "ocsp_response", "scts"}
ESCAPES = {"t": b"\t", "r": b"\r", "n": b"\n"}


def unescaped(text: str) -> bytes:
    """The bytes that a peer sent."""
    parts = re.findall(r"\\x(..)|\\(.)|([^\\])", text)
    return b"".join(
        bytes.fromhex(code)
        if code
        else ESCAPES.get(mark, mark.encode())
        if mark
        else plain.encode()
        for code, mark, plain in parts
    )


def leaves(value: Any, name: str | None = None) -> Iterator[str]:
    """Returns the fields that have values, in their order, without those that
    tests/tlslog/certificates compares."""
    if isinstance(value, dict):
        for field, inner in value.items():
            if field not in ELSEWHERE:
                yield from leaves(inner, field)
    elif isinstance(value, list):
        for inner in value:
            yield from leaves(inner, name)
    elif name in NUMBERS:
        yield f"{name}={int(value, 16) if isinstance(value, str) else value}"
    elif name in BYTES:
        yield f"{name}={value}"
    elif name in TEXTS:
        yield f"{name}={unescaped(value).hex()}"


def lines(capture: str, messages: Iterable[Line]) -> Iterator[str]:
    """A line for each message of `--messages` that has some of these fields."""
    for said in messages:
        values = list(leaves(said["message"].get("body"))) if said["content_type"] == 22 else []
        if values:
            client = said["id.orig_p"]
            yield " ".join(
                [capture, str(client), said["side"], str(said["message"]["msg_type"]), *values]
            )
