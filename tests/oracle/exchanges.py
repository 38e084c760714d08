"""The fields of key exchanges, CertificateVerify and pre_shared_key that tshark reads in captures.

tests/oracle/compare exchanges PROGRAM CAPTURE..
tests/oracle/write exchanges CAPTURE..

`write` prints a line for each message that has some: the capture, the client's port, who sent it,
its type, and each field, by the RFC's name, with its number or bytes: captures/exchanges has these
lines. `compare` prints each message of `PROGRAM --messages` that differs from its line.
"""

from __future__ import annotations

import json
import subprocess
import sys
import xml.etree.ElementTree as xml
from collections import Counter
from collections.abc import Iterator
from pathlib import Path

from tests.oracle import exchange_fields

PORTS = "1024-65535"
SERVER_KEY_EXCHANGE, CERTIFICATE_VERIFY, CLIENT_KEY_EXCHANGE = 12, 15, 16
# tshark's names after those of the protocol, and those of RFC 5246, 8422, 4279 and 8446.
OF_EXCHANGES = {
    "handshake.server_curve_type": "curve_type",
    "handshake.server_named_curve": "namedcurve",
    "handshake.server_point": "public",
    "handshake.p": "dh_p",
    "handshake.g": "dh_g",
    "handshake.ys": "dh_Ys",
    "handshake.sig_hash_alg": "algorithm",
    "handshake.sig": "signature",
    "handshake.client_cert_vrfy.sig": "signature",
    "handshake.epms": "pre_master_secret",
    "handshake.yc": "dh_Yc",
    "handshake.client_point": "ecdh_Yc",
    "handshake.hint": "psk_identity_hint",
    "handshake.identity": "psk_identity",
}
OF_HELLOS = {
    "handshake.extensions.psk.identity.identity": "identity",
    "handshake.extensions.psk.identity.obfuscated_ticket_age": "obfuscated_ticket_age",
    "handshake.extensions.psk.identity.selected": "selected_identity",
    "compress_certificate.algorithm": "algorithms",
}


def told(field: xml.Element, names: dict[str, str]) -> Iterator[str]:
    """The values of a message, in their order."""
    for part in field.iter():
        name = names.get((part.get("name") or "").partition(".")[2])
        if name:
            value = part.get("value") or ""
            yield f"{name}={int(value, 16) if name in exchange_fields.NUMBERS else value}"


def lines_of_tshark(capture: str) -> Iterator[str]:
    for layer, protocol in (("tcp", "tls"), ("udp", "dtls")):
        command = [
            "tshark",
            "-r",
            str(capture),
            "-T",
            "pdml",
            "-Y",
            protocol,
            "-d",
            f"{layer}.port=={PORTS},{protocol}",
        ]
        command += ["-o", "tcp.reassemble_out_of_order:TRUE"]
        text = subprocess.run(
            command, stdout=subprocess.PIPE, stderr=subprocess.DEVNULL, check=True
        ).stdout
        clients = {}
        for packet in xml.fromstring(text):
            value = {
                f.get("name"): f.get("show")
                for f in packet.iter("field")
                if f.get("name") in (f"{layer}.stream", f"{layer}.srcport")
            }
            port = value[f"{layer}.srcport"]
            client = clients.setdefault(value[f"{layer}.stream"], port)
            for field in packet.iter("field"):
                if field.get("name") != f"{protocol}.handshake":
                    continue
                types = [
                    f.get("show")
                    for f in field.iter("field")
                    if f.get("name") == f"{protocol}.handshake.type"
                ]
                if not types:
                    continue
                is_exchange = int(types[0]) in (
                    SERVER_KEY_EXCHANGE,
                    CERTIFICATE_VERIFY,
                    CLIENT_KEY_EXCHANGE,
                )
                values = list(told(field, OF_EXCHANGES if is_exchange else OF_HELLOS))
                if values:
                    yield " ".join(
                        [
                            Path(capture).stem,
                            client,
                            "client" if port == client else "server",
                            types[0],
                            *values,
                        ]
                    )


def compare(words: list[str]) -> None:
    if len(words) < 2:
        sys.exit(__doc__)
    program, *captures = words
    count = 0
    for capture in captures:
        wanted = Counter(lines_of_tshark(capture))
        ran = subprocess.run(
            [program, "--messages", capture],
            stdout=subprocess.PIPE,
            stderr=subprocess.DEVNULL,
            text=True,
        )
        said = [json.loads(row) for row in ran.stdout.splitlines()]
        found = Counter(exchange_fields.lines(Path(capture).stem, said))
        for line in (wanted - found).elements():
            print("tshark:", line)
        for line in (found - wanted).elements():
            print("tlslog:", line)
        count += (wanted & found).total()
    print(f"{count} messages have the fields that tshark has")


def write(words: list[str]) -> None:
    if not words:
        sys.exit(__doc__)
    for capture in words:
        for line in lines_of_tshark(capture):
            print(line)
