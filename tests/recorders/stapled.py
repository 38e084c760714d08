"""OCSP responses (RFC 6960) by `openssl ocsp`, and handshakes of `openssl s_server` and `s_client`
in which the server staples one (RFC 6066, section 8)."""

from __future__ import annotations

import selectors
import socket
import subprocess
import time
from collections.abc import Iterator
from pathlib import Path

# A response without an answer: tryLater (RFC 6960, section 4.2.1).
TRY_LATER = bytes.fromhex("30030a0103")
# 1.3.6.1.4.1.11129.2.4.5 (RFC 6962, section 3.3)
OCSP_TIMESTAMPS = bytes.fromhex("060a2b06010401d679020405")
# Where the first SingleResponse is: the place of each element in the one around it.
SINGLE_RESPONSE = (0, 1, 0, 1, 0, 0, 2, 0)
LAST_DAY = "361120214402Z"
# What the responder's index has of a certificate: valid, revoked on 2026-11-01, or nothing.
INDEX = {"good": f"V\t{LAST_DAY}\t\t", "revoked": f"R\t{LAST_DAY}\t261101120000Z,keyCompromise\t"}
STATUSES = ("good", "revoked", "unknown", "try_later")


def openssl(*words: object) -> str:
    return subprocess.run(
        ["openssl", *map(str, words)],
        stdout=subprocess.PIPE, stderr=subprocess.DEVNULL, text=True, check=True,
    ).stdout


def response(work: Path, status: str, name: str, issuer: str) -> bytes:
    """Returns a response with this status of the certificate name.pem, signed by its issuer. Only
    one of the status good has a nextUpdate."""
    if status == "try_later":
        return TRY_LATER
    own, signer, index = work / f"{name}.pem", work / f"{issuer}.pem", work / "index.txt"
    serial = openssl("x509", "-in", own, "-noout", "-serial").strip().partition("=")[2]
    index.write_text(f"{INDEX[status]}{serial}\tunknown\t/CN={name}\n" if status in INDEX else "")
    request, answer = work / "request.der", work / "response.der"
    openssl("ocsp", "-issuer", signer, "-cert", own, "-no_nonce", "-reqout", request)
    days = ["-ndays", "7"] if status == "good" else []
    openssl(
        "ocsp", "-index", index, "-rsigner", signer, "-rkey", work / f"{issuer}.key", "-CA", signer,
        "-reqin", request, "-respout", answer, *days,
    )
    return answer.read_bytes()


def elements(content: bytes) -> Iterator[tuple[int, bytes]]:
    """Yields the tag and the content of each element of DER."""
    while content:
        length, at = content[1], 2
        if length >= 0x80:
            at += length - 0x80
            length = int.from_bytes(content[2:at], "big")
        yield content[0], content[at : at + length]
        content = content[at + length :]


def element(tag: int, content: bytes) -> bytes:
    count = len(content)
    digits = count.to_bytes((count.bit_length() + 7) // 8, "big")
    length = bytes([count]) if count < 0x80 else bytes([0x80 + len(digits)]) + digits
    return bytes([tag]) + length + content


def appended(content: bytes, path: tuple[int, ...], more: bytes) -> bytes:
    """Returns elements, with `more` after the content of the one at this path."""
    if not path:
        return content + more
    parts = list(elements(content))
    tag, inner = parts[path[0]]
    parts[path[0]] = tag, appended(inner, path[1:], more)
    return b"".join(element(*part) for part in parts)


def with_timestamps(response: bytes, value: bytes) -> bytes:
    """Returns a response with timestamps among the singleExtensions of its SingleResponse. Its
    signature is that of the response without them."""
    extension = element(0x30, OCSP_TIMESTAMPS + element(4, value))
    return appended(response, SINGLE_RESPONSE, element(0xA1, element(0x30, extension)))


def free_port() -> int:
    with socket.create_server(("127.0.0.1", 0)) as one:
        return one.getsockname()[1]


def connected(port: int) -> socket.socket:
    """Returns a connection to a server that may still be starting."""
    for _ in range(100):
        try:
            return socket.create_connection(("127.0.0.1", port))
        except ConnectionRefusedError:
            time.sleep(0.1)
    raise ValueError("no server")


def relayed(client: socket.socket, server: socket.socket) -> list[tuple[bool, bytes]]:
    """Returns what the ends send, each piece with whether the client sends it, until one closes."""
    pieces, ends = [], selectors.DefaultSelector()
    ends.register(client, selectors.EVENT_READ, (True, server))
    ends.register(server, selectors.EVENT_READ, (False, client))
    while True:
        for event, _ in ends.select():
            is_client, other = event.data
            piece = event.fileobj.recv(65536)
            if not piece:
                return pieces
            pieces.append((is_client, piece))
            other.sendall(piece)


def talk(work: Path, chain: list[str], host: str, response: bytes) -> list[tuple[bool, bytes]]:
    """Returns the pieces of a connection of TLS 1.2 whose server staples the response."""
    (work / "stapled.der").write_bytes(response)
    others = "".join((work / f"{name}.pem").read_text() for name in chain[1:])
    (work / "others.pem").write_text(others)
    port = free_port()
    server = ["openssl", "s_server", "-accept", f"127.0.0.1:{port}", "-naccept", "1", "-tls1_2"]
    server += ["-cert", f"{chain[0]}.pem", "-key", f"{chain[0]}.key", "-cert_chain", "others.pem"]
    server += ["-status_file", "stapled.der", "-quiet"]
    quiet = {"stdout": subprocess.DEVNULL, "stderr": subprocess.DEVNULL}
    with (
        subprocess.Popen(server, cwd=work, stdin=subprocess.PIPE, **quiet) as of_server,
        socket.create_server(("127.0.0.1", 0)) as front,
    ):
        at = f"127.0.0.1:{front.getsockname()[1]}"
        client = ["openssl", "s_client", "-connect", at, "-servername", host, "-status", "-tls1_2"]
        with subprocess.Popen(client, stdin=subprocess.DEVNULL, **quiet) as of_client:
            with front.accept()[0] as one, connected(port) as other:
                pieces = relayed(one, other)
            of_client.wait(10)
        of_server.terminate()
    return pieces
