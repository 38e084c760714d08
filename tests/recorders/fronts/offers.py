"""Captures of hellos with extensions that the peers of other captures don't send: ECH, and
timestamps and a status of the server's certificate. And of a client that refuses the server's
certificate in TLS 1.3."""

from __future__ import annotations

import os
import socket
import subprocess
import time
from pathlib import Path

from tests.oracle import wanted
from tests.recorders import peers
from tests.recorders.fronts import expected
from tests.support.shapes import Line

PORT = 14433
# Whether the server asks for another key share, and whether the next hello has ECH again.
ECH = {"ech": (False, False), "ech_repeated": (True, True), "ech_not_repeated": (True, False)}
STATUS = "status_and_timestamps"
REFUSED = "refused_by_client"
NAMES = [*ECH, STATUS, REFUSED]
X25519, P256 = 29, 23
CONFIG, KDF, AEAD = 0x5A, 1, 3  # HKDF-SHA256, ChaCha20Poly1305 (RFC 9180, sections 7.2 and 7.3).
TIMESTAMPS = 18


def counted(data: bytes, width: int) -> bytes:
    return len(data).to_bytes(width, "big") + data


def extension(number: int, content: bytes) -> bytes:
    return number.to_bytes(2, "big") + counted(content, 2)


def numbers(*values: int) -> bytes:
    return b"".join(value.to_bytes(2, "big") for value in values)


def encrypted_hello() -> bytes:
    """The outer form (RFC 9849, section 5)."""
    suite = b"\0" + numbers(KDF, AEAD) + bytes([CONFIG])
    return extension(0xFE0D, suite + counted(os.urandom(32), 2) + counted(os.urandom(144), 2))


def hello(share: bytes, random: bytes, session: bytes, has_ech: bool) -> bytes:
    """The record of a ClientHello of TLS 1.3, with a share of its group."""
    name = counted(b"\0" + counted(b"public.test", 2), 2)
    block = b"".join(
        (
            extension(0, name),
            extension(10, counted(numbers(P256, X25519), 2)),
            extension(13, counted(numbers(0x0403, 0x0804), 2)),
            extension(43, counted(numbers(0x0304), 1)),
            extension(51, counted(share, 2)),
            encrypted_hello() if has_ech else b"",
        )
    )
    body = b"\3\3" + random + counted(session, 1) + counted(numbers(0x1301), 2) + b"\1\0"
    message = b"\1" + counted(body + counted(block, 2), 3)
    return b"\x16\3\1" + counted(message, 2)


def answer(connection: socket.socket) -> bytes:
    """The first record that comes."""
    found = b""
    while len(found) < 5 or len(found) < 5 + int.from_bytes(found[3:5], "big"):
        found += connection.recv(4096)
    return found


def offer(is_asked: bool, is_again: bool) -> None:
    """Sends a hello with ECH, and another one if the server asks for it."""
    random, session = os.urandom(32), os.urandom(32)
    own = numbers(X25519) + counted(os.urandom(32), 2)
    other = numbers(P256) + counted(b"\4" + os.urandom(64), 2)
    with socket.create_connection((peers.HOST, PORT), timeout=5) as connection:
        connection.sendall(hello(other if is_asked else own, random, session, True))
        answer(connection)
        if is_asked:
            connection.sendall(hello(own, random, session, is_again))
            answer(connection)


def ech(work: Path, folder: Path, name: str) -> list[Line]:
    file = folder / f"{name}.pcap"
    is_asked, is_again = ECH[name]
    server = f"openssl s_server -accept {peers.HOST}:{PORT} -tls1_3 -groups X25519 -cert ec.pem -key ec.key"
    with peers.Dump(file, f"tcp port {PORT}"):
        other = peers.Peer(work, server, "server")
        other.waits_for(["ACCEPT"], 10)
        offer(is_asked, is_again)
        time.sleep(0.3)
        other.kill()
    [found] = wanted.lines(file, PORT)
    by_hand = {}
    if is_again or not is_asked:
        by_hand = {"ech": True, "ech_config_id": CONFIG, "ech_kdf": "0x0001", "ech_aead": "0x0003"}
    by_hand |= {"ech_repeated": is_again} if is_asked else {}
    without = [one for one in ("ech", "ech_config_id", "ech_repeated") if one not in by_hand]
    kept = """
        id.orig_h id.orig_p id.resp_h id.resp_p proto version cipher curve server_name established
        outcome retried ssl_client_exts client_key_share_groups server_key_share_group
    """.split()
    fields = {one: found[one] for one in kept if one in found} | by_hand
    sources = {
        "RFC 9849, section 5, and 6.1.5, as sent": [*by_hand, *without],
        "tshark": [one for one in kept if one in found and one not in by_hand],
    }
    print(name, file.stat().st_size, "bytes, tshark has", found["ssl_history"], flush=True)
    return [expected.line(fields, sources, without)]


def timestamp(number: int) -> bytes:
    """A timestamp (RFC 6962, section 3.2): version, log, time, extensions and a signature."""
    log = bytes([number]) * 32
    moment = (1_795_000_000_000 + number).to_bytes(8, "big")
    return b"\0" + log + moment + b"\0\0" + b"\4\3" + counted(os.urandom(70), 2)


def make_status(work: Path) -> None:
    """Makes an OCSP response for the server's certificate, which signs it itself."""
    lines = subprocess.run(
        "openssl x509 -in ec.pem -noout -serial".split(),
        cwd=work,
        check=True,
        capture_output=True,
        text=True,
    ).stdout
    serial = lines.strip().partition("=")[2]
    (work / "index").write_text(f"V\t360101000000Z\t\t{serial}\tunknown\t/CN=example.test\n")
    for words in (
        "-issuer ec.pem -cert ec.pem -no_nonce -reqout request",
        "-index index -rsigner ec.pem -rkey ec.key -CA ec.pem -reqin request -respout status.der -ndays 7",
    ):
        subprocess.run(
            ["openssl", "ocsp", *words.split()], cwd=work, check=True, capture_output=True
        )


def status(work: Path, folder: Path) -> list[Line]:
    """Staples an OCSP response, and sends two timestamps in the ServerHello, of TLS 1.2."""
    file = folder / f"{STATUS}.pcap"
    block = counted(b"".join(counted(timestamp(number), 2) for number in (1, 2)), 2)
    info = numbers(0, 0x01D0) + extension(TIMESTAMPS, block)
    (work / "info.bin").write_bytes(info)
    convert = "import base64,sys; print('-----BEGIN SERVERINFOV2 FOR extension 18-----'); print(base64.b64encode(open('info.bin','rb').read()).decode()); print('-----END SERVERINFOV2 FOR extension 18-----')"
    (work / "info.pem").write_bytes(
        subprocess.run(
            ["python3", "-c", convert], cwd=work, check=True, capture_output=True
        ).stdout
    )
    make_status(work)
    server = f"openssl s_server -accept {peers.HOST}:{PORT} -tls1_2 -cert ec.pem -key ec.key -status_file status.der -serverinfo info.pem"
    client = f"openssl s_client -connect {peers.HOST}:{PORT} -tls1_2 -servername example.test -status -serverinfo 18"
    with peers.Dump(file, f"tcp port {PORT}"):
        other = peers.Peer(work, server, "server")
        other.waits_for(["ACCEPT"], 10)
        own = peers.Peer(work, client, "client")
        is_done = own.waits_for(["Verify return code", "rror"], 10)
        own.end(1)
        other.kill()
    said = own.output()
    if not is_done or "OCSP Response Status: successful" not in said:
        raise ValueError(f"another answer: {said[-400:]}")
    if "SERVERINFO FOR EXTENSION 18" not in said:
        raise ValueError("no timestamps")
    [found] = wanted.lines(file, PORT)
    seen = {"ocsp_stapled": True, "scts": 2, "established": True, "outcome": "full"}
    fields = {one: value for one, value in found.items() if one not in seen} | seen
    others = [one for one in fields if one not in seen]
    print(STATUS, file.stat().st_size, "bytes", found.get("ssl_history"), flush=True)
    sources = {"seen": list(seen), "tshark": [*others, "last_alert", "gap"]}
    return [expected.line(fields, sources, ["last_alert", "gap"])]


def refused(work: Path, folder: Path) -> list[Line]:
    """The client answers the server's certificate with an alert, encrypted in a record of 19 bytes:
    its Finished never comes."""
    file = folder / f"{REFUSED}.pcap"
    server = f"openssl s_server -accept {peers.HOST}:{PORT} -tls1_3 -cert ec.pem -key ec.key"
    client = f"gnutls-cli -p {PORT} --priority NORMAL:-VERS-ALL:+VERS-TLS1.3 --sni-hostname example.test {peers.HOST}"
    with peers.Dump(file, f"tcp port {PORT}"):
        other = peers.Peer(work, server, "server")
        other.waits_for(["ACCEPT"], 10)
        own = peers.Peer(work, client, "client")
        is_over = own.waits_for(["Error in the certificate"], 10)
        own.end(1)
        other.waits_for(["alert"], 5)
        other.kill()
    if not is_over or "SSL alert number" not in other.output():
        raise ValueError(f"another end: {own.output()[-400:]} {other.output()[-400:]}")
    [found] = wanted.lines(file, PORT)
    seen = {"established": False, "outcome": "tls13"}
    fields = {one: value for one, value in found.items() if one not in seen} | seen
    others = [one for one in fields if one not in seen]
    print(REFUSED, file.stat().st_size, "bytes", found.get("ssl_history"), flush=True)
    sources = {"seen": list(seen), "tshark": [*others, "last_alert", "gap"]}
    return [expected.line(fields, sources, ["last_alert", "gap"])]


def record(work: Path, folder: Path, name: str) -> list[Line]:
    if name == REFUSED:
        return refused(work, folder)
    return status(work, folder) if name == STATUS else ech(work, folder, name)
