"""Captures of a ClientHello in the form of SSL 2.0 (RFC 5246, appendix E.2). No client sends it
today, so this one is made by hand. It completes a handshake of TLS 1.2 with RSA and AES-CBC, so
that a live server prints what it accepted."""

from __future__ import annotations

import hashlib
import hmac
import os
import re
import socket
import subprocess
import time
from pathlib import Path

from tests.recorders import peers
from tests.recorders.fronts import expected
from tests.support.shapes import Line

PORT = 14433
SUITES = bytes.fromhex(
    "00002f 000035 00003c 0000ff 010080 0700c0"
)  # Suites of TLS, the SCSV, and two suites of SSL 2.0.
OF_SSL_2 = bytes.fromhex("010080 0700c0")
SERVERS = {
    "ssl2_hello": "openssl s_server -accept 127.0.0.1:14433 -cert rsa.pem -key rsa.key -tls1_2 -msg -cipher DEFAULT:@SECLEVEL=0",
    "ssl2_hello_session": "openssl s_server -accept 127.0.0.1:14433 -cert rsa.pem -key rsa.key -tls1_2 -msg -cipher DEFAULT:@SECLEVEL=0",
    "ssl2_hello_gnutls": "gnutls-serv -p 14433 --echo --priority NORMAL:+RSA --x509certfile rsa.pem --x509keyfile rsa.key --disable-client-cert",
    "ssl2_hello_only_tls13": "openssl s_server -accept 127.0.0.1:14433 -cert rsa.pem -key rsa.key -tls1_3 -msg",
    "ssl2_hello_of_ssl2": "openssl s_server -accept 127.0.0.1:14433 -cert rsa.pem -key rsa.key -msg",
}
NAMES = list(SERVERS)


def hello(version: int, suites: bytes, session: bytes, challenge: bytes) -> bytes:
    """Returns the hello behind its 2-byte length, whose highest bit is set."""
    lengths = b"".join(len(part).to_bytes(2, "big") for part in (suites, session, challenge))
    body = b"\1" + version.to_bytes(2, "big") + lengths + suites + session + challenge
    return (0x8000 | len(body)).to_bytes(2, "big") + body


def prf(secret: bytes, label: bytes, seed: bytes, count: int) -> bytes:
    """Computes the PRF of TLS 1.2 (RFC 5246, section 5)."""
    at, found = label + seed, b""
    while len(found) < count:
        at = hmac.digest(secret, at, "sha256")
        found += hmac.digest(secret, at + label + seed, "sha256")
    return found[:count]


def aes(key: bytes, iv: bytes, text: bytes) -> bytes:
    """Encrypts with AES-128-CBC, by the command `openssl`."""
    words = ["openssl", "enc", "-aes-128-cbc", "-nopad", "-K", key.hex(), "-iv", iv.hex()]
    return subprocess.run(words, input=text, stdout=subprocess.PIPE, check=True).stdout


def modulus(work: Path) -> int:
    words = "openssl x509 -in rsa.pem -noout -modulus".split()
    return int(
        subprocess.run(words, cwd=work, stdout=subprocess.PIPE, text=True, check=True).stdout.split(
            "="
        )[1],
        16,
    )


def record_of(kind: int, fragment: bytes) -> bytes:
    return bytes([kind, 3, 3]) + len(fragment).to_bytes(2, "big") + fragment


def message(kind: int, body: bytes) -> bytes:
    return bytes([kind]) + len(body).to_bytes(3, "big") + body


class Client:
    """The client of one connection."""

    def __init__(self, connection: socket.socket, work: Path) -> None:
        self.connection, self.work, self.sequence = connection, work, 0

    def exact(self, count: int) -> bytes:
        found = b""
        while len(found) < count:
            part = self.connection.recv(count - len(found))
            if not part:
                raise EOFError
            found += part
        return found

    def take(self) -> tuple[int, bytes]:
        head = self.exact(5)
        return head[0], self.exact(int.from_bytes(head[3:], "big"))

    def messages_to_done(self) -> bytes:
        """Receives the server's messages up to its ServerHelloDone."""
        found = b""
        while not found.endswith(message(14, b"")):
            kind, fragment = self.take()
            if kind != 22:
                raise EOFError(f"a record of type {kind}: {fragment.hex()}")
            found += fragment
        return found

    def sealed(self, kind: int, text: bytes) -> bytes:
        """Returns a record protected by TLS_RSA_WITH_AES_128_CBC_SHA (RFC 5246, 6.2.3.2)."""
        head = self.sequence.to_bytes(8, "big") + bytes([kind, 3, 3]) + len(text).to_bytes(2, "big")
        self.sequence += 1
        text += hmac.digest(self.mac_key, head + text, "sha1")
        pad = 15 - len(text) % 16
        iv = os.urandom(16)
        return record_of(kind, iv + aes(self.key, iv, text + bytes([pad]) * (pad + 1)))

    def talk(self, first: bytes, challenge: bytes) -> None:
        self.connection.sendall(first)
        answer = self.messages_to_done()
        server_random = answer[6:38]
        whole = modulus(self.work)
        size, secret = (whole.bit_length() + 7) // 8, b"\3\3" + bytes(range(46))
        padded = b"\0\2" + b"\x55" * (size - 3 - len(secret)) + b"\0" + secret
        sealed = pow(int.from_bytes(padded, "big"), 65537, whole).to_bytes(size, "big")
        keys = message(16, size.to_bytes(2, "big") + sealed)
        random = challenge.rjust(32, b"\0")  # RFC 5246, appendix E.2.
        master = prf(secret, b"master secret", random + server_random, 48)
        block = prf(master, b"key expansion", server_random + random, 72)
        self.mac_key, self.key = block[:20], block[40:56]
        said = first[2:] + answer + keys  # The hello without its length.
        finished = message(20, prf(master, b"client finished", hashlib.sha256(said).digest(), 12))
        self.connection.sendall(
            record_of(22, keys) + record_of(20, b"\1") + self.sealed(22, finished)
        )
        while self.take()[0] != 20:
            pass
        self.take()
        self.connection.sendall(
            self.sealed(23, b"hello of an old form\n") + self.sealed(21, b"\1\0")
        )


def record(work: Path, folder: Path, name: str) -> list[Line]:
    file, server = folder / f"{name}.pcap", peers.Peer(
        work, "stdbuf -oL " + SERVERS[name], "server"
    )
    time.sleep(0.5)
    challenge = (
        bytes(range(0x40, 0x60)) if name != "ssl2_hello_session" else bytes(range(0x40, 0x50))
    )
    session = bytes(range(16)) if name == "ssl2_hello_session" else b""
    of_ssl2 = name == "ssl2_hello_of_ssl2"
    first = hello(2 if of_ssl2 else 0x303, OF_SSL_2 if of_ssl2 else SUITES, session, challenge)
    fault = ""
    with peers.Dump(file, f"tcp port {PORT}"):
        with socket.create_connection((peers.HOST, PORT), timeout=4) as connection:
            try:
                Client(connection, work).talk(first, challenge)
                server.waits_for(["hello of an old form"], 1)
            except (OSError, EOFError) as fault_:
                fault = repr(fault_)
        time.sleep(0.3)
    server.kill()
    kept = [
        line
        for line in server.output().splitlines()
        if re.search("rror|hello of|CIPHER|content_type=0", line)
    ]
    print(name, file.stat().st_size, "bytes", fault, kept, flush=True)
    return expected.of_old_hello(file, first, fault)
