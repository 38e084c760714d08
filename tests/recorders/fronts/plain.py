"""A server that speaks plain text and then TLS (Python's ssl) on one connection, and counts the
bytes before TLS."""

from __future__ import annotations

import socket
import ssl
import threading
from collections.abc import Callable
from pathlib import Path

from tests.recorders import peers


class Plain:
    """The plain text of a connection. It is read byte by byte, so that no TLS byte is consumed."""

    def __init__(self, connection: socket.socket) -> None:
        self.connection, self.taken, self.said = connection, b"", b""

    def take(self, count: int) -> bytes:
        found = b""
        while len(found) < count:
            part = self.connection.recv(1)
            if not part:
                raise EOFError
            found += part
        self.taken += found
        return found

    def until(self, end: bytes, begin: bytes = b"") -> bytes:
        """Reads up to the first `end` after `begin`."""
        found = b""
        while begin not in found or not found[found.index(begin) :].endswith(end):
            found += self.take(1)
        return found

    def line(self) -> bytes:
        return self.until(b"\n")

    def say(self, text: bytes) -> None:
        self.said += text
        self.connection.sendall(text)


class Server(threading.Thread):
    """Serves one connection, and reports it in `seen`. If `highest` is None, no TLS follows the
    plain text."""

    def __init__(
        self, port: int, talk: Callable[[Plain], None], work: Path, highest: ssl.TLSVersion | None
    ) -> None:
        super().__init__(daemon=True)
        self.listener, self.talk, self.seen = peers.listener(port), talk, {}
        self.has_tls = highest is not None
        self.context = ssl.SSLContext(ssl.PROTOCOL_TLS_SERVER)
        self.context.load_cert_chain(work / "ec.pem", work / "ec.key")
        self.context.maximum_version = highest or ssl.TLSVersion.TLSv1_3
        self.context.sni_callback = self.note_name

    def note_name(self, _: object, name: str | None, __: object) -> None:
        self.seen["server_name"] = name

    def run(self) -> None:
        connection, _ = self.listener.accept()
        plain = Plain(connection)
        try:
            self.talk(plain)
            if self.has_tls:
                self.speak_tls(connection)
        except (OSError, EOFError) as fault:
            self.seen["fault"] = str(fault)
        connection.close()
        self.seen |= {
            "orig_front": len(plain.taken),
            "resp_front": len(plain.said),
            "client": plain.taken,
            "server": plain.said,
        }
        self.listener.close()

    def speak_tls(self, connection: socket.socket) -> None:
        with self.context.wrap_socket(connection, server_side=True) as talk:
            self.seen |= {"version": talk.version(), "cipher": talk.cipher()[0]}
            talk.settimeout(2)
            request = talk.recv(4096)
            if request.startswith(b"GET "):
                talk.sendall(b"HTTP/1.0 200 OK\r\nContent-Length: 3\r\n\r\nok\n")


class PacketServer(Server):
    """Speaks TLS in packets of TDS until the handshake is over, and then without ([MS-TDS], section
    2.2.6.5). It reads one message of the client, and closes."""

    HEADER, PRELOGIN, LAST = 8, 18, 1

    def speak_tls(self, connection: socket.socket) -> None:
        received, sent = ssl.MemoryBIO(), ssl.MemoryBIO()
        talk = self.context.wrap_bio(received, sent, server_side=True)
        while True:
            try:
                talk.do_handshake()
                break
            except ssl.SSLWantReadError:
                self.say(connection, sent.read())
                received.write(self.payload(connection))
        self.say(connection, sent.read())
        self.seen |= {"version": talk.version(), "cipher": talk.cipher()[0]}
        connection.settimeout(2)
        received.write(connection.recv(4096))
        self.seen["login"] = len(talk.read(4096))

    def payload(self, connection: socket.socket) -> bytes:
        header = self.exactly(connection, self.HEADER)
        if header[0] != self.PRELOGIN:
            raise OSError(f"a packet of type {header[0]}")
        return self.exactly(connection, int.from_bytes(header[2:4], "big") - self.HEADER)

    def exactly(self, connection: socket.socket, count: int) -> bytes:
        found = b""
        while len(found) < count:
            part = connection.recv(count - len(found))
            if not part:
                raise EOFError
            found += part
        return found

    def say(self, connection: socket.socket, tls: bytes) -> None:
        if tls:
            length = (len(tls) + self.HEADER).to_bytes(2, "big")
            connection.sendall(bytes([self.PRELOGIN, self.LAST]) + length + bytes(4) + tls)
