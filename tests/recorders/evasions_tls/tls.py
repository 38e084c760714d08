"""The records of a TLS stream (RFC 8446, section 5.1), and a relay that injects bytes between two
peers."""

from __future__ import annotations

import select
import socket
import threading
import time
from typing import Any

from tests.recorders import peers

CHANGE, ALERT, HANDSHAKE, DATA = 20, 21, 22, 23
HELLO, SERVER_HELLO = 1, 2
CLIENT, SERVER = "client", "server"
RELAY_PORT, SERVER_PORT = 14434, 14433
# A forged ServerHello of TLS 1.2 (RFC 5246, section 7.4.1.3): no session, suite 0xc02b, no
# extensions.
STRAY_SERVER_HELLO = (
    bytes.fromhex("16 03 03 00 2a 02 00 00 26 03 03") + b"\x5a" * 32 + bytes.fromhex("00 c0 2b 00")
)


def records(stream: bytes) -> tuple[list[bytes], bytes]:
    """Returns the complete records with their headers, and the remaining bytes."""
    found, at = [], 0
    while at + 5 <= len(stream) and at + 5 + int.from_bytes(stream[at + 3 : at + 5], "big") <= len(
        stream
    ):
        end = at + 5 + int.from_bytes(stream[at + 3 : at + 5], "big")
        found.append(stream[at:end])
        at = end
    return found, stream[at:]


def is_message(record: bytes, kind: int) -> bool:
    return record[0] == HANDSHAKE and record[5] == kind


class Relay(threading.Thread):
    """Relays one connection record by record. A rule is called with the sender and a record, and
    returns the byte strings to send in its place: each in a separate segment, followed by the
    rule's pause."""

    def __init__(self, rule: Any) -> None:
        super().__init__(daemon=True)
        self.rule, self.is_over = rule, False
        self.listener = peers.listener(RELAY_PORT)

    def run(self) -> None:
        if not select.select([self.listener], [], [], 5)[0]:
            return
        client = self.listener.accept()[0]
        server = socket.create_connection((peers.HOST, SERVER_PORT))
        for end in (client, server):
            end.setsockopt(socket.IPPROTO_TCP, socket.TCP_NODELAY, 1)
        left, ends = {CLIENT: b"", SERVER: b""}, {
            client: (server, CLIENT),
            server: (client, SERVER),
        }
        while ends and not self.is_over:
            for end in select.select(list(ends), [], [], 0.1)[0]:
                other, sender = ends[end]
                try:
                    piece = end.recv(65536)
                    if not piece:
                        other.shutdown(socket.SHUT_WR)
                        del ends[end]
                        continue
                    found, left[sender] = records(left[sender] + piece)
                    self.hand_on(other, sender, found)
                except OSError:
                    ends.pop(end, None)
        client.close()
        server.close()

    def hand_on(self, other: socket.socket, sender: str, found: list[bytes]) -> None:
        """Sends records by the rule. Those that it leaves alone are sent together."""
        waiting = b""
        for record in found:
            placed = self.rule(sender, record)
            if len(placed) == 1:
                waiting += placed[0]
                continue
            if waiting:
                other.sendall(waiting)
                time.sleep(self.rule.pause)
            for part in placed[:-1]:
                other.sendall(part)
                time.sleep(self.rule.pause)
            waiting = placed[-1]
        if waiting:
            other.sendall(waiting)

    def end(self) -> None:
        self.is_over = True
        self.join(3)
        self.listener.close()
