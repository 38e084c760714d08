"""The parts of a DTLS datagram (RFC 6347, sections 4.1 and 4.2), and a relay that injects datagrams
between two peers."""

from __future__ import annotations

import select
import socket
import threading
import time
from collections.abc import Callable
from dataclasses import dataclass, replace

from tests.recorders import peers

CHANGE, ALERT, HANDSHAKE, DATA = 20, 21, 22, 23
HELLO, SERVER_HELLO, VERIFY, CERTIFICATE, KEYS, DONE, CLIENT_KEYS = 1, 2, 3, 11, 12, 14, 16
CLIENT, SERVER = "client", "server"
RELAY_PORT, SERVER_PORT = 14434, 14433


@dataclass(frozen=True)
class Record:
    kind: int
    epoch: int
    number: int
    fragment: bytes
    version: int = 0xFEFD
    length: int = -1  # The length in its header, if it isn't the fragment's.

    def bytes(self) -> bytes:
        length = len(self.fragment) if self.length < 0 else self.length
        parts = ((self.kind, 1), (self.version, 2), (self.epoch, 2), (self.number, 6), (length, 2))
        return b"".join(value.to_bytes(count, "big") for value, count in parts) + self.fragment

    def message(self) -> Message | None:
        """Returns the message or fragment in a record of epoch 0, if it is the only one; else
        None."""
        at = self.fragment
        if self.kind != HANDSHAKE or self.epoch or len(at) < 12:
            return None
        length, number, offset = (
            int.from_bytes(part, "big") for part in (at[1:4], at[4:6], at[6:9])
        )
        return Message(at[0], length, number, offset, at[12:])

    def of(self, message: Message) -> Record:
        return replace(self, fragment=message.bytes())


@dataclass(frozen=True)
class Message:
    """A fragment of a handshake message. A whole message has offset 0, and as many bytes as its
    length."""

    kind: int
    length: int
    number: int
    offset: int
    body: bytes

    def bytes(self) -> bytes:
        parts = (
            (self.kind, 1),
            (self.length, 3),
            (self.number, 2),
            (self.offset, 3),
            (len(self.body), 3),
        )
        return b"".join(value.to_bytes(count, "big") for value, count in parts) + self.body

    def part(self, begin: int, end: int) -> Message:
        return replace(self, offset=begin, body=self.body[begin:end])


def records(datagram: bytes) -> list[Record]:
    found, at = [], 0
    while at + 13 <= len(datagram):
        head = datagram[at : at + 13]
        end = at + 13 + int.from_bytes(head[11:13], "big")
        version, epoch, number = (
            int.from_bytes(part, "big") for part in (head[1:3], head[3:5], head[5:11])
        )
        found.append(Record(head[0], epoch, number, datagram[at + 13 : end], version))
        at = end
    return found


def messages(datagram: bytes) -> list[tuple[Record, Message]]:
    return [(record, record.message()) for record in records(datagram) if record.message()]


def renamed(hello: bytes, old: bytes = b"example.test", new: bytes = b"forged.test.") -> bytes:
    """Returns the hello with another name of the same length."""
    if old not in hello or len(old) != len(new):
        raise ValueError("no such name")
    return hello.replace(old, new)


class Relay(threading.Thread):
    """Relays datagrams between one client and a server. A rule is called with the sender and the
    datagram, and returns the datagrams to send in its place."""

    def __init__(self, rule: Callable[[str, bytes], list[bytes]]) -> None:
        super().__init__(daemon=True)
        self.rule, self.is_over, self.client = rule, False, None
        self.handed = []  # Each datagram: its sender, its bytes, and what was sent in its place.
        self.near = peers.listener(RELAY_PORT, socket.SOCK_DGRAM)
        self.far = socket.socket(socket.AF_INET, socket.SOCK_DGRAM)
        self.far.bind((peers.HOST, 0))
        self.far.connect((peers.HOST, SERVER_PORT))

    def run(self) -> None:
        while not self.is_over:
            for end in select.select([self.near, self.far], [], [], 0.1)[0]:
                try:
                    if end is self.far:
                        self.hand_on(SERVER, self.far.recv(65536))
                    else:
                        datagram, self.client = self.near.recvfrom(65536)
                        self.hand_on(CLIENT, datagram)
                except OSError:
                    pass

    def hand_on(self, sender: str, datagram: bytes) -> None:
        placed = self.rule(sender, datagram)
        self.handed.append((sender, datagram, placed))
        for number, other in enumerate(placed):
            if number:
                time.sleep(0.02)
            if sender == CLIENT:
                self.far.send(other)
            elif self.client:
                self.near.sendto(other, self.client)

    def end(self) -> None:
        self.is_over = True
        self.join(3)
        self.near.close()
        self.far.close()
