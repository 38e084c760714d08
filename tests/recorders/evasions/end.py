"""A TCP endpoint in this program. Each field of its segments can be set: numbers, flags, window,
timestamp and checksum."""

from __future__ import annotations

import struct
from typing import TYPE_CHECKING, Any

from tests.recorders.evasions import wire
from tests.recorders.evasions.wire import ACK, FIN, PSH, SYN
from tests.support import fragmenting

if TYPE_CHECKING:
    from tests.recorders.evasions.room import Room

# If the host acknowledges a segment of ours, it does so within this time, in seconds.
SOON = 0.06
LONG = 3.0
# The first value of our timestamp clock, in milliseconds.
CLOCK = 5_000_000


def before(one: int, other: int) -> bool:
    return (one - other) % 2**32 >= 2**31


class End:
    def __init__(
        self,
        room: Room,
        address: wire.Address,
        port: int,
        to_address: wire.Address,
        to_port: int,
        number: int = 1000,
        has_stamps: bool = True,
        scale: int | None = 7,
        window: int = 64000,
        size: int = 1400,
    ) -> None:
        self.room, self.wire = room, room.wire
        self.address, self.port, self.to_address, self.to_port = address, port, to_address, to_port
        self.first = self.next = number
        self.expected = None  # The host's next sequence number.
        self.its_first = None
        self.has_stamps, self.scale, self.window, self.size = has_stamps, scale, window, size
        self.clock, self.its_stamp, self.ticks = CLOCK, 0, 0
        self.both_stamp = False
        self.acked = number
        self.heard = b""
        self.its_window = self.its_scale = 0
        self.its_fin = False
        self.seen = []  # The segments that the host sent, in order.
        self.macs = wire.HOST_MAC + wire.OUR_MAC
        self.fragments = ()  # The ECN fields of a packet's two fragments; none: it is whole.
        self.identification = 0

    # Sending.

    def options_of_syn(self, cookie: bytes | None = None) -> bytes:
        found = struct.pack(">BBH", wire.SIZE, 4, self.size)
        found += bytes([wire.MAY_SELECT, 2]) if self.has_stamps else b"\1\1"
        if self.has_stamps:
            found += struct.pack(">BBII", wire.STAMP, 10, self.stamp(), self.its_stamp)
        if self.scale is not None:
            found += bytes([wire.NOTHING, wire.SCALE, 3, self.scale])
        if cookie is not None:
            found += bytes([wire.COOKIE, 2 + len(cookie)]) + cookie
        return found + bytes([wire.NOTHING]) * (-len(found) % 4)

    def stamp(self) -> int:
        """Returns the next timestamp: each segment is sent a millisecond later."""
        self.ticks += 1
        return self.clock + self.ticks

    def options(self, stamp: int | bool | None, echo: int | None) -> bytes:
        if stamp is False or not (self.both_stamp or stamp):
            return b""
        value = self.stamp() if stamp in (None, True) else stamp
        return b"\1\1" + struct.pack(
            ">BBII", wire.STAMP, 10, value, self.its_stamp if echo is None else echo
        )

    def send(
        self,
        flags: int = ACK,
        payload: bytes = b"",
        number: int | None = None,
        ack: int | None = None,
        window: int | None = None,
        urgent: int = 0,
        options: bytes | None = None,
        spoilt: tuple[str, ...] = (),
        words: int | None = None,
        **more: Any,
    ) -> None:
        """Sends a segment without changing the state. Fields that aren't given have correct
        values. `words` is the header's length field; `more` sets the timestamp, its echo, and
        whether the segment is recorded and delivered."""
        stamp, echo = more.pop("stamp", None), more.pop("echo", None)
        if options is None:
            options = self.options_of_syn() if flags & SYN else self.options(stamp, echo)
        number = self.next if number is None else number
        ack = (self.expected or 0 if flags & ACK else 0) if ack is None else ack
        window = self.window if window is None else window
        if self.scale and self.its_scale is not None and not flags & SYN:
            window >>= self.scale
        words = (20 + len(options)) // 4 if words is None else words
        numbers = self.port, self.to_port, number % 2**32, ack % 2**32
        head = struct.pack(">2H2I2B3H", *numbers, words << 4, flags, min(window, 65535), 0, urgent)
        one = wire.frame(
            self.address,
            self.to_address,
            wire.TCP,
            head + options + payload,
            spoilt,
            macs=self.macs,
        )
        for part in self.in_fragments(one):
            self.room.sent(self, part, flags, payload, number, **more)

    def in_fragments(self, one: bytes) -> list[bytes]:
        if not self.fragments:
            return [one]
        self.identification += 1
        return fragmenting.halves_of_ecn(one, self.identification, self.fragments)

    def say(self, payload: bytes, flags: int = PSH | ACK, **more: Any) -> None:
        """Sends the next bytes and advances past them."""
        self.send(flags, payload, **more)
        self.move(payload, flags)

    def move(self, payload: bytes, flags: int = 0) -> None:
        self.next = (self.next + len(payload) + bool(flags & (SYN | FIN))) % 2**32

    def in_name_of_host(self) -> End:
        """Returns an endpoint that forges packets from the host to us. They are recorded, but not
        delivered."""
        other = End(self.room, self.to_address, self.to_port, self.address, self.port)
        other.macs = wire.OUR_MAC + wire.HOST_MAC
        other.expected, other.its_scale, other.both_stamp = self.next, self.scale, self.both_stamp
        other.next, other.clock, other.its_stamp = (
            self.expected,
            self.its_stamp,
            self.clock + self.ticks,
        )
        return other

    # Receiving.

    def receive(self, wait: float = SOON) -> wire.Packet | None:
        """Returns the host's next segment to this endpoint, or None if none arrives. In-order bytes
        are added to those received."""
        while True:
            packet = self.wire.receive(wait)
            if packet is None:
                return None
            if (
                packet.ports == (self.to_port, self.port)
                and packet.destination == self.address
                and packet.protocol == wire.TCP
            ):
                break
        self.seen.append(packet)
        self.take(packet)
        return packet

    def take(self, packet: wire.Packet) -> None:
        stamp = packet.option(wire.STAMP)
        if packet.flags & SYN:
            self.its_first = packet.number
            self.expected = packet.end if not packet.payload else (packet.number + 1) % 2**32
            scale = packet.option(wire.SCALE)
            self.its_scale = scale[0] if scale and self.scale is not None else None
            self.both_stamp = bool(stamp) and self.has_stamps
        if packet.flags & wire.RST:
            return
        if stamp:
            self.its_stamp = int.from_bytes(stamp[:4], "big")
        if packet.flags & ACK:
            self.acked = packet.ack
            self.its_window = packet.window << (
                self.its_scale or 0 if not packet.flags & SYN else 0
            )
        if packet.flags & SYN or self.expected is None or packet.number != self.expected:
            return
        self.heard += packet.payload
        self.expected = packet.end
        self.its_fin |= bool(packet.flags & FIN)

    def replies(self, wait: float = SOON) -> list[wire.Packet]:
        """Returns what the host sends until it is silent for this long."""
        found = []
        while (packet := self.receive(wait)) is not None:
            found.append(packet)
        return found

    def hear(self, wait: float = LONG) -> bytes:
        """Receives and acknowledges the next bytes; none if the host closed or is silent."""
        while not self.heard:
            packet = self.receive(wait)
            if packet is None or packet.flags & wire.RST:
                return b""
            if packet.flags & FIN and not packet.payload:
                return b""
        while (packet := self.receive(0.004)) is not None:
            pass
        self.send(ACK)
        found, self.heard = self.heard, b""
        return found

    # Opening and closing.

    def open(self, **more: Any) -> wire.Packet:
        """Opens the connection as the originator."""
        self.send(SYN, **more)
        self.next = (self.first + 1) % 2**32
        answer = self.receive(LONG)
        if answer is None or answer.flags & (SYN | ACK) != SYN | ACK:
            raise RuntimeError(f"no SYN/ACK: {answer and answer.words()}")
        self.send(ACK)
        return answer

    def accept(self) -> wire.Packet:
        """Accepts a connection: waits for a SYN and answers it."""
        asked = self.receive(LONG)
        self.send(SYN | ACK)
        self.next = (self.first + 1) % 2**32
        answer = self.receive(LONG)
        if answer is None or answer.ack != self.next:
            raise RuntimeError("the SYN/ACK wasn't acknowledged")
        return asked

    def close(self) -> None:
        """Sends a FIN, waits for the host's, and acknowledges it."""
        self.say(b"", FIN | ACK)
        while not self.its_fin:
            packet = self.receive(LONG)
            if packet is None or packet.flags & wire.RST:
                return
        self.send(ACK)
        self.replies(0.01)

    def answer_close(self) -> None:
        """Waits for the host's FIN and closes too."""
        while not self.its_fin:
            if self.receive(LONG) is None:
                raise RuntimeError("the host doesn't close")
        self.say(b"", FIN | ACK)
        self.replies(0.02)
