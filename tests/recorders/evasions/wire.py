"""A wire between this program and this machine's kernel: an Ethernet device (TAP).

Every frame on it is recorded. Frames are built and parsed here, with the checksums of IP, TCP and
UDP.
"""

from __future__ import annotations

import fcntl
import ipaddress
import os
import select
import socket
import struct
import time
from dataclasses import dataclass
from typing import Union

from tests.support import packets

FIN, SYN, RST, PSH, ACK, URG = 1, 2, 4, 8, 16, 32
LETTERS = "FSRPAU"
Address = Union[ipaddress.IPv4Address, ipaddress.IPv6Address]
TCP, UDP = 6, 17
HOST_MAC, OUR_MAC = b"\x02\0\0\0\0\1", b"\x02\0\0\0\0\2"
DEVICE = "wire0"
TUNSETIFF, TUNSETOFFLOAD = 0x400454CA, 0x400454D0
TAP, NAPI, NO_FRONT, HAS_FRONT, OFFLOADS, FRONT = 2, 0x10, 0x1000, 0x4000, 1 | 2 | 4, 10
ALL_PROTOCOLS = 3
# TCP option kinds (RFC 9293, section 3.2; RFC 7323; RFC 2018; RFC 7413).
END, NOTHING, SIZE, SCALE, MAY_SELECT, SELECTED, STAMP, COOKIE = 0, 1, 2, 3, 4, 5, 8, 34


def sum_of(*parts: bytes) -> int:
    """Returns the Internet checksum (RFC 1071) before it is complemented."""
    data = b"".join(parts)
    data += bytes(len(data) % 2)
    total = sum(struct.unpack(f">{len(data) // 2}H", data))
    while total >> 16:
        total = (total & 0xFFFF) + (total >> 16)
    return total


def checksum(*parts: bytes) -> int:
    return 0xFFFF ^ sum_of(*parts)


def front_of_sum(source: Address, destination: Address, protocol: int, length: int) -> bytes:
    """Returns the pseudo header (RFC 9293, section 3.1; RFC 8200, section 8.1)."""
    return source.packed + destination.packed + struct.pack(">IBBBB", length, 0, 0, 0, protocol)


@dataclass
class Packet:
    """A segment or datagram from the host."""

    time: int
    source: Address
    destination: Address
    protocol: int
    ports: tuple
    number: int = 0
    ack: int = 0
    flags: int = 0
    window: int = 0
    urgent: int = 0
    options: bytes = b""
    payload: bytes = b""

    @property
    def end(self) -> int:
        """Returns the sequence number after it."""
        return (
            self.number + len(self.payload) + bool(self.flags & SYN) + bool(self.flags & FIN)
        ) % 2**32

    def option(self, kind: int) -> bytes | None:
        at = 0
        while at < len(self.options) and self.options[at] != END:
            if self.options[at] == NOTHING:
                at += 1
                continue
            if self.options[at] == kind:
                return self.options[at + 2 : at + self.options[at + 1]]
            at += self.options[at + 1]
        return None

    def name(self) -> str:
        return flag_names(self.flags)

    def words(self) -> str:
        return ", ".join(
            [flag_names(self.flags), f"number {self.number}"]
            + ([f"acknowledging {self.ack}"] if self.flags & ACK else [])
            + ([f"{len(self.payload)} bytes"] if self.payload else [])
        )


def flag_names(flags: int) -> str:
    names = {"F": "FIN", "S": "SYN", "R": "RST", "P": "PSH", "A": "ACK", "U": "URG"}
    found = [
        names[letter] for bit, letter in enumerate(LETTERS) if flags >> bit & 1 and letter != "P"
    ]
    return "/".join(sorted(found, key=["SYN", "RST", "FIN", "URG", "ACK"].index)) or "no flag"


def parse(stamp: int, frame: bytes) -> Packet | None:
    """Parses a frame. Returns its TCP or UDP packet, or None for other protocols."""
    kind, front = frame[12:14], 14
    if kind == b"\x08\x00":
        protocol, source, destination = frame[23], frame[26:30], frame[30:34]
        at, end = front + 4 * (frame[front] & 15), front + int.from_bytes(frame[16:18], "big")
    elif kind == b"\x86\xdd":
        protocol, source, destination = frame[20], frame[22:38], frame[38:54]
        at, end = front + 40, front + 40 + int.from_bytes(frame[18:20], "big")
    else:
        return None
    source, destination = ipaddress.ip_address(source), ipaddress.ip_address(destination)
    if protocol == UDP:
        ports = struct.unpack(">2H", frame[at : at + 4])
        return Packet(stamp, source, destination, protocol, ports, payload=frame[at + 8 : end])
    if protocol != TCP:
        return None
    one, other, number, ack, offset, flags, window, _, urgent = struct.unpack(
        ">2H2I2B3H", frame[at : at + 20]
    )
    data = at + 4 * (offset >> 4)
    return Packet(
        stamp,
        source,
        destination,
        protocol,
        (one, other),
        number,
        ack,
        flags,
        window,
        urgent,
        frame[at + 20 : data],
        frame[data:end],
    )


def frame(
    source: Address,
    destination: Address,
    protocol: int,
    upper: bytes,
    spoilt: tuple[str, ...] = (),
    place: int = 16,
    macs: bytes = HOST_MAC + OUR_MAC,
) -> bytes:
    """Returns a frame around a segment, addressed to the host unless Ethernet addresses are given.
    Fills in the checksum at `place`. `spoilt` lists checksums to falsify: "sum" of TCP or UDP, "ip"
    of the IPv4 header. "none" leaves that of TCP or UDP 0, and "partial" as for checksum
    offload."""
    if "none" not in spoilt:
        value = checksum(front_of_sum(source, destination, protocol, len(upper)), upper)
        value ^= 0x5555 if "sum" in spoilt else 0
        value = (
            sum_of(front_of_sum(source, destination, protocol, len(upper)))
            if "partial" in spoilt
            else value
        )
        upper = upper[:place] + struct.pack(">H", value or 0xFFFF) + upper[place + 2 :]
    if source.version == 6:
        ip = (
            struct.pack(">IHBB", 6 << 28, len(upper), protocol, 64)
            + source.packed
            + destination.packed
        )
        return macs + b"\x86\xdd" + ip + upper
    ip = (
        struct.pack(">BBHHHBBH", 0x45, 0, 20 + len(upper), 0, 0x4000, 64, protocol, 0)
        + source.packed
        + destination.packed
    )
    value = checksum(ip) ^ (0x5555 if "ip" in spoilt else 0)
    return macs + b"\x08\x00" + ip[:10] + struct.pack(">H", value) + ip[12:] + upper


class Wire:
    """Records both directions in order. Before it sends a frame, it records those that the kernel
    sent.

    Frames with none of our `ports` are left over from earlier scenes, and are skipped.

    With `offloads` the kernel leaves checksums and segmentation to the device, which is this
    program. The capture then has the packets as a capture on the kernel's machine has them: before
    offload."""

    def __init__(self, ports: set[int], offloads: bool = False, device: str = DEVICE) -> None:
        self.file = os.open("/dev/net/tun", os.O_RDWR | os.O_NONBLOCK)
        kind = TAP | NO_FRONT | (HAS_FRONT | NAPI if offloads else 0)
        fcntl.ioctl(self.file, TUNSETIFF, struct.pack("16sH22x", device.encode(), kind))
        self.front, self.watch = 0, None
        if offloads:
            self.front = FRONT
            self.watch = socket.socket(
                socket.AF_PACKET, socket.SOCK_RAW, socket.htons(ALL_PROTOCOLS)
            )
            self.watch.bind((device, 0))
            self.watch.setblocking(False)
        fcntl.ioctl(self.file, TUNSETOFFLOAD, OFFLOADS if offloads else 0)
        self.ports, self.recorded, self.waiting, self.records = ports, [], [], True

    def now(self) -> int:
        last = self.recorded[-1][0] if self.recorded else 0
        return max(time.time_ns() // 1000, last)

    def note(self, one: bytes) -> None:
        if self.records:
            self.recorded.append((self.now(), one))

    def is_ours(self, packet: Packet | None) -> bool:
        return packet is not None and not self.ports.isdisjoint(packet.ports)

    def look(self) -> None:
        """Records the frames as they are seen on the kernel's machine."""
        while self.watch:
            try:
                one = self.watch.recv(70000)
            except BlockingIOError:
                return
            if self.is_ours(parse(0, one)):
                self.note(one)

    def drain(self) -> None:
        self.look()
        while True:
            try:
                one = os.read(self.file, 70000)[self.front :]
            except BlockingIOError:
                return
            packet = parse(self.now(), one)
            if not self.is_ours(packet):
                continue
            self.waiting.append(packet)
            if not self.watch:
                self.note(one)

    def send(self, one: bytes, is_recorded: bool = True, is_delivered: bool = True) -> int:
        """Sends a frame. Returns its number in the capture, counted from 1."""
        self.drain()
        place = len(self.recorded) + 1
        if is_recorded and not self.watch:
            self.note(one)
        if is_delivered:
            os.write(self.file, bytes(self.front) + one)
        return place

    def receive(self, wait: float) -> Packet | None:
        """Returns the host's next packet, or None after this many seconds without one."""
        limit = time.monotonic() + wait
        while True:
            self.drain()
            if self.waiting:
                return self.waiting.pop(0)
            left = limit - time.monotonic()
            if left <= 0 or not select.select([self.file], [], [], left)[0]:
                self.drain()
                return self.waiting.pop(0) if self.waiting else None

    def pcap(self) -> bytes:
        self.drain()
        return packets.pcap(self.recorded)

    def close(self) -> None:
        if self.watch:
            self.watch.close()
        os.close(self.file)
