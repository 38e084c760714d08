"""Captures without some packets: which to drop, and what their lines have to be.

A line is judged by the packets that are left, and by the whole capture's line.
"""

from __future__ import annotations

import ipaddress
import random
from collections import defaultdict
from collections.abc import Callable, Iterator

from tests.support import packets
from tests.support.shapes import Line

HALF = 2**31
HEADER = 5
CHANGE_CIPHER_SPEC, APPLICATION_DATA = 20, 23


def ends_in_line(line: Line) -> frozenset[tuple[str, int]]:
    return frozenset((line[f"id.{side}_h"], line[f"id.{side}_p"]) for side in ("orig", "resp"))


def in_text(end: packets.End) -> tuple[str, int]:
    address, port = end
    return str(ipaddress.ip_address(address)), int.from_bytes(port, "big")


def in_text_both(ends: frozenset[packets.End]) -> frozenset[tuple[str, int]]:
    return frozenset(map(in_text, ends))


def ahead(number: int, other: int) -> int:
    """Returns how far a number is after another; less than 0 if it is in front."""
    return (number - other + HALF) % 2**32 - HALF


def first(s: packets.Segment) -> int:
    return (s.sequence + bool(s.flags & packets.SYN)) % 2**32


class Sender:
    """What one side of a connection sent over TCP, by the segments that are there. Places are
    counted from its first."""

    def __init__(self, segments: list[packets.Segment]) -> None:
        self.begin = first(segments[0])
        self.segments = [
            (s, ahead(first(s), self.begin)) for s in segments if not s.flags & packets.RST
        ]

    def read_to(self) -> int:
        """How many bytes there are up to the first that is missing."""
        end = 0
        for s, place in sorted(self.segments, key=lambda pair: pair[1]):
            if place > end:
                break
            end = max(end, place + len(s.payload))
        return end

    def has_more(self, end: int, kinds: Callable[[packets.Segment], bool] = lambda s: True) -> bool:
        """Whether there is data further after."""
        return any(place + len(s.payload) > end for s, place in self.segments if kinds(s))

    def bytes(self) -> bytes:
        found = bytearray()
        for s, place in sorted(self.segments, key=lambda pair: pair[1]):
            found += s.payload[max(len(found) - place, 0) :]
        return bytes(found)


def clear(stream: bytes) -> int:
    """Returns how many bytes are before the first record of a side that may be encrypted. They
    are read, whatever else came."""
    at, has_changed = 0, False
    while at + HEADER <= len(stream):
        if has_changed or stream[at] == APPLICATION_DATA:
            return at
        has_changed = stream[at] == CHANGE_CIPHER_SPEC
        at += HEADER + int.from_bytes(stream[at + 3 : at + 5], "big")
    return len(stream)


class Whole:
    """A stored capture, by its connections."""

    def __init__(self, segments: list[packets.Segment], lines: list[Line]) -> None:
        self.lines = {ends_in_line(line): line for line in lines}
        self.senders = {ends: senders(found) for ends, found in connections(segments).items()}

    def wrong(self, left: list[packets.Segment], lines: list[Line]) -> str | None:
        """What is wrong with the lines of the segments that are left; None where nothing is."""
        there, had = connections(left), {}
        possible = self.lines.keys() & set(map(in_text_both, there))
        for line in lines:
            if ends_in_line(line) not in possible - had.keys():
                return f"a line of no connection: {line}"
            had[ends_in_line(line)] = line
        for ends, segments in there.items():
            if fault := self.wrong_of(ends, segments, had.get(in_text_both(ends))):
                return f"{fault}, in {sorted(in_text_both(ends))}"
        return None

    def wrong_of(
        self, ends: frozenset[packets.End], segments: list[packets.Segment], line: Line | None
    ) -> str | None:
        begun = segments[0]
        if line and line["ts"] != round(begun.time / 1_000_000, 6):
            return f"the line begins at {line['ts']}, and not at {begun.time}"
        if begun.is_udp:
            # The message numbers show whether the first ones are missing (`lacks_front`);
            # tests/units/tls_analyzer/associations has rows for that.
            return None
        is_missing, is_whole, is_told = set(), set(), False
        for source, sender in senders(segments).items():
            whole, end = self.senders[ends][source], sender.read_to()
            if sender.begin == whole.begin:
                is_told |= in_text_both(ends) in self.lines and end >= HEADER
                if end < clear(whole.bytes()) and sender.has_more(
                    end, lambda s: not s.says_nothing()
                ):
                    is_missing.add(source)
            # A packet after its sender's FIN is one number further than the last byte. If the FIN
            # is missing, it counts as a missing byte.
            if not sender.has_more(end):
                is_whole.add(source)
        if not line:
            return "no line" if is_told and not acknowledges_missing(segments) else None
        named = {"both": {"orig", "resp"}, None: set()}.get(line.get("gap"), {line.get("gap")})
        of = {(line[f"id.{side}_h"], line[f"id.{side}_p"]): side for side in ("orig", "resp")}
        waits = {
            side
            for side in ("orig", "resp")
            if {"ack", "window"} & {*line.get(f"{side}_dropped_for", [])}
        }
        lacking = {of[in_text(source)] for source in is_missing} - named - waits
        if lacking and not acknowledges_missing(segments):
            return f"no gap of {lacking}: {line}"
        if told := ({of[in_text(source)] for source in is_whole} & named) - waits:
            return f"a gap of {told}, of which no byte is missing: {line}"
        return None


def acknowledges_missing(segments: list[packets.Segment]) -> bool:
    """Whether one with data acknowledges bytes of the other side that weren't captured. It may be
    forged, so it waits, and counts as dropped where it isn't acknowledged itself."""
    behind = {}
    for s in segments:
        other = behind.get(s.destination, s.acknowledgment)
        if s.payload and 0 < (s.acknowledgment - other) % 2**32 < 2**31:
            return True
        end = (
            s.sequence + len(s.payload) + bool(s.flags & packets.SYN) + bool(s.flags & packets.FIN)
        )
        if (end - behind.get(s.source, end - 1)) % 2**32 < 2**31:
            behind[s.source] = end % 2**32
    return False


def connections(
    segments: list[packets.Segment],
) -> dict[frozenset[packets.End], list[packets.Segment]]:
    """The segments of each connection, from the one on that begins it."""
    found = defaultdict(list)
    for s in segments:
        if (
            found[s.ends]
            or s.is_udp
            or (not s.flags & packets.RST and (s.payload or s.flags & packets.SYN))
        ):
            found[s.ends].append(s)
    return {ends: there for ends, there in found.items() if there}


def senders(segments: list[packets.Segment]) -> dict[packets.End, Sender]:
    """What each side of a connection sent, if it sent anything but that it breaks off."""
    found = defaultdict(list)
    for s in segments:
        if not s.flags & packets.RST:
            found[s.source].append(s)
    return {source: Sender(there) for source, there in found.items()}


def choices(
    chance: random.Random, segments: list[packets.Segment], orders: int
) -> Iterator[set[int]]:
    """Sets of the indices of packets to drop: each alone, and this many times a few and about half of
    all."""
    yield from ({index} for index in range(len(segments)))
    for _ in range(orders):
        yield set(chance.sample(range(len(segments)), chance.randrange(2, 6)))
    for _ in range(orders):
        yield {index for index in range(len(segments)) if chance.randrange(2)}


def acknowledgements(
    chance: random.Random, segments: list[packets.Segment], orders: int
) -> Iterator[set[int]]:
    """The same of packets that only acknowledge: all, and some of them. Those after their sender's
    FIN stay."""
    ended, indices = set(), []
    for index, s in enumerate(segments):
        if s.flags & packets.FIN:
            ended.add((s.ends, s.source))
        elif not s.is_udp and s.says_nothing() and (s.ends, s.source) not in ended:
            indices.append(index)
    if indices:
        yield set(indices)
    for _ in range(orders if indices else 0):
        yield set(chance.sample(indices, chance.randrange(1, len(indices) + 1)))
