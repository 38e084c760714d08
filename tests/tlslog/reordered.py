"""Parts that put segments or datagrams in another order, some twice, with the same lines."""

from __future__ import annotations

import random
from dataclasses import replace

from tests.support import packets
from tests.tlslog.program import Program, stop, without
from tests.tlslog.stored import OURS, Stored, of_packets

SEED = 2
# So many orders of each capture are tried.
ORDERS = 12
# A capture whose lines differ in another order is kept here.
FAILED = OURS / "out/failed.pcap"


def recut(chance: random.Random, segments: list[packets.Segment]) -> list[packets.Segment]:
    """The segments cut in other places, each run of a direction in another order, some twice."""
    found, run = [], []
    for s in [*[s for s in segments if not s.says_nothing()], None]:
        is_next = s and run and (s.source, s.ends) == (run[0].source, run[0].ends)
        if is_next and not s.flags & packets.SYN:
            run.append(s)
            continue
        parts = [part for whole in run for part in parts_of(chance, whole)]
        parts += chance.sample(parts, len(parts) // 4)
        chance.shuffle(parts)
        found += [replace(part, time=run[0].time) for part in parts]
        run = [s]
    return found


def parts_of(chance: random.Random, s: packets.Segment) -> list[packets.Segment]:
    size, count = len(s.payload), chance.choice([0, 1, 5, 40])
    places = sorted({0, size, *(chance.randrange(size + 1) for _ in range(count))})
    return [s.part(begin, end) for begin, end in zip(places, places[1:])] or [s]


def reordered(program: Program, captures: list[Stored]) -> None:
    """Segments cut in other places, shuffled and repeated: the stored lines, except counts and
    times. Encrypted records are counted up to the first that is out of order, and a stream without
    a captured SYN begins with its first segment."""
    chance, count, most = random.Random(SEED), 0, 0
    for capture in captures:
        if capture.segments[0].is_udp:
            continue
        orders = [recut(chance, capture.segments) for _ in range(ORDERS)]
        most = max(most, *map(len, orders))
        made = [packets.pcap([(s.time, s.frame()) for s in order]) for order in orders]
        counts = [f"{side}_{what}" for side in ("orig", "resp") for what in ("records", "bytes")]
        left_out = ["duration", *counts, *of_packets(capture.lines)]
        found = program.each(made, {0}, f"{capture.name}, reordered")
        for number, lines in enumerate(found):
            if without(left_out, lines) != without(left_out, capture.lines):
                FAILED.write_bytes(made[number])
                stop(f"{capture.name}, order {number} from seed {SEED}: other lines: {lines}")
        count += len(orders)
    print(f"tlslog: {count} captures with up to {most} reordered segments: the stored lines")


def is_plain(datagram: packets.Segment) -> bool:
    """Whether all its records are handshake messages in the clear: epoch 0, type 22."""
    at = 0
    while at < len(datagram.payload):
        if datagram.payload[at] != 22 or datagram.payload[at + 3 : at + 5] != bytes(2):
            return False
        at += 13 + int.from_bytes(datagram.payload[at + 11 : at + 13], "big")
    return True


def flights(datagrams: list[packets.Segment], is_whole: bool) -> list[list[packets.Segment]]:
    """Runs of datagrams of one side: whole flights, or their unencrypted parts."""
    found = []
    for datagram in datagrams:
        last = found[-1][-1] if found else None
        is_next = last and last.source == datagram.source
        if is_next and (is_whole or is_plain(last) and is_plain(datagram)):
            found[-1].append(datagram)
        else:
            found.append([datagram])
    return found


def shuffled(chance: random.Random, datagrams: list[packets.Segment], is_whole: bool) -> bytes:
    """A capture with each datagram once or twice, in another order within its flight. The times are
    those at which the flight's packets were captured."""
    found = []
    for flight in flights(datagrams, is_whole):
        parts = [datagram for datagram in flight for _ in range(chance.choice([1, 2]))]
        chance.shuffle(parts)
        for place, datagram in enumerate(parts):
            found.append((flight[min(place, len(flight) - 1)].time, datagram.frame()))
    return packets.pcap(found)


def datagrams_reordered(program: Program, captures: list[Stored]) -> None:
    """Datagrams shuffled within a flight and repeated: the stored lines. If a ChangeCipherSpec or
    encrypted record comes before a message of its flight, the line may have no handshake."""
    chance, count, others = random.Random(SEED), 0, 0
    for capture in captures:
        if not capture.segments[0].is_udp:
            continue
        left_out = ["duration", *of_packets(capture.lines)]
        for is_whole in (False, True):
            made = [shuffled(chance, capture.segments, is_whole) for _ in range(ORDERS)]
            found = program.each(made, {0}, f"{capture.name}, datagrams reordered")
            for number, lines in enumerate(found):
                is_same = without(left_out, lines) == without(left_out, capture.lines)
                if len(lines) != len(capture.lines) or not (is_same or is_whole):
                    FAILED.write_bytes(made[number])
                    what = f"order {number} of datagrams from seed {SEED}"
                    stop(f"{capture.name}, {what}: other lines: {lines}")
                others += not is_same
            count += len(made)
    print(f"tlslog: {count} captures with datagrams reordered: {others} with other lines")
