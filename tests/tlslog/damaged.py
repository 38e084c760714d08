"""Parts that damage a capture: truncated, without some packets, with other bytes."""

from __future__ import annotations

import random

from tests.support import packets
from tests.support.shapes import Line
from tests.tlslog import missing_packets
from tests.tlslog.program import Program, key, stop, without
from tests.tlslog.stored import Stored

SEED = 2
# So many choices of packets are dropped from each capture.
ORDERS = 12
# So many captures with other bytes are made of each.
CHANGED = 60
# What a wrong checksum differs by.
OTHER = 0x57A2
ACK = 16
DROPPED = [f"{side}_dropped_{what}" for side in ("orig", "resp") for what in ("pkts", "for")]
# Of the second program, only places so near to a packet's end are tried.
NEAR = 3


def cut(program: Program, captures: list[Stored]) -> None:
    """Each truncated at each byte: the lines of the connections that ended before, and of others no
    more than there are."""
    count = 0
    for capture in captures:
        behind = dict(zip(packets.ends_of_packets(capture.bytes), capture.ended()))
        behind[packets.FILE_HEADER] = 0
        whole, broken, ended = [], [], 0
        for place in range(len(capture.bytes) + 1):
            ended = behind.get(place, ended)
            is_near = any(near in behind for near in range(place - NEAR, place + NEAR + 1))
            if place in behind:
                whole.append((place, ended))
            elif program.is_cut_everywhere or is_near:
                broken.append((place, ended))
        for places, status in ((whole, 0), (broken, 1)):
            fronts = [capture.bytes[:place] for place, _ in places]
            found = program.each(fronts, {status}, f"{capture.name}, cut")
            for (place, ended), lines in zip(places, found):
                judge_cut(capture, place, ended, lines)
        count += len(whole) + len(broken)
    print(f"tlslog: {len(captures)} captures, cut at {count} places")


def judge_cut(capture: Stored, place: int, ended: int, lines: list[Line]) -> None:
    others = {key(line) for line in capture.lines[ended:]}
    is_front = lines[:ended] == capture.lines[:ended] and len(lines) <= len(capture.lines)
    if not is_front or not {key(line) for line in lines[ended:]} <= others:
        stop(f"{capture.name}, cut at {place}: {lines}")


def dropped(program: Program, captures: list[Stored]) -> None:
    """Reads each capture without some packets. It must only have lines of its
    connections, and a gap on each side that lacks bytes before others. Without bare acknowledgements it must
    have the stored lines, except for counts of packets and times."""
    chance, counts = random.Random(SEED), []
    for choose in (missing_packets.choices, missing_packets.acknowledgements):
        count = 0
        for capture in captures:
            whole = missing_packets.Whole(capture.segments, capture.lines)
            chosen = list(choose(chance, capture.segments, ORDERS))
            left = [
                [s for index, s in enumerate(capture.segments) if index not in some]
                for some in chosen
            ]
            made = [packets.pcap([(s.time, s.frame()) for s in some]) for some in left]
            found = program.each(made, {0}, f"{capture.name}, packets dropped")
            left_out = ["duration", "orig_pkts", "resp_pkts"]
            wanted = without(left_out, capture.lines)
            for some, segments, lines in zip(chosen, left, found):
                fault = whole.wrong(segments, lines)
                is_bare = choose == missing_packets.acknowledgements
                if is_bare and without(left_out, lines) != wanted:
                    fault = f"other lines: {lines}"
                if fault:
                    stop(f"{capture.name} without the packets {sorted(some)}: {fault}")
            count += len(made)
        counts.append(count)
    print(f"tlslog: {counts[0]} captures without some packets: lines of their own, with the gaps")
    print(f"tlslog: {counts[1]} captures without acknowledgements: the stored lines")


def with_wrong_checksum(s: packets.Segment) -> bytes:
    """Its bytes with another checksum of TCP than it should have."""
    frame, place = bytearray(s.frame()), len(s.front) + 16
    found = int.from_bytes(frame[place : place + 2], "big")
    frame[place : place + 2] = (found ^ OTHER).to_bytes(2, "big")
    return bytes(frame)


def offloaded(program: Program, captures: list[Stored]) -> None:
    """The client's data with wrong checksums, behind a right SYN: so a network card leaves it that
    writes them behind the capture. The lines must be the stored ones, except for counts of packets
    and times."""
    left_out = ["duration", "orig_pkts", "resp_pkts", *DROPPED]
    count = 0
    for capture in captures:
        clients = {
            s.source for s in capture.segments if s.flags & (packets.SYN | ACK) == packets.SYN
        }
        if not clients:
            continue
        of_client = [
            (
                s.time,
                with_wrong_checksum(s) if s.payload and s.source in clients else s.frame(),
            )
            for s in capture.segments
        ]
        found = program.each([packets.pcap(of_client)], {0}, f"{capture.name}, offloaded")
        if without(left_out, found[0]) != without(left_out, capture.lines):
            stop(f"{capture.name}, the client's checksums written later: {found[0]}")
        count += 1
    print(f"tlslog: {count} captures with the client's checksums written later: the stored lines")


def changed(program: Program, captures: list[Stored]) -> None:
    """Bytes changed at random: the program ends, whatever its lines are."""
    chance, made = random.Random(SEED), []
    for capture in captures:
        for _ in range(CHANGED):
            found = bytearray(capture.bytes)
            for _ in range(chance.choice([1, 3, 20, 100])):
                found[chance.randrange(len(found))] = chance.randrange(256)
            made.append(bytes(found))
    program.each(made, {0, 1}, "changed bytes")
    print(f"tlslog: {len(made)} captures with changed bytes are read to their end")
