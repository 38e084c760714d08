"""Packets that the host's client drops before the server's real messages, and how it responds to
forged answers to its SYN."""

from __future__ import annotations

from typing import Any

from tests.recorders.evasions.acceptance import ALERT
from tests.recorders.evasions.common import ABSENT, CLOSED, close_served, expect, forge, line, scene
from tests.recorders.evasions.end import End, LONG
from tests.recorders.evasions.openings import host_connects
from tests.recorders.evasions.room import Room
from tests.recorders.evasions.talk import Analyzer
from tests.recorders.evasions.wire import ACK, FIN, PSH, RST, SYN

# The suite that the server chooses, and another.
SUITE, OTHER = bytes.fromhex("c02b"), bytes.fromhex("c02c")


def begin_served(room: Room, **more: Any) -> tuple[End, Analyzer, bytes, bytes]:
    """Accepts a connection from the host's client and receives its ClientHello. Returns our
    endpoint, the TLS session, the server's messages, and those messages with another suite."""
    end = host_connects(room, **more)
    end.accept()
    talk = Analyzer(end, is_server=True, work=room.work)
    talk.give(end.hear())
    flight = talk.flight()
    return end, talk, flight, flight.replace(SUITE, OTHER, 1)


def go_on(room: Room, end: End, talk: Analyzer, flight: bytes) -> None:
    end.say(flight)
    talk.give(end.hear())
    close_served(room, end, talk.answer())


@scene(
    "the server's messages with another suite, of a wrong checksum; then the real ones",
    "RFC 9293, 3.1",
)
def servers_checksum_wrong(room: Room) -> None:
    end, talk, flight, other = begin_served(room)
    forge(
        room, end, "checksum", "the server's messages, of a wrong checksum", other, spoilt=("sum",)
    )
    go_on(room, end, talk, flight)


@scene(
    "the server's messages with another suite and without ACK; then the real ones",
    "RFC 9293, 3.10.7.4, fifth",
)
def servers_data_without_ack_flag(room: Room) -> None:
    end, talk, flight, other = begin_served(room)
    forge(room, end, "no_ack", "the server's messages without ACK", other, flags=PSH)
    go_on(room, end, talk, flight)


@scene(
    "the server's messages with another suite, which acknowledge what the client never sent, and what is in front of its first byte; then"
    " the real ones",
    "RFC 9293, 3.10.7.4, fifth; RFC 5961, 5.2",
)
def servers_ack_wrong(room: Room) -> None:
    end, talk, flight, other = begin_served(room)
    forge(
        room,
        end,
        "ack",
        "the server's messages, which acknowledge too much",
        other,
        ack=end.expected + 1,
    )
    forge(
        room,
        end,
        "ack",
        "the server's messages, which acknowledge a number in front of the first",
        other,
        ack=end.its_first - 100_000,
    )
    go_on(room, end, talk, flight)


@scene(
    "a byte of the server beyond the window, and its messages with another suite in front of it; then the real ones",
    "RFC 9293, 3.10.7.4, first",
)
def servers_data_outside_the_window(room: Room) -> None:
    end, talk, flight, other = begin_served(room)
    forge(room, end, "window", "a byte beyond the window", b"\x16", number=end.next + 300_000)
    forge(
        room,
        end,
        "old",
        "the server's messages in front of its SYN",
        other,
        number=end.first - 100_000,
    )
    go_on(room, end, talk, flight)


@scene(
    "the server's messages with another suite and an old timestamp; then the real ones",
    "RFC 7323, 5.3",
)
def servers_old_timestamp(room: Room) -> None:
    end, talk, flight, other = begin_served(room)
    forge(
        room,
        end,
        "paws",
        "the server's messages of an old timestamp",
        other,
        stamp=end.clock - 1000,
    )
    go_on(room, end, talk, flight)


@scene(
    "a SYN/ACK of the server in an open connection, with its messages of another suite at the next place; then the real ones",
    "RFC 5961, 4.2",
)
def servers_syn_ack_with_data_in_the_middle(room: Room) -> None:
    end, talk, flight, other = begin_served(room)
    forge(room, end, "syn", "a SYN/ACK with data", other, flags=SYN | ACK, number=end.next - 1)
    go_on(room, end, talk, flight)


@scene(
    "RSTs of the server within the window and outside, which aren't of the next number; then its messages",
    "RFC 5961, 3.2",
)
def servers_rst_not_next(room: Room) -> None:
    end, talk, flight, _ = begin_served(room)
    forge(
        room,
        end,
        "rst",
        "an RST 100 behind the next number",
        flags=RST | ACK,
        number=end.next + 100,
    )
    forge(room, end, "rst", "an RST outside the window", flags=RST | ACK, number=end.next - 100_000)
    go_on(room, end, talk, flight)


@scene(
    "a FIN of the server without ACK, and one beyond the window; then its messages",
    "RFC 9293, 3.10.7.4",
)
def servers_fin_not_taken(room: Room) -> None:
    end, talk, flight, _ = begin_served(room)
    forge(room, end, "no_ack", "a FIN without ACK", flags=FIN)
    forge(
        room, end, "window", "a FIN beyond the window", flags=FIN | ACK, number=end.next + 300_000
    )
    go_on(room, end, talk, flight)


@scene(
    "segments of the server that close its window and acknowledge nothing new, of a wrong checksum, an old timestamp, without ACK and "
    "from outside the window; then its messages. The client sends on",
    "RFC 9293, 3.10.7.4; RFC 7323, 5.3",
)
def window_closed_by_segments_not_taken(room: Room) -> None:
    end, talk, flight, _ = begin_served(room)
    forge(
        room,
        end,
        "checksum",
        "a closed window, of a wrong checksum",
        flags=ACK,
        window=0,
        spoilt=("sum",),
    )
    forge(
        room,
        end,
        "paws",
        "a closed window, of an old timestamp",
        flags=ACK,
        window=0,
        stamp=end.clock - 1000,
    )
    forge(room, end, "no_ack", "a closed window, without ACK", flags=PSH, window=0)
    forge(
        room,
        end,
        "window",
        "a closed window, beyond the window",
        flags=ACK,
        window=0,
        number=end.next + 300_000,
    )
    forge(
        room,
        end,
        "old",
        "a closed window, in front of the window",
        flags=ACK,
        window=0,
        number=end.next - 100_000,
    )
    go_on(room, end, talk, flight)


@scene(
    "an RST of the server of the next number; its messages behind it are answered with an RST",
    "RFC 5961, 3.2",
)
def servers_rst_next_expected(room: Room) -> None:
    end, _, flight, _ = begin_served(room)
    length = (end.expected - end.its_first - 1) % 2**32
    room.try_packet(end, "an RST of the next number", flags=RST | ACK)
    expect(room.state(end.port) is None, "the host still has the connection")
    room.note("the host has no such connection any more (/proc/net/tcp)")
    forge(room, end, CLOSED, "the server's messages, behind it", flight)
    none = dict.fromkeys(("version", "cipher"), ABSENT)
    line(
        room,
        end,
        is_orig=False,
        established=False,
        outcome="waiting",
        ssl_history="C",
        orig_bytes=length,
        resp_bytes=0,
        **none,
    )


@scene(
    "a SYN/ACK with a fatal alert, which the client doesn't take: it acknowledges only the SYN; then the server's messages",
    "none: Linux's own (RFC 9293, 3.10.7.3)",
)
def data_in_syn_ack(room: Room) -> None:
    end = host_connects(room)
    end.receive(LONG)
    end.send(SYN | ACK, ALERT)
    end.move(b"", SYN)
    answer = end.receive(LONG)
    expect(answer and answer.ack == end.next, "it was taken")
    room.note(f"the kernel answered a SYN/ACK with {len(ALERT)} bytes with {answer.words()}")
    talk = Analyzer(end, is_server=True, work=room.work)
    talk.give(end.hear())
    close_served(room, end, talk.answer())


@scene(
    "answers to the host's SYN that it ignores: an RST that acknowledges another number, an RST without ACK; then the SYN/ACK",
    "RFC 9293, 3.10.7.3",
)
def rst_to_a_syn_not_taken(room: Room) -> None:
    end = host_connects(room)
    end.receive(LONG)
    forge(
        room,
        end,
        "rst",
        "an RST of a wrong acknowledgement",
        flags=RST | ACK,
        number=0,
        ack=end.its_first + 5000,
    )
    forge(room, end, "rst", "an RST without ACK", flags=RST, number=0)
    end.send(SYN | ACK)
    end.move(b"", SYN)
    expect(end.receive(LONG).ack == end.next, "the SYN/ACK wasn't acknowledged")
    talk = Analyzer(end, is_server=True, work=room.work)
    talk.give(end.hear())
    close_served(room, end, talk.answer())


@scene(
    "a SYN/ACK that acknowledges another number, to which the host answers with an RST of that number; then the right one",
    "RFC 9293, 3.10.7.3, first",
)
def syn_ack_of_wrong_acknowledgement(room: Room) -> None:
    end = host_connects(room)
    end.receive(LONG)
    forge(
        room,
        end,
        "ack",
        "a SYN/ACK of a wrong acknowledgement",
        flags=SYN | ACK,
        number=77,
        ack=end.its_first + 5000,
    )
    end.send(SYN | ACK, number=end.first)
    end.move(b"", SYN)
    while (answer := end.receive(LONG)).flags & SYN:
        pass
    expect(answer.ack == end.next, "the SYN/ACK wasn't acknowledged")
    talk = Analyzer(end, is_server=True, work=room.work)
    talk.give(end.hear())
    close_served(room, end, talk.answer())


@scene(
    "a server whose window is 0 when the hello is to be sent: the host probes it with segments in front of its next number, without a byte",
    "RFC 9293, 3.8.6.1",
)
def zero_window_probe_of_host(room: Room) -> None:
    end = host_connects(room, window=0)
    end.receive(LONG)
    end.send(SYN | ACK)
    end.move(b"", SYN)
    for _ in range(4):
        packet = end.receive(LONG)
        room.note(f"the kernel sent {packet.words()}")
        if packet.ack == end.next and not packet.payload and packet.number != end.expected:
            end.send(ACK)
    end.window = 64000
    end.send(ACK)
    talk = Analyzer(end, is_server=True, work=room.work)
    talk.give(end.hear())
    close_served(room, end, talk.answer())


@scene(
    "the capture begins with a keep-alive of the server, of one byte, in front of its messages; the opening isn't captured. Which side is the "
    "originator isn't told, and who says the hello is the client",
    "RFC 9293, 3.8.4",
)
def keep_alive_of_server_first(room: Room) -> None:
    end = host_connects(room, window=0)
    room.wire.records = False
    end.receive(LONG)
    end.send(SYN | ACK)
    end.move(b"", SYN)
    end.receive(LONG)
    room.wire.records = True
    forge(room, end, "old", "a keep-alive of one byte", b"\0", flags=ACK, number=end.next - 1)
    end.window = 64000
    end.send(ACK)
    talk = Analyzer(end, is_server=True, work=room.work)
    talk.give(end.hear())
    unknown = "id.orig_h id.orig_p id.resp_h id.resp_p orig_bytes resp_bytes".split()
    close_served(room, end, talk.answer(), **dict.fromkeys(unknown))
    room.lines[0].pop("dropped")
