"""Port pairs that are reused: in TIME-WAIT, or after one side lost the connection."""

from __future__ import annotations

from typing import Any

from tests.recorders.evasions.common import begin, expect, finish, line, scene
from tests.recorders.evasions.end import End
from tests.recorders.evasions.room import Room
from tests.recorders.evasions.talk import Analyzer, other_name
from tests.recorders.evasions.wire import ACK, RST, SYN

NEXT = "next.test"
TIME_WAIT = "06"


def open_again(
    room: Room, end: End, ahead: int, is_recorded: bool = True, **more: Any
) -> tuple[End, Analyzer, bytes]:
    """Opens another connection between the same ports, for another name."""
    again = room.end(port=end.port, number=(end.next + ahead) % 2**32, **more)
    again.clock = end.clock + 100_000
    again.open(is_recorded=is_recorded)
    talk = Analyzer(again, name=NEXT)
    return again, talk, talk.flight()


@scene(
    "a connection whose end wasn't captured; then a SYN between the same ports, a SYN/ACK, and a hello for next.test",
    "RFC 9293, 3.10.7.4, fourth",
)
def syn_answered_new_connection(room: Room) -> None:
    end, talk, hello = begin(room)
    end.say(hello)
    talk.finish()
    room.wire.records = False
    finish(room, end, talk, orig_bytes=None, resp_bytes=None)
    room.wire.records = True
    again, talk, hello = open_again(room, end, 1_000_000)
    finish(room, again, talk, hello, NEXT)


@scene(
    "a connection that the server closed first, and before its TIME-WAIT is over another between the same ports",
    "RFC 9293, 3.10.7.4; RFC 6191",
)
def time_wait_reused(room: Room) -> None:
    end, talk, hello = begin(room)
    finish(room, end, talk, hello)
    expect(room.state(end.port) == TIME_WAIT, "the host isn't in TIME-WAIT")
    again, talk, hello = open_again(room, end, 1_000_000)
    finish(room, again, talk, hello, NEXT)


@scene(
    "a connection that the server closed first, and another between the same ports, of which the SYN wasn't captured, only the SYN/ACK",
    "RFC 9293, 3.10.7.4; RFC 6191",
)
def time_wait_reused_syn_missing(room: Room) -> None:
    end, talk, hello = begin(room)
    finish(room, end, talk, hello)
    expect(room.state(end.port) == TIME_WAIT, "the host isn't in TIME-WAIT")
    again, talk, hello = open_again(room, end, 1_000_000, is_recorded=False)
    finish(room, again, talk, hello, NEXT)


@scene(
    "a connection that the server closed first, and another between the same ports, whose SYN has a lower number and a later timestamp",
    "RFC 6191",
)
def time_wait_reused_by_timestamp(room: Room) -> None:
    end, talk, hello = begin(room)
    finish(room, end, talk, hello)
    expect(room.state(end.port) == TIME_WAIT, "the host isn't in TIME-WAIT")
    again, talk, hello = open_again(room, end, -100_000)
    finish(room, again, talk, hello, NEXT)


@scene(
    "a connection that the server closed first; in its TIME-WAIT a SYN of a lower number with a hello for fake.test, which the host "
    "answers with an ACK; then an RST and a SYN of a new connection",
    "RFC 9293, 3.10.7.4; RFC 1122, 4.2.2.13",
)
def syn_in_time_wait(room: Room) -> None:
    end, talk, hello = begin(room, has_stamps=False)
    finish(room, end, talk, hello)
    expect(room.state(end.port) == TIME_WAIT, "the host isn't in TIME-WAIT")
    again = room.end(port=end.port, number=end.next - 100_000, has_stamps=False)
    found = room.try_packet(again, "a SYN of a lower number", flags=SYN, payload=other_name(hello))
    expect(found and found[0].flags == ACK, "no ACK")
    again.send(RST, number=found[0].ack)
    again.open()
    talk = Analyzer(again, name=NEXT)
    finish(room, again, talk, talk.flight(), NEXT)


@scene(
    "the host still has a connection that its peer lost, which wasn't captured. A SYN, the host's ACK of the old numbers, an RST, a SYN, "
    "and a SYN/ACK of new ones",
    "RFC 9293, 3.5.1, figure 9",
)
def half_open_recovery(room: Room) -> None:
    room.wire.records = False
    old, talk, hello = begin(room)
    old.say(hello)
    talk.finish()
    room.wire.records = True
    end = room.end(number=500_000_000)
    end.clock = old.clock + 100_000
    found = room.try_packet(end, "a SYN for the ports of a connection that the host has", flags=SYN)
    expect(found and found[0].flags == ACK, "no ACK")
    end.send(RST, number=found[0].ack)
    end.open()
    talk = Analyzer(end)
    finish(room, end, talk, talk.flight())


@scene(
    "the same, with the connection before: its peer lost it after the handshake. The RST closes it, and the other is for next.test",
    "RFC 9293, 3.5.1, figure 9",
)
def half_open_recovery_captured(room: Room) -> None:
    old, talk, hello = begin(room)
    old.say(hello)
    talk.finish()
    lengths = {
        "orig_bytes": old.next - old.first - 1,
        "resp_bytes": (old.expected - old.its_first - 1) % 2**32,
    }
    end = room.end(port=old.port, number=500_000_000)
    end.clock = old.clock + 100_000
    found = room.try_packet(end, "a SYN for the ports of a connection that the host has", flags=SYN)
    expect(found and found[0].flags == ACK, "no ACK")
    line(room, old, talk, drops=False, **lengths)
    end.send(RST, number=found[0].ack)
    expect(room.state(end.port) is None, "the host still has the connection")
    end.open()
    talk = Analyzer(end, name=NEXT)
    finish(room, end, talk, talk.flight(), NEXT)
