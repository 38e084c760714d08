"""RSTs and FINs that end a connection, ones that don't, and packets after them."""

from __future__ import annotations

import signal
from typing import Any

from tests.recorders.evasions.acceptance import ALERT
from tests.recorders.evasions.common import (
    ABSENT,
    CLOSED,
    begin,
    expect,
    fingerprint,
    finish,
    forge,
    line,
    scene,
    take,
)
from tests.recorders.evasions.end import End, LONG
from tests.recorders.evasions.room import Room
from tests.recorders.evasions.talk import HOSTNAME, Analyzer, other_name
from tests.recorders.evasions.wire import ACK, FIN, RST, SYN

CLOSE_WAIT, TIME_WAIT = "08", "06"
# `ssl_history` up to the server's last unencrypted messages.
BEGUN = "Csxkn"


@scene(
    "RSTs within the window, 1, 1,000 and 30,000 behind the next number; then the real hello",
    "RFC 5961, 3.2",
)
def rst_in_window_not_next(room: Room) -> None:
    end, talk, hello = begin(room)
    for more in (1, 1000, 30_000):
        forge(
            room,
            end,
            "rst",
            f"an RST {more} behind the next number",
            flags=RST,
            number=end.next + more,
        )
    finish(room, end, talk, hello)


@scene(
    "RSTs outside the window: 1 and 100,000 in front, 1,000,000 and 2,000,000,000 behind; then the real hello",
    "RFC 5961, 3.2",
)
def rst_outside_the_window(room: Room) -> None:
    end, talk, hello = begin(room)
    for more in (-1, -100_000, 1_000_000, 2_000_000_000):
        forge(
            room,
            end,
            "rst",
            f"an RST of the next number and {more}",
            flags=RST | ACK,
            number=end.next + more,
        )
    finish(room, end, talk, hello)


@scene("an RST of the next number and a wrong checksum; then the real hello", "RFC 9293, 3.1")
def rst_of_wrong_checksum(room: Room) -> None:
    end, talk, hello = begin(room)
    forge(room, end, "checksum", "an RST of a wrong checksum", flags=RST | ACK, spoilt=("sum",))
    finish(room, end, talk, hello)


def up_to_the_server(room: Room) -> tuple[End, Analyzer, bytes]:
    end, talk, hello = begin(room)
    end.say(hello)
    talk.give(end.hear())
    return end, talk, talk.flight()


def closed_by(
    room: Room, end: End, answer: bytes, what: str, unknown: tuple[str, ...] = (), **how: Any
) -> None:
    """Sends an RST that closes the connection. Later packets belong to no connection."""
    length, heard = end.next - end.first - 1, (end.expected - end.its_first - 1) % 2**32
    room.try_packet(end, what, **how)
    expect(room.state(end.port) is None, "the host still has the connection")
    room.note("the host has no such connection any more (/proc/net/tcp)")
    forge(room, end, CLOSED, "the client's messages, behind it", answer)
    fields = {
        "established": False,
        "outcome": "waiting",
        "ssl_history": BEGUN,
        "orig_bytes": length,
        "resp_bytes": heard,
    }
    fields |= dict.fromkeys(unknown)
    line(room, end, **fields, cert_chain_fps=[fingerprint(room.work / "real.pem")])


@scene(
    "an RST of the next number after the server's messages; then the client's, to which the host answers with an RST",
    "RFC 5961, 3.2",
)
def rst_next_expected(room: Room) -> None:
    end, _, answer = up_to_the_server(room)
    closed_by(room, end, answer, "an RST of the next number", flags=RST | ACK)


@scene("the same of an RST without ACK", "RFC 5961, 3.2")
def rst_next_expected_without_ack(room: Room) -> None:
    end, _, answer = up_to_the_server(room)
    closed_by(room, end, answer, "an RST of the next number", flags=RST)


@scene(
    "the same of an RST that acknowledges what was never sent: its acknowledgement isn't looked at",
    "RFC 9293, 3.10.7.4, second",
)
def rst_of_wrong_acknowledgement(room: Room) -> None:
    end, _, answer = up_to_the_server(room)
    closed_by(
        room,
        end,
        answer,
        "an RST of the next number that acknowledges too much",
        flags=RST | ACK,
        ack=end.expected + 1_000_000,
    )


@scene("the same of an RST of an old timestamp, which isn't looked at", "RFC 7323, 5.2")
def rst_of_old_timestamp(room: Room) -> None:
    end, _, answer = up_to_the_server(room)
    closed_by(
        room,
        end,
        answer,
        "an RST of the next number and an old timestamp",
        flags=RST | ACK,
        stamp=end.clock - 1000,
    )


@scene(
    "part of the client's messages out of order, and an RST of the number behind it, not of the next one: Linux takes it",
    "none: Linux's own",
)
def rst_behind_what_waits(room: Room) -> None:
    end, _, answer = up_to_the_server(room)
    number = end.next
    take(
        room,
        end,
        "a part that waits for the bytes in front of it",
        answer[40:60],
        number=number + 40,
        upto=number,
    )
    closed_by(
        room,
        end,
        answer,
        "an RST of the number behind the part",
        ("orig_bytes", "gap"),
        flags=RST,
        number=number + 60,
    )


@scene(
    "the same where no side takes selective acknowledgements: the RST is one within the window; then the real messages",
    "RFC 5961, 3.2",
)
def rst_behind_what_waits_without_selection(room: Room) -> None:
    end, talk, hello = begin(room, has_stamps=False)
    number = end.next
    take(
        room,
        end,
        "a part of the hello that waits for the bytes in front of it",
        hello[40:60],
        number=number + 40,
        upto=number,
    )
    forge(room, end, "rst", "an RST of the number behind the part", flags=RST, number=number + 60)
    finish(room, end, talk, hello)


@scene(
    "an RST of the next number in front of the hello; then a hello for fake.test, of no connection, which the host answers with an RST",
    "RFC 9293, 3.10.7.1",
)
def hello_behind_rst(room: Room) -> None:
    end, _, hello = begin(room)
    room.try_packet(end, "an RST of the next number", flags=RST)
    expect(room.state(end.port) is None, "the host still has the connection")
    forge(room, end, CLOSED, "a hello of no connection", other_name(hello))


@scene(
    "a connection that the server closed first; in its TIME-WAIT a hello for fake.test behind both FINs, and a SYN/ACK with one",
    "RFC 9293, 3.10.7.4",
)
def data_in_time_wait(room: Room) -> None:
    end, talk, hello = begin(room)
    end.say(hello)
    talk.finish()
    end.say(talk.goodbye())
    end.answer_close()
    expect(room.state(end.port) == TIME_WAIT, "the host isn't in TIME-WAIT")
    forge(room, end, "fin", "a hello behind both FINs", other_name(hello))
    forge(
        room,
        end,
        "fin",
        "a SYN/ACK with a hello",
        other_name(hello),
        flags=SYN | ACK,
        number=end.next + 1_000_000,
    )
    line(room, end, talk)


@scene(
    "an RST within the window before the opening is over, which isn't of the next number; it goes on",
    "RFC 5961, 3.2",
)
def rst_in_window_in_syn_received(room: Room) -> None:
    room.server()
    end = room.end()
    end.send(SYN)
    end.move(b"", SYN)
    end.receive(LONG)
    first = end.its_stamp
    forge(
        room,
        end,
        "rst",
        "an RST 500 behind the next number, while the host is in SYN-RECEIVED",
        flags=RST,
        number=end.next + 500,
    )
    end.its_stamp = first
    end.send(ACK)
    talk = Analyzer(end)
    finish(room, end, talk, talk.flight())


@scene(
    "an RST of the next number before the opening is over; the host answers its last segment with an RST, and another begins",
    "RFC 9293, 3.10.7.4, second",
)
def rst_next_expected_in_syn_received(room: Room) -> None:
    room.server()
    end = room.end()
    end.send(SYN)
    end.move(b"", SYN)
    end.receive(LONG)
    room.try_packet(end, "an RST of the next number, while the host is in SYN-RECEIVED", flags=RST)
    room.try_packet(end, "the last segment of the opening", flags=ACK)
    again = room.end(port=end.port, number=900_000)
    again.clock = end.clock + 1000
    again.open()
    talk = Analyzer(again)
    finish(room, again, talk, talk.flight())


@scene(
    "an RST outside the window before the opening is over; it goes on", "RFC 9293, 3.10.7.4, first"
)
def rst_outside_the_window_in_syn_received(room: Room) -> None:
    room.server()
    end = room.end()
    end.send(SYN)
    end.move(b"", SYN)
    end.receive(LONG)
    forge(
        room,
        end,
        "rst",
        "an RST outside the window, while the host is in SYN-RECEIVED",
        flags=RST,
        number=end.next + 1_000_000_000,
    )
    end.send(ACK)
    talk = Analyzer(end)
    finish(room, end, talk, talk.flight())


@scene(
    "a FIN of the first number, and a hello for fake.test behind it",
    "RFC 9293, 3.10.7.4, seventh: ignored in CLOSE-WAIT",
)
def data_behind_fin(room: Room) -> None:
    end, _, hello = begin(room)
    end.say(b"", FIN | ACK)
    room.note(
        f"the host answered a FIN with {'; '.join(packet.words() for packet in end.replies(0.1))}"
    )
    forge(room, end, "fin", "a hello behind the FIN", other_name(hello))
    expect(not HOSTNAME.findall(room.printed("server")), "the server had a hello")
    room.note("s_server had no hello, and sent a fatal alert")
    fields = dict.fromkeys(("server_name", "version", "cipher"), ABSENT) | {
        "outcome": None,
        "established": False,
    }
    line(
        room, end, **fields, last_alert="decode_error", ssl_history="l", orig_bytes=0, resp_bytes=7
    )


@scene(
    "a handshake, the client's FIN, and a record behind it before the server's FIN",
    "RFC 9293, 3.10.7.4, seventh: ignored in CLOSE-WAIT",
)
def data_behind_fin_of_handshake(room: Room) -> None:
    server = room.server()
    end = room.end()
    end.open()
    talk = Analyzer(end)
    end.say(talk.flight())
    talk.finish()
    server.send_signal(signal.SIGSTOP)
    end.say(b"", FIN | ACK)
    end.replies()
    expect(room.state(end.port) == CLOSE_WAIT, "the host isn't in CLOSE-WAIT")
    forge(room, end, "fin", "a fatal alert behind the FIN", ALERT)
    forge(room, end, "fin", "a fatal alert further behind", ALERT, number=end.next + 7)
    server.send_signal(signal.SIGCONT)
    while not end.its_fin:
        expect(end.receive(LONG), "the host doesn't close")
    end.send(ACK)
    end.replies()
    line(room, end, talk)


@scene(
    "a FIN 1,000 behind the next number, which waits for the bytes in front of it; then the real hello. What follows never reaches it",
    "RFC 9293, 3.10.7.4, eighth",
)
def fin_ahead(room: Room) -> None:
    end, talk, hello = begin(room)
    number = end.next
    take(room, end, "a FIN ahead", b"", flags=FIN | ACK, number=number + 1000, upto=number)
    finish(room, end, talk, hello)


@scene(
    "a byte 60,000 behind the next number, within the window, which waits for the bytes in front of it; then the real hello. The FIN "
    "comes before it",
    "RFC 9293, 3.10.7.4, seventh",
)
def data_ahead_of_the_fin(room: Room) -> None:
    end, talk, hello = begin(room)
    number = end.next
    take(room, end, "a byte ahead", b"\x16", number=number + 60_000, upto=number)
    finish(room, end, talk, hello)


@scene(
    "a connection that the client closed first: both FINs, and the last ACK behind them",
    "RFC 9293, 3.6",
)
def last_ack_behind_both_fins(room: Room) -> None:
    end, talk, hello = begin(room)
    end.say(hello)
    talk.finish()
    end.close()
    packets(room, end, talk)


@scene(
    "a connection that the server closed first, whose client repeats its FIN; the server acknowledges it from TIME-WAIT",
    "RFC 9293, 3.6 and 3.10.7.4",
)
def fin_again_in_time_wait(room: Room) -> None:
    end, talk, hello = begin(room)
    end.say(hello)
    talk.finish()
    end.say(talk.goodbye())
    end.answer_close()
    expect(room.state(end.port) == TIME_WAIT, "the host isn't in TIME-WAIT")
    room.try_packet(end, "the FIN again", flags=FIN | ACK, number=end.next - 1)
    packets(room, end, talk)


def packets(room: Room, end: End, talk: Analyzer) -> None:
    """Adds an expected line that counts all packets of the capture."""
    room.wire.drain()
    total, ours = len(room.wire.recorded), sum(one["end"] is end for one in room.sendings)
    line(room, end, talk, orig_pkts=ours, resp_pkts=total - ours)
