"""Openings: data in a SYN, a SYN on an open connection, and SYNs of both sides at once."""

from __future__ import annotations

from pathlib import Path
from typing import Any

from tests.recorders.evasions import room as rooms
from tests.recorders.evasions.common import begin, close_served, expect, finish, forge, scene, serve
from tests.recorders.evasions.end import End, LONG
from tests.recorders.evasions.talk import Analyzer, other_name
from tests.recorders.evasions.wire import ACK, COOKIE, Packet, RST, SYN

SERVERS_NUMBER = 700_000
FAST_OPEN = {"tcp_fastopen": 0x403}


def open_with(room: rooms.Room, end: End, payload: bytes, cookie: bytes | None = None) -> Packet:
    """Sends a SYN with data. Returns the answer, which it acknowledges."""
    end.send(SYN, payload, options=end.options_of_syn(cookie))
    end.move(b"", SYN)
    answer = end.receive(LONG)
    expect(answer and answer.flags & SYN, "no SYN/ACK")
    room.note(
        f"the kernel answered a SYN of number {end.first} with {len(payload)} bytes{' and a cookie' if cookie else ''} with {answer.words()}"
    )
    return answer


@scene(
    "a SYN with a hello for fake.test, of which the SYN/ACK acknowledges only the SYN; then the real hello",
    "RFC 9293, 3.10.7.2; RFC 7413, 3",
)
def data_in_syn_not_acknowledged(room: rooms.Room) -> None:
    room.server()
    end = room.end()
    talk = Analyzer(end)
    hello = talk.flight()
    expect(open_with(room, end, other_name(hello)).ack == end.next, "it was taken")
    end.send(ACK)
    finish(room, end, talk, hello)


def cookie_of(room: rooms.Room) -> bytes:
    """Returns the host's Fast Open cookie for our address."""
    end = room.end(port=rooms.FIRST_PORT)
    room.wire.records = False
    end.send(SYN, options=end.options_of_syn(b""))
    answer = end.receive(LONG)
    end.send(RST, number=end.next + 1)
    room.wire.records = True
    return answer.option(COOKIE)


@scene(
    "a SYN with the host's cookie and the real hello, which the SYN/ACK acknowledges; then a hello for fake.test at the same place",
    "RFC 7413, 4.2",
    **FAST_OPEN,
)
def data_in_syn_fast_open(room: rooms.Room) -> None:
    room.server()
    cookie = cookie_of(room)
    end = room.end()
    talk = Analyzer(end)
    hello = talk.flight()
    answer = open_with(room, end, hello, cookie)
    expect(answer.ack == (end.next + len(hello)) % 2**32, "it wasn't taken")
    forge(room, end, "old", "another hello at the place of the one in the SYN", other_name(hello))
    end.move(hello)
    finish(room, end, talk)


@scene(
    "a SYN with another cookie and a hello for fake.test, of which the SYN/ACK acknowledges only the SYN; then the real hello",
    "RFC 7413, 4.2",
    **FAST_OPEN,
)
def data_in_syn_of_another_cookie(room: rooms.Room) -> None:
    room.server()
    end = room.end()
    talk = Analyzer(end)
    hello = talk.flight()
    expect(open_with(room, end, other_name(hello), b"\x11" * 8).ack == end.next, "it was taken")
    end.send(ACK)
    finish(room, end, talk, hello)


@scene(
    "SYNs in an open connection: of its first number, its next one, one within the window, and one outside; then the real hello",
    "RFC 5961, 4.2",
)
def syn_in_the_middle(room: rooms.Room) -> None:
    end, talk, hello = begin(room)
    for number in (end.first, end.next, end.next + 1000, end.next + 1_000_000_000):
        forge(room, end, "syn", "a SYN", flags=SYN, number=number)
    finish(room, end, talk, hello)


@scene(
    "a SYN in an open connection, with a hello for fake.test at the next place; then the real one",
    "RFC 5961, 4.2",
)
def syn_with_data_in_the_middle(room: rooms.Room) -> None:
    end, talk, hello = begin(room)
    forge(room, end, "syn", "a SYN with data", other_name(hello), flags=SYN, number=end.next - 1)
    finish(room, end, talk, hello)


@scene(
    "a SYN/ACK of the client in an open connection, with a hello for fake.test at the next place, and one at another; then the real one",
    "RFC 5961, 4.2",
)
def syn_ack_with_data_in_the_middle(room: rooms.Room) -> None:
    end, talk, hello = begin(room)
    forge(
        room,
        end,
        "syn",
        "a SYN/ACK with data",
        other_name(hello),
        flags=SYN | ACK,
        number=end.next - 1,
    )
    forge(
        room,
        end,
        "syn",
        "a SYN/ACK with data, elsewhere",
        other_name(hello),
        flags=SYN | ACK,
        number=end.next + 500_000_000,
    )
    finish(room, end, talk, hello)


@scene(
    "a second SYN, of another number outside the window, before the opening is over; it goes on with the first",
    "RFC 9293, 3.10.7.4, first (SYN-RECEIVED)",
)
def second_syn_outside_the_window(room: rooms.Room) -> None:
    room.server()
    end = room.end()
    end.send(SYN)
    end.move(b"", SYN)
    end.receive(LONG)
    first = end.its_stamp
    forge(room, end, "syn", "a SYN of another number", flags=SYN, number=end.first + 1_000_000_000)
    end.its_stamp = first
    end.send(ACK)
    talk = Analyzer(end)
    finish(room, end, talk, talk.flight())


@scene(
    "a second SYN, of another number within the window, before the opening is over: the host forgets the first, and a third begins the "
    "connection",
    "none: Linux's own",
)
def second_syn_within_the_window(room: rooms.Room) -> None:
    room.server()
    end = room.end()
    end.send(SYN)
    end.move(b"", SYN)
    end.receive(LONG)
    room.try_packet(end, "a SYN of another number", flags=SYN, number=end.first + 500)
    room.try_packet(end, "the last segment of the first opening", flags=ACK)
    end = room.end(number=900_000)
    end.open()
    talk = Analyzer(end)
    finish(room, end, talk, talk.flight())


def host_connects(room: rooms.Room, **more: Any) -> End:
    """Starts the host's client and waits for its SYN."""
    port = rooms.OUR_SERVER_PORT + room.number
    end = room.end(
        port=port, to_port=rooms.CLIENT_PORT + room.number, number=SERVERS_NUMBER, **more
    )
    room.client(port, from_port=end.to_port)
    return end


@scene("the host's SYN, then ours, then a SYN/ACK of each", "RFC 9293, 3.5, figure 8")
def simultaneous_open(room: rooms.Room) -> None:
    end = host_connects(room)
    end.receive(LONG)
    end.send(SYN)
    end.move(b"", SYN)
    answer = end.receive(LONG)
    room.note(f"the kernel answered a SYN in SYN-SENT with {answer.words()}")
    room.try_packet(end, "our SYN/ACK", 0.02, flags=SYN | ACK, number=end.first)
    serve(room, end)


@scene(
    "the same as it is seen near the server, whose SYN is there first: it is the originator, and the responder is the client of TLS",
    "RFC 9293, 3.5, figure 8",
)
def simultaneous_open_servers_first(room: rooms.Room) -> None:
    port = rooms.OUR_SERVER_PORT + room.number
    end = room.end(port=port, to_port=rooms.CLIENT_PORT + room.number, number=SERVERS_NUMBER)
    options = end.options_of_syn()
    end.send(SYN, options=options, is_delivered=False)
    room.client(port, from_port=end.to_port)
    end.receive(LONG)
    end.send(SYN, options=options, is_recorded=False)
    end.move(b"", SYN)
    end.receive(LONG)
    room.try_packet(end, "our SYN/ACK", 0.02, flags=SYN | ACK, number=end.first)
    serve(room, end, is_orig=True)


@scene(
    "the host's SYN, answered with a SYN without ACK; the host's SYN/ACK, and our ACK",
    "RFC 9293, 3.10.7.3",
)
def split_handshake(room: rooms.Room) -> None:
    end = host_connects(room)
    end.receive(LONG)
    end.send(SYN)
    end.move(b"", SYN)
    answer = end.receive(LONG)
    room.note(f"the kernel answered a SYN in SYN-SENT with {answer.words()}")
    end.send(ACK)
    serve(room, end)


@scene(
    "the host's SYN, answered with an ACK, and then with a SYN; the host's SYN/ACK, and our ACK",
    "RFC 9293, 3.10.7.3",
)
def split_handshake_ack_apart(room: rooms.Room) -> None:
    end = host_connects(room)
    end.receive(LONG)
    room.try_packet(end, "an ACK of the SYN alone", flags=ACK, number=SERVERS_NUMBER)
    end.send(SYN)
    end.move(b"", SYN)
    answer = end.receive(LONG)
    room.note(f"the kernel answered a SYN in SYN-SENT with {answer.words()}")
    end.send(ACK)
    serve(room, end)


@scene(
    "the server of TLS opens the connection of TCP: the responder says the hello",
    "RFC 8446, 2: the client initiates the handshake",
)
def client_of_tls_accepts(room: rooms.Room) -> None:
    port = 45000
    room.start(
        f"{Path(__file__).with_name('accepting_client')} {rooms.HOST[4]} {port} real.test", "client"
    )
    room.await_port(port)
    end = room.end(to_port=port)
    end.open()
    serve(room, end, is_orig=True)


@scene(
    "a SYN, its SYN/ACK, that again after a second, the SYN again, and the SYN/ACK once more; then the last segment of the opening",
    "RFC 9293, 3.10.7.4 and 3.8.1",
)
def opening_repeated(room: rooms.Room) -> None:
    room.server()
    end = room.end()
    options = end.options_of_syn()
    end.send(SYN, options=options)
    end.move(b"", SYN)
    for _ in range(2):
        packet = end.receive(LONG)
        room.note(f"the kernel sent {packet.words()}")
    end.send(SYN, number=end.first, options=options)
    packet = end.receive(LONG)
    room.note(f"the kernel answered the SYN, again, with {packet.words()}")
    end.send(ACK)
    talk = Analyzer(end)
    finish(room, end, talk, talk.flight())


@scene(
    "the host's client is sent the SYN/ACK again in front of the server's messages, as if its ACK had been lost",
    "RFC 9293, 3.10.7.4, fourth",
)
def syn_ack_again(room: rooms.Room) -> None:
    end = host_connects(room)
    end.accept()
    talk = Analyzer(end, is_server=True, work=room.work)
    talk.give(end.hear())
    flight = talk.flight()
    forge(room, end, "syn", "the SYN/ACK again", flags=SYN | ACK, number=end.first)
    end.say(flight)
    talk.give(end.hear())
    close_served(room, end, talk.answer())


@scene(
    "somebody on the way forges a SYN of the client and a SYN/ACK of the server that answers it, in front of the server's messages. The "
    "client is the host; the server's answer is ours, by the rule",
    "RFC 5961, 4.2",
)
def syn_and_its_answer_forged(room: rooms.Room) -> None:
    end = host_connects(room)
    end.accept()
    talk = Analyzer(end, is_server=True, work=room.work)
    talk.give(end.hear())
    flight = talk.flight()
    number, answer = 2_000_000_000, 3_000_000_000
    forged = end.in_name_of_host()
    forged.send(SYN, number=number, is_delivered=False)
    room.sendings[-1]["why"] = "syn"
    end.send(ACK)
    forge(
        room,
        end,
        "syn",
        "a SYN/ACK that answers the SYN",
        flags=SYN | ACK,
        number=answer,
        ack=number + 1,
    )
    end.say(flight)
    talk.give(end.hear())
    close_served(room, end, talk.answer())
    room.lines[0]["dropped"] = {"orig": {"syn": 1}, "resp": {"syn": 1}}


@scene(
    "the host's SYN is answered with an ACK of old numbers; its RST, its SYN again, and the SYN/ACK",
    "RFC 9293, 3.10.7.3, first",
)
def stale_ack_to_a_syn(room: rooms.Room) -> None:
    end = host_connects(room)
    end.receive(LONG)
    room.try_packet(
        end, "an ACK of old numbers", flags=ACK, number=3_000_000_000, ack=2_000_000_000
    )
    end.accept()
    serve(room, end)
