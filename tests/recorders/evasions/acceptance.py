"""Packets that the host drops before the real ClientHello: their flags, acknowledgement, sequence
number or timestamp is unacceptable."""

from __future__ import annotations

from tests.recorders.evasions.common import begin, finish, forge, scene, take
from tests.recorders.evasions.end import CLOCK
from tests.recorders.evasions.room import Room
from tests.recorders.evasions.talk import Analyzer, other_name
from tests.recorders.evasions.wire import ACK, FIN, PSH, RST, SYN, URG

# A fatal alert of TLS 1.2, handshake_failure.
ALERT = bytes.fromhex("15030300020228")


@scene(
    "a hello for fake.test with flags PSH, none, URG, and FIN, each without ACK; then the real one",
    "RFC 9293, 3.10.7.4, fifth",
)
def data_without_ack_flag(room: Room) -> None:
    end, talk, hello = begin(room)
    for flags in (PSH, 0, URG, FIN):
        forge(room, end, "no_ack", "a hello without ACK", other_name(hello), flags=flags)
    finish(room, end, talk, hello)


@scene(
    "a hello for fake.test without ACK between the SYN/ACK and the last segment of the opening",
    "RFC 9293, 3.10.7.4, fifth",
)
def data_without_ack_flag_in_syn_received(room: Room) -> None:
    room.server()
    end = room.end()
    end.send(SYN)
    end.move(b"", SYN)
    end.receive(1)
    talk = Analyzer(end)
    hello = talk.flight()
    forge(
        room,
        end,
        "no_ack",
        "a hello without ACK while the host is in SYN-RECEIVED",
        other_name(hello),
        flags=PSH,
    )
    end.send(ACK)
    finish(room, end, talk, hello)


@scene(
    "a hello for fake.test that acknowledges 1, 1,000 and 2,000,000,000 bytes that the host never sent",
    "RFC 9293, 3.10.7.4, fifth; RFC 5961, 5.2",
)
def ack_of_what_was_never_sent(room: Room) -> None:
    end, talk, hello = begin(room)
    for more in (1, 1000, 2_000_000_000):
        forge(
            room,
            end,
            "ack",
            f"a hello that acknowledges {more} too many",
            other_name(hello),
            ack=end.expected + more,
        )
    finish(room, end, talk, hello)


@scene(
    "a hello for fake.test that acknowledges numbers in front of the host's first: its SYN's, and 100,000 less",
    "RFC 5961, 5.2",
)
def ack_in_front_of_the_first(room: Room) -> None:
    end, talk, hello = begin(room)
    for less in (1, 2, 100_000):
        forge(
            room,
            end,
            "ack",
            f"a hello that acknowledges {less} less than the host's first byte",
            other_name(hello),
            ack=end.expected - less,
        )
    finish(room, end, talk, hello)


@scene(
    "after the server's messages a fatal alert with an acknowledgement too far behind; then the client's messages with one that is behind"
    " and within the window",
    "RFC 5961, 5.2",
)
def ack_behind(room: Room) -> None:
    end, talk, hello = begin(room)
    end.say(hello)
    talk.give(end.hear())
    answer = talk.flight()
    begun = end.its_first + 1
    forge(
        room,
        end,
        "ack",
        "an alert that acknowledges a number in front of the host's first",
        ALERT,
        ack=begun - 100_000,
    )
    take(
        room,
        end,
        "the client's messages, which acknowledge none of the host's bytes though an earlier segment did",
        answer,
        ack=begun,
    )
    finish(room, end, talk)


@scene(
    "a hello for fake.test with a wrong acknowledgement in front of the last segment of the opening. The host answers with an RST of that"
    " number, which is none of the connection",
    "RFC 9293, 3.10.7.4, fifth (SYN-RECEIVED)",
)
def ack_wrong_in_syn_received(room: Room) -> None:
    room.server()
    end = room.end()
    end.send(SYN)
    end.move(b"", SYN)
    end.receive(1)
    talk = Analyzer(end)
    hello = talk.flight()
    forge(
        room,
        end,
        "ack",
        "a hello of a wrong acknowledgement while the host is in SYN-RECEIVED",
        other_name(hello),
        ack=end.expected + 5000,
    )
    end.send(ACK)
    finish(room, end, talk, hello)


@scene(
    "one byte 300,000 behind the next number, beyond the window; then the real hello",
    "RFC 9293, 3.10.7.4, first",
)
def data_beyond_the_window(room: Room) -> None:
    end, talk, hello = begin(room)
    forge(room, end, "window", "a byte beyond the window", b"\x16", number=end.next + 300_000)
    forge(
        room,
        end,
        "window",
        "a byte far beyond the window",
        b"\x16",
        number=end.next + 2_000_000_000,
    )
    finish(room, end, talk, hello)


@scene(
    "a hello for fake.test 100,000 in front of the next number, in front of the SYN; then the real one",
    "RFC 9293, 3.10.7.4, first",
)
def data_far_before(room: Room) -> None:
    end, talk, hello = begin(room)
    forge(
        room,
        end,
        "old",
        "a hello far in front of the window",
        other_name(hello),
        number=end.next - 100_000,
    )
    forge(
        room,
        end,
        "old",
        "a hello that ends in front of the window",
        other_name(hello),
        number=end.next - len(hello),
    )
    finish(room, end, talk, hello)


@scene(
    "the real hello in a segment that begins 50 bytes in front of the first number: the host takes what is within the window",
    "RFC 9293, 3.10.7.4, first",
)
def data_that_begins_before(room: Room) -> None:
    end, talk, hello = begin(room)
    take(
        room,
        end,
        "50 bytes in front of the first, and the real hello",
        bytes(50) + hello,
        number=end.next - 50,
    )
    finish(room, end, talk)


@scene(
    "a hello for fake.test whose timestamp is older, by 2, by 1,000 and by half of all; then the real one",
    "RFC 7323, 5.3",
)
def old_timestamp(room: Room) -> None:
    end, talk, hello = begin(room)
    recent = end.clock + end.ticks
    for less in (2, 1000, 2**31 - 1):
        forge(
            room,
            end,
            "paws",
            f"a hello whose timestamp is {less} behind",
            other_name(hello),
            stamp=(recent - less) % 2**32,
        )
    finish(room, end, talk, hello)


@scene(
    "the real hello with a timestamp that is 1 behind the last, which Linux takes",
    "none: RFC 7323, 5.3 has it dropped",
)
def timestamp_one_behind(room: Room) -> None:
    end, talk, hello = begin(room)
    take(room, end, "the real hello, 1 behind", hello, stamp=end.clock + end.ticks - 1)
    finish(room, end, talk)


@scene(
    "neither side agreed on timestamps: the real hello, and the client's next messages, with ones that go back",
    "RFC 7323, 3.2",
)
def timestamps_not_offered(room: Room) -> None:
    end, talk, hello = begin(room, has_stamps=False)
    take(room, end, "the real hello, with a timestamp", hello, stamp=CLOCK)
    talk.give(end.hear())
    take(room, end, "the client's messages, with an older one", talk.flight(), stamp=CLOCK - 1000)
    finish(room, end, talk)


@scene(
    "only the client offers timestamps: the real hello, and the client's next messages, with ones that go back",
    "RFC 7323, 3.2",
    tcp_timestamps=0,
)
def timestamps_offered_by_one(room: Room) -> None:
    end, talk, hello = begin(room)
    take(room, end, "the real hello, with a timestamp", hello, stamp=CLOCK)
    talk.give(end.hear())
    take(room, end, "the client's messages, with an older one", talk.flight(), stamp=CLOCK - 1000)
    finish(room, end, talk)


@scene(
    "both sides agreed on timestamps: the real hello without one, which Linux takes",
    "none: RFC 7323, 3.2 has it dropped (SHOULD)",
)
def timestamp_missing(room: Room) -> None:
    end, talk, hello = begin(room)
    take(room, end, "the real hello without a timestamp", hello, stamp=False)
    finish(room, end, talk)


@scene(
    "a segment without data whose timestamp is 1,000,000 ahead, at the next number; a hello for fake.test with one of the clock as it "
    "was; then the real one, behind the first",
    "RFC 7323, 4.3 and 5.3",
)
def timestamp_ahead_without_data(room: Room) -> None:
    end, talk, hello = begin(room)
    ahead = end.clock + 1_000_000
    take(room, end, "a segment without data of a timestamp ahead", b"", flags=ACK, stamp=ahead)
    forge(room, end, "paws", "a hello of the clock as it was", other_name(hello))
    end.clock = ahead
    finish(room, end, talk, hello)


@scene(
    "the second half of the real hello with a timestamp 1,000,000 ahead, which isn't noted since bytes are missing before it; then the "
    "first half with one of the clock as it was",
    "RFC 7323, 4.3",
)
def timestamp_ahead_out_of_order(room: Room) -> None:
    end, talk, hello = begin(room)
    number = end.next
    take(
        room,
        end,
        "the second half, of a timestamp ahead",
        hello[80:],
        number=number + 80,
        stamp=end.clock + 1_000_000,
        upto=number,
    )
    take(room, end, "the first half", hello[:80], upto=number + len(hello))
    finish(room, end, talk)


@scene(
    "a hello for fake.test whose echoed timestamp is none that the host sent, in front of the last segment of the opening",
    "none: Linux's own",
)
def timestamp_echo_wrong_in_syn_received(room: Room) -> None:
    room.server()
    end = room.end()
    end.send(SYN)
    end.move(b"", SYN)
    end.receive(1)
    talk = Analyzer(end)
    hello = talk.flight()
    first = end.its_stamp
    forge(
        room,
        end,
        "paws",
        "a hello that echoes another timestamp",
        other_name(hello),
        echo=(first + 1_000_000_000) % 2**32,
    )
    end.send(ACK, echo=first)
    end.its_stamp = first
    finish(room, end, talk, hello)


@scene(
    "a FIN that the host doesn't take: without ACK, beyond the window, of an old timestamp, of a wrong checksum, of a wrong "
    "acknowledgement; then the real hello",
    "RFC 9293, 3.10.7.4; RFC 7323, 5.3",
)
def fin_not_taken(room: Room) -> None:
    end, talk, hello = begin(room)
    forge(room, end, "no_ack", "a FIN without ACK", b"", flags=FIN)
    forge(
        room,
        end,
        "window",
        "a FIN beyond the window",
        b"",
        flags=FIN | ACK,
        number=end.next + 300_000,
    )
    forge(
        room, end, "paws", "a FIN of an old timestamp", b"", flags=FIN | ACK, stamp=end.clock - 1000
    )
    forge(room, end, "checksum", "a FIN of a wrong checksum", b"", flags=FIN | ACK, spoilt=("sum",))
    forge(
        room,
        end,
        "ack",
        "a FIN of a wrong acknowledgement",
        b"",
        flags=FIN | ACK,
        ack=end.expected + 1000,
    )
    finish(room, end, talk, hello)


@scene(
    "a hello for fake.test whose header says 16 bytes, and one whose header says more than the segment has; then the real one",
    "RFC 9293, 3.1",
)
def header_length_wrong(room: Room) -> None:
    end, talk, hello = begin(room)
    forge(
        room,
        end,
        "header",
        "a hello in a segment whose header is too short",
        other_name(hello),
        words=4,
    )
    forge(
        room, end, "header", "a short segment whose header is longer than it", b"\x16\3\1", words=15
    )
    finish(room, end, talk, hello)


@scene(
    "a hello for fake.test with a signature of RFC 2385 (MD5), which the host didn't ask for; then the real one",
    "RFC 2385, 2",
)
def signature_not_wanted(room: Room) -> None:
    end, talk, hello = begin(room)
    forge(
        room,
        end,
        "signature",
        "a hello with a signature",
        other_name(hello),
        options=b"\1\1\x13\x12" + bytes(16),
    )
    finish(room, end, talk, hello)


@scene(
    "the client's numbers begin 60 in front of 2^32, and the hello goes past it. Data in front of the window and beyond it, an RST within"
    " it, and a SYN; then the real hello",
    "RFC 9293, 3.4",
)
def numbers_past_the_last(room: Room) -> None:
    end, talk, hello = begin(room, number=2**32 - 60)
    other = other_name(hello)
    forge(room, end, "old", "a hello in front of the window", other, number=end.next - 1000)
    forge(room, end, "window", "a byte beyond the window", b"\x16", number=end.next + 300_000)
    forge(room, end, "rst", "an RST within the window", flags=RST, number=end.next + 100)
    forge(room, end, "syn", "a SYN with a hello", other, flags=SYN, number=end.next - 1)
    finish(room, end, talk, hello)
