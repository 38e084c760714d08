"""IP fragments whose ECN fields (RFC 3168, section 5) agree, or contradict each other."""

from __future__ import annotations

from tests.recorders.evasions import room as rooms
from tests.recorders.evasions.common import ECN, begin, expect, finish, scene, take
from tests.recorders.evasions.talk import other_name
from tests.recorders.evasions.wire import ACK, PSH

NOT_ECT, ECT_1, ECT_0, CE = range(4)


@scene(
    "a hello for fake.test in two fragments, of which one is ECT(0) and the other Not-ECT; then the real one in fragments of ECT(0) and CE",
    "RFC 3168, 5.3",
)
def fragments_of_mixed_ecn(room: rooms.Room) -> None:
    say_in_fragments(room, 4, (ECT_0, NOT_ECT), (ECT_0, CE))


@scene(
    "the same over IPv6, of Not-ECT and CE; then the real one, of ECT(1) and ECT(0)",
    "RFC 3168, 5.3",
)
def fragments_of_mixed_ecn_ipv6(room: rooms.Room) -> None:
    say_in_fragments(room, 6, (NOT_ECT, CE), (ECT_1, ECT_0))


def say_in_fragments(
    room: rooms.Room, version: int, mixed: tuple[int, int], allowed: tuple[int, int]
) -> None:
    """Sends a hello for another name in fragments with mixed ECN fields, which the host must drop;
    then the real one in fragments that it must join."""
    end, talk, hello = begin(room, version=version)
    end.fragments = mixed
    found = room.try_packet(
        end,
        f"a hello in fragments of ECN fields {mixed}",
        flags=PSH | ACK,
        payload=other_name(hello),
    )
    expect(not found, "the host answered")
    for sending in room.sendings[-len(mixed) :]:
        sending["why"] = ECN
    end.fragments = allowed
    take(room, end, f"a hello in fragments of ECN fields {allowed}", hello)
    end.fragments = ()
    finish(room, end, talk)
