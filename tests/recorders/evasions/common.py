"""Shared by the scenes: their list, the start and end of a connection with OpenSSL's server, and
the expected lines."""

from __future__ import annotations

import hashlib
import ssl
from collections import Counter
from collections.abc import Callable
from dataclasses import dataclass
from pathlib import Path
from typing import Any

from tests.recorders.evasions import room as rooms
from tests.recorders.evasions.end import End, SOON
from tests.recorders.evasions.talk import HOSTNAME, HOSTNAME_LINE, REAL, Analyzer
from tests.recorders.evasions.wire import ACK, PSH, Packet

SCENES = []
ORIG, RESP = "orig", "resp"
# The reasons for dropping a segment of a closed connection, and fragments whose ECN fields contradict
# each other. No line counts them.
CLOSED, ECN = "closed", "ecn"
# Other names of the kernel's reasons: a segment in LISTEN, one outside the window, and one without
# new data.
ALSO = {
    "no_ack": ("ack", "syn", CLOSED),
    "window": ("old", "syn", "rst"),
    "syn": ("rst",),
    "old": ("syn", "rst", "fin"),
    "ack": ("rst",),
}
# `ssl_history` of a full TLS 1.2 handshake without tickets, and of one in which the server sends a
# warning about the name.
FULL, WARNED = "CsxknGIi", {"ssl_history": "ClsxknGIi", "last_alert": "unrecognized_name"}
# Stands for a field that must be absent; null in wanted.json.
ABSENT = object()


# A function that plays a scene.
Play = Callable[[rooms.Room], None]


@dataclass
class Scene:
    name: str
    says: str  # Describes the capture.
    rule: str  # The RFC section that has the rule.
    play: Play
    settings: dict
    offloads: bool


def scene(says: str, rule: str, offloads: bool = False, **settings: Any) -> Callable[[Play], Play]:
    """Registers a function that plays a scene."""

    def add(play: Play) -> Play:
        SCENES.append(Scene(play.__name__, says, rule, play, settings, offloads))
        return play

    return add


def expect(condition: object, text: str) -> None:
    if not condition:
        raise RuntimeError(text)


def begin(
    room: rooms.Room,
    version: int = 4,
    talk: dict[str, Any] | None = None,
    server: str = "",
    opens: dict[str, Any] | None = None,
    **more: Any,
) -> tuple[End, Analyzer, bytes]:
    """Opens a connection to OpenSSL's server. Returns it with the ClientHello to send next."""
    room.server(server)
    end = room.end(version, **more)
    end.open(**(opens or {}))
    one = Analyzer(end, **(talk or {}))
    return end, one, one.flight()


def forge(
    room: rooms.Room,
    end: End,
    why: str,
    what: str,
    payload: bytes = b"",
    wait: float = SOON,
    flags: int = PSH | ACK,
    **more: Any,
) -> list[Packet]:
    """Sends a packet that the host must drop for the reason `why`, and records its response. The
    reason must match the kernel's, if it has one."""
    found = room.try_packet(end, what, wait, flags=flags, payload=payload, **more)
    sending = room.sendings[-1]
    words = {rooms.WORDS.get(reason) for reason in sending["reasons"]} - {None}
    expect(
        not words or why in words or why in ALSO.get(*words, ()),
        f"the kernel's reason for {what} is {sending['reasons']}",
    )
    sending["why"] = why
    return found


def take(
    room: rooms.Room,
    end: End,
    what: str,
    payload: bytes,
    wait: float = SOON,
    flags: int = PSH | ACK,
    number: int | None = None,
    upto: int | None = None,
    **more: Any,
) -> list[Packet]:
    """Sends a packet that the host must accept: it acknowledges the packet's end, or the given
    number. Advances to there."""
    number = end.next if number is None else number
    found = room.try_packet(end, what, wait, flags=flags, payload=payload, number=number, **more)
    wanted = (number + len(payload) if upto is None else upto) % 2**32
    room.sendings[-1]["taken"] = True
    expect(end.acked == wanted, f"{what}: acknowledged is {end.acked}, not {wanted}")
    end.next = wanted
    return found


def finish(
    room: rooms.Room, end: End, talk: Analyzer, rest: bytes = b"", name: str = REAL, **fields: Any
) -> None:
    """Completes the handshake, closes the connection, and adds its expected line."""
    if rest:
        end.say(rest)
    talk.finish()
    took(room, talk, name)
    end.say(talk.goodbye())
    end.answer_close()
    line(room, end, talk, server_name=name, **({} if name == REAL else WARNED) | fields)


def took(
    room: rooms.Room, talk: Analyzer, name: str = REAL, certificate: str | None = None
) -> None:
    """Checks that the host accepted the hello with this name: its server prints the name and sends
    the matching certificate."""
    room.await_text("server", HOSTNAME_LINE.format(name))
    printed = HOSTNAME.findall(room.printed("server"))
    expect(printed and printed[-1] == name, f"the server prints {printed}")
    certificate = certificate or ("real.test" if name == REAL else "other.test")
    expect(
        talk.certificate_name() == certificate, f"its certificate is for {talk.certificate_name()}"
    )
    room.note(
        f"s_server printed: {HOSTNAME_LINE.format(name)}; its certificate is that of {certificate}, and the handshake ended"
    )


def serve(
    room: rooms.Room,
    end: End,
    asked: str = REAL,
    client: str = "client",
    is_orig: bool = False,
    **fields: Any,
) -> None:
    """Plays the server for the host's client, closes the connection, and adds its expected
    line."""
    talk = Analyzer(end, is_server=True, work=room.work)
    talk.give(end.hear())
    close_served(room, end, talk.answer(), asked, client, is_orig, **fields)


def close_served(
    room: rooms.Room,
    end: End,
    talk: Analyzer,
    asked: str = REAL,
    client: str = "client",
    is_orig: bool = False,
    **fields: Any,
) -> None:
    expect(talk.asked == asked, f"the client asked for {talk.asked}")
    expect(
        room.await_text(client, "Cipher is ECDHE"),
        f"the client has no session: {room.printed(client)}",
    )
    room.note(f"s_client ended the handshake, and asked for {talk.asked}")
    end.say(talk.goodbye())
    end.close()
    line(
        room,
        end,
        is_orig=is_orig,
        server_name=asked,
        cert_chain_fps=[fingerprint(room.work / "real.pem")],
        **fields,
    )


def fingerprint(file: Path) -> str:
    return hashlib.sha256(ssl.PEM_cert_to_DER_cert(file.read_text())).hexdigest()


def line(
    room: rooms.Room,
    end: End,
    talk: Analyzer | None = None,
    is_orig: bool = True,
    drops: bool = True,
    **fields: Any,
) -> None:
    """Adds an expected line. A field whose value is None is left out, since its value isn't
    certain."""
    ours, other = (str(end.address), end.port), (str(end.to_address), end.to_port)
    orig, resp = (ours, other) if is_orig else (other, ours)
    wanted = {
        "id.orig_h": orig[0],
        "id.orig_p": orig[1],
        "id.resp_h": resp[0],
        "id.resp_p": resp[1],
        "server_name": REAL,
    }
    wanted |= {
        "version": "TLSv12",
        "cipher": "TLS_ECDHE_ECDSA_WITH_AES_128_GCM_SHA256",
        "established": True,
        "outcome": "full",
        "ssl_history": FULL,
        "gap": ABSENT,
    }
    wanted |= stream_lengths(end, is_orig)
    if talk and talk.tls.server_side is False and talk.tls.getpeercert(binary_form=True):
        wanted["cert_chain_fps"] = [
            hashlib.sha256(talk.tls.getpeercert(binary_form=True)).hexdigest()
        ]
    wanted |= fields
    wanted = {
        name: None if value is ABSENT else value
        for name, value in wanted.items()
        if value is not None
    }
    if drops:
        wanted["dropped"] = dropped(room, end, is_orig)
    room.lines.append(wanted)


def stream_lengths(end: End, is_orig: bool) -> dict[str, int]:
    """Returns the bytes of each stream by sequence numbers, if both FINs were captured."""
    if not end.its_fin or end.expected is None:
        return {}
    sent, got = (end.next - end.first - 2) % 2**32, (end.expected - end.its_first - 2) % 2**32
    return dict(zip(("orig_bytes", "resp_bytes"), (sent, got) if is_orig else (got, sent)))


def dropped(room: rooms.Room, end: End, is_orig: bool) -> dict[str, dict[str, int]]:
    """Counts our packets that the host dropped, by reason."""
    found = Counter(
        one["why"]
        for one in room.sendings
        if one["end"] is end
        and one["is_recorded"]
        and one.get("why", CLOSED) not in {CLOSED, ECN}
    )
    return {(ORIG if is_orig else RESP): dict(sorted(found.items()))} if found else {}
