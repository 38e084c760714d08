"""Ways to alter a handshake datagram, by name. Each function takes the datagram, its first record,
and that record's message (or fragment), and returns the datagrams to send in its place. A forged
ClientHello has another name (forged.test.), a forged ServerHello a random of zeros. Sections are of
RFC 6347 unless another RFC is named."""

from __future__ import annotations

from dataclasses import replace

from tests.recorders.evasions_tls.dtls import (
    ALERT,
    CHANGE,
    CLIENT_KEYS,
    DATA,
    DONE,
    HANDSHAKE,
    HELLO,
    Message,
    Record,
    renamed,
)

AHEAD = 20  # Within the window of 64 records (4.1.2.6), so that no genuine record falls out of it.
JUNK = bytes.fromhex("de ad be ef 5a 3c c3 a5 01 02 03 04 05 06 07 08 09 0a 0b 0c")
KINDS = (CHANGE, ALERT, HANDSHAKE, DATA)


def other(message: Message) -> Message:
    """Returns the message with another name or another random."""
    body = message.body
    if message.kind == HELLO:
        return replace(message, body=renamed(body))
    return replace(message, body=body[:2] + bytes(32) + body[34:])


def later(record: Record, message: Message) -> Record:
    """Returns a record of that message, with an unused sequence number."""
    return replace(record, number=record.number + AHEAD).of(message)


def junk_behind(datagram: bytes, record: Record, message: Message) -> list[bytes]:
    """Appends 20 bytes that are no record to the datagram (4.1.2.7)."""
    return [datagram + JUNK]


def junk_alone(datagram: bytes, record: Record, message: Message) -> list[bytes]:
    """Adds a datagram of junk before it, and one after it (4.1.2.7)."""
    return [JUNK, datagram, JUNK]


def cut_behind(datagram: bytes, record: Record, message: Message) -> list[bytes]:
    """Appends a record whose last 20 bytes are missing to the datagram (4.1, 4.1.2.7)."""
    return [datagram + later(record, other(message)).bytes()[:-20]]


def cut_alone(datagram: bytes, record: Record, message: Message) -> list[bytes]:
    """Adds a datagram with a record without its last 20 bytes before it and after it (4.1.1: a
    record fits within a datagram)."""
    cut = later(record, other(message)).bytes()[:-20]
    return [cut, datagram, cut]


def cut_in_header(datagram: bytes, record: Record, message: Message) -> list[bytes]:
    """Adds a datagram of 7 bytes of a record header before it, and one of 12 after it (4.1.1)."""
    return [record.bytes()[:7], datagram, record.bytes()[:12]]


def in_two_datagrams(datagram: bytes, record: Record, message: Message) -> list[bytes]:
    """Splits the datagram within its first record (4.1.1: a record fits within a datagram)."""
    return [datagram[:60], datagram[60:]]


def empty_alone(datagram: bytes, record: Record, message: Message) -> list[bytes]:
    """Adds a datagram with an empty handshake record before it, and ones with empty records of each
    type after it (5246, 6.2.1: only of data)."""
    made = [Record(kind, 0, record.number + AHEAD + kind - CHANGE, b"").bytes() for kind in KINDS]
    return [made[2], datagram, *made]


def empty_in_front(datagram: bytes, record: Record, message: Message) -> list[bytes]:
    """Prepends an empty handshake record to the datagram (5246, 6.2.1)."""
    return [Record(HANDSHAKE, 0, record.number + AHEAD, b"").bytes() + datagram]


def empty_datagram(datagram: bytes, record: Record, message: Message) -> list[bytes]:
    """Adds an empty datagram before it, and one after it (768)."""
    return [b"", datagram, b""]


def future_message(datagram: bytes, record: Record, message: Message) -> list[bytes]:
    """Adds a ClientKeyExchange or ServerHelloDone before it, of a message_seq 7 higher (4.2.2)."""
    kind = CLIENT_KEYS if message.kind == HELLO else DONE
    body = b"" if kind == DONE else bytes([4, 1, 2, 3, 4])
    return [
        later(
            record,
            replace(message, kind=kind, number=message.number + 7, length=len(body), body=body),
        ).bytes(),
        datagram,
    ]


def future_hello(datagram: bytes, record: Record, message: Message) -> list[bytes]:
    """Adds a hello before it, with a message_seq 7 higher (4.2.2)."""
    return [later(record, replace(other(message), number=message.number + 7)).bytes(), datagram]


def repeated_record(datagram: bytes, record: Record, message: Message) -> list[bytes]:
    """Repeats the record after it, with its sequence number and other bytes (4.1.2.6)."""
    return [datagram, record.of(other(message)).bytes()]


def earlier_number(datagram: bytes, record: Record, message: Message) -> list[bytes]:
    """Adds a hello with other bytes before it, in a record with the number of its sender's first one
    (4.1.2.6)."""
    return [replace(record, number=0).of(other(message)).bytes(), datagram]


def repeated_message(datagram: bytes, record: Record, message: Message) -> list[bytes]:
    """Repeats the message after it in a new record, with its message_seq and other bytes
    (4.2.2)."""
    return [datagram, later(record, other(message)).bytes()]


def next_message(datagram: bytes, record: Record, message: Message) -> list[bytes]:
    """Adds a hello after it, with the message_seq of the next message (4.2.2)."""
    return [datagram, later(record, replace(other(message), number=message.number + 1)).bytes()]


def unbegun_epoch(datagram: bytes, record: Record, message: Message) -> list[bytes]:
    """Adds handshake and data records of the epochs 1, 2 and 5 with random bytes, before it and
    after it (4.1)."""
    made = [
        Record(kind, epoch, 0, JUNK * 3).bytes()
        for kind, epoch in ((HANDSHAKE, 1), (DATA, 1), (HANDSHAKE, 2), (DATA, 5))
    ]
    return [*made, datagram, *made]


def unbegun_epoch_plain(datagram: bytes, record: Record, message: Message) -> list[bytes]:
    """Adds an unencrypted hello in records of the epochs 1 and 2, before it and after it (4.1)."""
    made = [replace(record, epoch=epoch, number=0).of(other(message)).bytes() for epoch in (1, 2)]
    return [*made, datagram, *made]


def change_in_front(datagram: bytes, record: Record, message: Message) -> list[bytes]:
    """Adds a ChangeCipherSpec before it (4.1; 5246, 7.1)."""
    return [Record(CHANGE, 0, record.number + AHEAD, b"\1", record.version).bytes(), datagram]


def change_behind(datagram: bytes, record: Record, message: Message) -> list[bytes]:
    """Adds a ChangeCipherSpec right after it (4.1; 5246, 7.1)."""
    return [datagram, Record(CHANGE, 0, record.number + AHEAD, b"\1", record.version).bytes()]


def in_halves(record: Record, message: Message) -> tuple[Record, Record]:
    """Returns two records, with the two halves of a message."""
    middle = len(message.body) // 2
    second = replace(record, number=record.number + AHEAD + 2).of(
        message.part(middle, len(message.body))
    )
    return later(record, message.part(0, middle)), second


def rest(datagram: bytes, record: Record) -> bytes:
    """Returns the records after the first."""
    return datagram[len(record.bytes()) :]


def changed(record: Record, **parts: object) -> bytes:
    """Returns the record with its fragment changed, and the next record's number."""
    return replace(record, number=record.number + 1).of(replace(record.message(), **parts)).bytes()


def second_half(two: Record) -> dict[str, object]:
    return {"offset": two.message().offset, "body": two.message().body}


def halves(datagram: bytes, record: Record, message: Message) -> list[bytes]:
    """Splits the message into two fragments (4.2.3)."""
    one, two = in_halves(record, message)
    return [one.bytes(), two.bytes() + rest(datagram, record)]


def halves_other_type(datagram: bytes, record: Record, message: Message) -> list[bytes]:
    """Splits the message, and adds the second fragment with another type in between (4.2.3)."""
    one, two = in_halves(record, message)
    return [
        one.bytes(),
        changed(one, kind=CLIENT_KEYS, **second_half(two)),
        two.bytes() + rest(datagram, record),
    ]


def halves_other_type_first(datagram: bytes, record: Record, message: Message) -> list[bytes]:
    """Splits the message, and adds the first fragment with another type before it (4.2.3)."""
    one, two = in_halves(record, message)
    return [changed(one, kind=CLIENT_KEYS), one.bytes(), two.bytes() + rest(datagram, record)]


def halves_other_length(datagram: bytes, record: Record, message: Message) -> list[bytes]:
    """Splits the message, and adds the second fragment in between, with a message length 10 higher
    (4.2.3)."""
    one, two = in_halves(record, message)
    return [
        one.bytes(),
        changed(one, length=message.length + 10, **second_half(two)),
        two.bytes() + rest(datagram, record),
    ]


def halves_other_length_first(datagram: bytes, record: Record, message: Message) -> list[bytes]:
    """Splits the message, and adds the first fragment before it, with a message length 10 higher
    (4.2.3)."""
    one, two = in_halves(record, message)
    return [
        changed(one, length=message.length + 10),
        one.bytes(),
        two.bytes() + rest(datagram, record),
    ]


def halves_other_bytes(datagram: bytes, record: Record, message: Message) -> list[bytes]:
    """Splits the message, and adds the second fragment with zeros in between (4.2.3)."""
    one, two = in_halves(record, message)
    return [
        one.bytes(),
        changed(one, offset=two.message().offset, body=bytes(len(two.message().body))),
        two.bytes() + rest(datagram, record),
    ]


def fragment_beyond(datagram: bytes, record: Record, message: Message) -> list[bytes]:
    """Adds a fragment of 40 bytes before it, from 4 bytes before the message's end (4.2.2)."""
    return [
        later(record, replace(message, offset=message.length - 4, body=message.body[:40])).bytes(),
        datagram,
    ]


def other_version(datagram: bytes, record: Record, message: Message) -> list[bytes]:
    """Adds a hello before it, in a record of version 0x0303, that of TLS 1.2 (4.1)."""
    return [
        replace(record, version=0x0303, number=record.number + AHEAD).of(other(message)).bytes(),
        datagram,
    ]


ALL = {
    made.__name__: made
    for made in (
        junk_behind,
        junk_alone,
        cut_behind,
        cut_alone,
        cut_in_header,
        in_two_datagrams,
        empty_alone,
        empty_in_front,
        empty_datagram,
        future_message,
        future_hello,
        repeated_record,
        earlier_number,
        repeated_message,
        next_message,
        unbegun_epoch,
        unbegun_epoch_plain,
        change_in_front,
        change_behind,
        halves,
        halves_other_type,
        halves_other_type_first,
        halves_other_length,
        halves_other_length_first,
        halves_other_bytes,
        fragment_beyond,
        other_version,
    )
}
