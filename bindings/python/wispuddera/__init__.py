"""Parses TLS, DTLS and X.509 in place, by the proved library of wispuddera.h.

Calls take `bytes`, or a writable buffer (a `bytearray`, or a `memoryview` of one), without a copy;
any other buffer is copied. They return numbers, and `memoryview`s of the bytes. `Incomplete` is
raised if bytes are missing, `Refused` if they break a rule, and `Outside` if an offset is beyond
their end. What is absent is `None`.

Calls may run in several threads at once. A `bytearray` can't be resized while a view of it exists.
"""

from __future__ import annotations

import ctypes
import enum
import struct
import threading
from collections.abc import Callable, Iterable, Iterator
from dataclasses import dataclass
from typing import Optional, Union

from . import _library as _c

# Lines of tlslog.
from ._log import Connection, LogError, Stop, log

# Numbers of the protocol, by name.
from ._numbers import AlertDescription, ContentType, HandshakeType
from ._version import __version__

# Both sides of a conversation.
from ._conversation import Conversation, ConversationEvent, ConversationStop

# Names of numbers.
from ._suites import cipher_suite_name

Data = Union[bytes, bytearray, memoryview]

__all__ = [
    "AlertDescription",
    "ClientHello",
    "Connection",
    "ContentType",
    "Conversation",
    "ConversationEvent",
    "ConversationStop",
    "Data",
    "DtlsClientHello",
    "DtlsMessage",
    "DtlsRecord",
    "EventKind",
    "Extension",
    "Flow",
    "HandshakeType",
    "Incomplete",
    "KeyKind",
    "KeyShare",
    "LogError",
    "Message",
    "MessageStream",
    "NameKind",
    "Outcome",
    "Outside",
    "Record",
    "RecordStream",
    "Refused",
    "SUBJECT_ALT_NAME",
    "ServerHello",
    "Stop",
    "X509",
    "X509Extension",
    "X509Name",
    "__version__",
    "best_version",
    "certificates",
    "cipher_suite_name",
    "client_hello",
    "dtls_client_hello",
    "dtls_message",
    "dtls_messages",
    "dtls_record",
    "dtls_records",
    "dtls_server_hello",
    "event_of_alert",
    "event_of_dtls_message",
    "event_of_message",
    "extension",
    "extensions",
    "find_body",
    "find_extension",
    "groups",
    "ja3",
    "ja3s",
    "ja4",
    "key_share",
    "key_shares",
    "log",
    "looks_like_tls",
    "message",
    "messages",
    "outcome",
    "protocols",
    "read_x509",
    "record",
    "records",
    "server_hello",
    "server_name",
    "server_name_of_hello",
    "server_name_of_record",
    "signature_schemes",
    "versions",
    "x509_extensions",
    "x509_names",
]


class Incomplete(ValueError):
    """The part being read needs at least `missing` more bytes."""

    def __init__(self, missing: int) -> None:
        super().__init__(f"{missing} more bytes are needed")
        self.missing = missing


class Refused(ValueError):
    """The bytes break a rule. `kind` is TooLarge, LengthValue, Verify, Switch, Tag or Complete."""

    def __init__(self, kind: str) -> None:
        super().__init__(_c.TEXTS[kind])
        self.kind = kind


class Outside(IndexError):
    """An offset is beyond the end of the bytes."""


@dataclass(frozen=True)
class Record:
    """A record (RFC 5246, section 6.2.1). `next` is the offset of what follows it."""

    content_type: int
    version: int
    fragment: memoryview
    next: int


@dataclass(frozen=True)
class Message:
    """A handshake message (RFC 5246, section 7.4): its HandshakeType and its body."""

    kind: int
    body: memoryview
    next: int


@dataclass(frozen=True)
class Extension:
    """An extension (RFC 8446, section 4.2): its ExtensionType and its content."""

    kind: int
    content: memoryview
    next: int


@dataclass(frozen=True)
class KeyShare:
    """A key share (RFC 8446, section 4.2.8): its NamedGroup and the public value."""

    group: int
    value: memoryview
    next: int


@dataclass(frozen=True)
class ClientHello:
    """The body of a ClientHello (RFC 5246, section 7.4.1.2).

    `session_id` is empty if there is none, and `extensions` is `None` if there is no block of them.
    """

    version: int
    random: memoryview
    session_id: memoryview
    cipher_suites: tuple[int, ...]
    compression_methods: tuple[int, ...]
    extensions: Optional[memoryview]
    next: int


@dataclass(frozen=True)
class ServerHello:
    """The body of a ServerHello (RFC 5246, section 7.4.1.3).

    `session_id` is empty if there is none, and `extensions` is `None` if there is no block of them.
    """

    version: int
    random: memoryview
    session_id: memoryview
    cipher_suite: int
    compression_method: int
    extensions: Optional[memoryview]
    next: int


@dataclass(frozen=True)
class DtlsRecord:
    """A DTLS record (RFC 6347, section 4.1)."""

    content_type: int
    version: int
    epoch: int
    sequence_number: int
    fragment: memoryview
    next: int


@dataclass(frozen=True)
class DtlsMessage:
    """A DTLS handshake message, or a fragment of one (RFC 6347, section 4.2.2)."""

    kind: int
    length: int
    message_seq: int
    fragment_offset: int
    is_part: bool
    body: memoryview
    next: int


@dataclass(frozen=True)
class DtlsClientHello:
    """The body of a DTLS ClientHello (RFC 6347, section 4.2.1).

    `session_id` is empty if there is none, and `extensions` is `None` if there is no block of them.
    """

    version: int
    random: memoryview
    session_id: memoryview
    cookie: memoryview
    cipher_suites: tuple[int, ...]
    compression_methods: tuple[int, ...]
    extensions: Optional[memoryview]
    next: int


@dataclass(frozen=True)
class _Item:
    content: memoryview
    next: int


class _Room(threading.local):
    """The structs that calls write to, one set a thread."""

    def __init__(self) -> None:
        self.record, self.part, self.found, self.number = (
            _c.Record(),
            _c.Part(),
            _c.Found(),
            _c.Number(),
        )
        self.client_hello, self.server_hello = _c.ClientHello(), _c.ServerHello()
        self.dtls_record, self.dtls_message = _c.DtlsRecord(), _c.DtlsMessage()
        self.dtls_client_hello = _c.DtlsClientHello()
        self.x509, self.x509_extension = _c.X509(), _c.X509Extension()


_room = _Room()


class _Given:
    """The bytes for a call: their address, their count, and a view of them."""

    __slots__ = ("address", "count", "view")

    def __init__(self, data: Data) -> None:
        self.view = view = memoryview(data)
        self.count = view.nbytes
        if type(data) is bytes:
            self.address = data
            return
        if not view.c_contiguous or view.format != "B" or view.ndim != 1:
            raise TypeError("the buffer must be contiguous bytes")
        if not self.count:
            self.address = b""
        elif view.readonly:
            self.address = bytes(data)
            self.view = memoryview(self.address)
        else:
            self.address = ctypes.byref(ctypes.c_ubyte.from_buffer(data))

    def part(self, place: _c.Place) -> memoryview:
        offset = place.offset
        return self.view[offset : offset + place.length]


def _check(status: int, missing: int) -> None:
    if status == _c.READ:
        return
    if status == _c.INCOMPLETE:
        raise Incomplete(missing)
    if status == _c.OUTSIDE:
        raise Outside("the offset is beyond the end of the bytes")
    raise Refused(_c.KINDS[status])


def _is_found(status: int, missing: int) -> bool:
    if status == _c.NONE:
        return False
    _check(status, missing)
    return True


def _walk(read: Callable, given: _Given) -> Iterator:
    """Iterates over the items from the front to the end."""
    offset = 0
    while offset < given.count:
        item = read(given, offset)
        yield item
        offset = item.next


def _record(given: _Given, offset: int) -> Record:
    out = _room.record
    _check(_c.read_record(given.address, given.count, offset, out), out.missing)
    return Record(out.content_type, out.version, given.part(out.fragment), out.next)


def record(data: Data, offset: int = 0) -> Record:
    """The record at this offset (RFC 5246, section 6.2.1)."""
    return _record(_Given(data), offset)


def looks_like_tls(data: Data) -> Optional[bool]:
    """Whether a TLS stream can begin with these bytes.

    It must have a record's header (RFC 8446, section 5.1) with a type from 20 to 24, the major
    version 3 and a length of at most 16640. `None` if there are fewer than 5 bytes.

    Call it before you wait for the rest of a record: the calls that read records refuse no type and
    no version.
    """
    given = _Given(data)
    return {_c.READ: True, _c.NONE: False}.get(_c.looks_like_tls(given.address, given.count))


def records(data: Data) -> Iterator[Record]:
    """The records from the front to the end. `Incomplete` is raised at the end if the last is
    truncated."""
    return _walk(_record, _Given(data))


def _message(given: _Given, offset: int) -> Message:
    out = _room.part
    _check(_c.read_message(given.address, given.count, offset, out), out.missing)
    return Message(out.kind, given.part(out.content), out.next)


def message(fragment: Data, offset: int = 0) -> Message:
    """The handshake message at this offset of a record's fragment (RFC 5246, section 7.4)."""
    return _message(_Given(fragment), offset)


def messages(fragment: Data) -> Iterator[Message]:
    """The handshake messages of a record's fragment."""
    return _walk(_message, _Given(fragment))


def _extension(given: _Given, offset: int) -> Extension:
    out = _room.part
    _check(_c.read_extension(given.address, given.count, offset, out), out.missing)
    return Extension(out.kind, given.part(out.content), out.next)


def extension(block: Data, offset: int = 0) -> Extension:
    """The extension at this offset of a block of extensions (RFC 8446, section 4.2)."""
    return _extension(_Given(block), offset)


def extensions(block: Data) -> Iterator[Extension]:
    """The extensions in a block of extensions."""
    return _walk(_extension, _Given(block))


def _key_share(given: _Given, offset: int) -> KeyShare:
    out = _room.part
    _check(_c.read_key_share(given.address, given.count, offset, out), out.missing)
    return KeyShare(out.kind, given.part(out.content), out.next)


def key_share(content: Data) -> KeyShare:
    """The key share in the content of a ServerHello's key_share (RFC 8446, section 4.2.8)."""
    return _key_share(_Given(content), 0)


def key_shares(content: Data) -> Iterator[KeyShare]:
    """The key shares in the content of a ClientHello's key_share (RFC 8446, section 4.2.8)."""
    given, out = _Given(content), _room.found
    _check(_c.find_key_shares(given.address, given.count, out), out.missing)
    return _walk(_key_share, _Given(given.part(out.place)))


def _protocol(given: _Given, offset: int) -> _Item:
    out = _room.part
    _check(_c.read_protocol(given.address, given.count, offset, out), out.missing)
    return _Item(given.part(out.content), out.next)


def protocols(block: Data) -> Optional[Iterator[bytes]]:
    """The protocol names in a block of extensions (RFC 7301, section 3.1).

    `None` if there is no such extension. `Incomplete` is raised at a truncated name.
    """
    given, out = _Given(block), _room.found
    if not _is_found(_c.find_protocols(given.address, given.count, out), out.missing):
        return None
    return (bytes(it.content) for it in _walk(_protocol, _Given(given.part(out.place))))


def _certificate(given: _Given, offset: int) -> _Item:
    out = _room.part
    _check(_c.read_certificate(given.address, given.count, offset, out), out.missing)
    return _Item(given.part(out.content), out.next)


def certificates(body: Data) -> Iterator[memoryview]:
    """The certificates, in DER, in the body of a Certificate up to TLS 1.2 (RFC 5246, section
    7.4.2).

    `Incomplete` is raised at a truncated certificate.
    """
    given, out = _Given(body), _room.found
    _check(_c.find_certificates(given.address, given.count, out), out.missing)
    return (it.content for it in _walk(_certificate, _Given(given.part(out.place))))


def _numbers(given: _Given, at: Callable) -> tuple[int, ...]:
    numbers, out = [], _room.number
    while _is_found(at(given.address, given.count, len(numbers), out), out.missing):
        numbers.append(out.value)
    return tuple(numbers)


def versions(content: Data) -> tuple[int, ...]:
    """The versions in the content of a supported_versions of either hello (RFC 8446, section
    4.2.1)."""
    return _numbers(_Given(content), _c.version_at)


def groups(content: Data) -> tuple[int, ...]:
    """The groups in the content of a supported_groups (RFC 8446, section 4.2.7)."""
    return _numbers(_Given(content), _c.group_at)


def signature_schemes(content: Data) -> tuple[int, ...]:
    """The signature schemes in the content of a signature_algorithms (RFC 8446, section 4.2.3)."""
    return _numbers(_Given(content), _c.signature_scheme_at)


def best_version(version: int, block: Optional[Data]) -> Optional[int]:
    """The best version of a hello with this version and block of extensions (RFC 8446, section
    4.2.1)."""
    given, out = _Given(block or b""), _room.number
    status = _c.best_version(given.address, given.count, version, out)
    return out.value if _is_found(status, out.missing) else None


def find_extension(block: Data, kind: int) -> Optional[memoryview]:
    """The content of the first extension of this type in a block of extensions (RFC 8446, section
    4.2)."""
    given, out = _Given(block), _room.found
    status = _c.find_extension(given.address, given.count, kind, out)
    return given.part(out.place) if _is_found(status, out.missing) else None


def find_body(fragment: Data, kind: int) -> Optional[memoryview]:
    """The body of the first handshake message of this type in a record's fragment (RFC 5246,
    section 7.4)."""
    given, out = _Given(fragment), _room.found
    status = _c.find_body(given.address, given.count, kind, out)
    return given.part(out.place) if _is_found(status, out.missing) else None


def _name(find: Callable, data: Data) -> Optional[bytes]:
    given, out = _Given(data), _room.found
    status = find(given.address, given.count, out)
    return bytes(given.part(out.place)) if _is_found(status, out.missing) else None


def server_name(block: Data) -> Optional[bytes]:
    """The host name in a client's block of extensions (RFC 6066, section 3); `None` if there is
    none."""
    return _name(_c.find_server_name, block)


def server_name_of_hello(body: Data) -> Optional[bytes]:
    """The host name in the body of a ClientHello (RFC 6066, section 3); `None` if there is none."""
    return _name(_c.find_server_name_in_hello, body)


def server_name_of_record(data: Data) -> Optional[bytes]:
    """The host name in the first ClientHello of the first record (RFC 6066, section 3); `None` if
    there is none."""
    return _name(_c.find_server_name_in_record, data)


def _suites(listed: memoryview) -> tuple[int, ...]:
    return struct.unpack(f">{len(listed) // 2}H", listed)


def client_hello(body: Data) -> ClientHello:
    """The body of a ClientHello (RFC 5246, section 7.4.1.2)."""
    given, out = _Given(body), _room.client_hello
    _check(_c.read_client_hello(given.address, given.count, out), out.missing)
    return ClientHello(
        out.version,
        given.part(out.random),
        given.part(out.session_id),
        _suites(given.part(out.cipher_suites)),
        tuple(given.part(out.compression_methods)),
        given.part(out.extensions) if out.has_extensions else None,
        out.next,
    )


def server_hello(body: Data) -> ServerHello:
    """The body of a ServerHello (RFC 5246, section 7.4.1.3)."""
    return _server_hello(_c.read_server_hello, body)


def dtls_server_hello(body: Data) -> ServerHello:
    """The body of a DTLS ServerHello (RFC 6347, section 4.3.2), of any version."""
    return _server_hello(_c.read_dtls_server_hello, body)


def _server_hello(read: Callable, body: Data) -> ServerHello:
    given, out = _Given(body), _room.server_hello
    _check(read(given.address, given.count, out), out.missing)
    return ServerHello(
        out.version,
        given.part(out.random),
        given.part(out.session_id),
        out.cipher_suite,
        out.compression_method,
        given.part(out.extensions) if out.has_extensions else None,
        out.next,
    )


def _dtls_record(given: _Given, offset: int) -> DtlsRecord:
    out = _room.dtls_record
    _check(_c.read_dtls_record(given.address, given.count, offset, out), out.missing)
    return DtlsRecord(
        out.content_type,
        out.version,
        out.epoch,
        out.sequence_number,
        given.part(out.fragment),
        out.next,
    )


def dtls_record(datagram: Data, offset: int = 0) -> DtlsRecord:
    """The DTLS record at this offset of a datagram (RFC 6347, section 4.1)."""
    return _dtls_record(_Given(datagram), offset)


def dtls_records(datagram: Data) -> Iterator[DtlsRecord]:
    """The DTLS records in a datagram."""
    return _walk(_dtls_record, _Given(datagram))


def _dtls_message(given: _Given, offset: int) -> DtlsMessage:
    out = _room.dtls_message
    _check(_c.read_dtls_message(given.address, given.count, offset, out), out.missing)
    body = given.part(out.body)
    return DtlsMessage(
        out.kind, out.length, out.message_seq, out.fragment_offset, out.is_part, body, out.next
    )


def dtls_message(fragment: Data, offset: int = 0) -> DtlsMessage:
    """The DTLS handshake message, or fragment of one, at this offset of a record's fragment (RFC
    6347, section 4.2.2)."""
    return _dtls_message(_Given(fragment), offset)


def dtls_messages(fragment: Data) -> Iterator[DtlsMessage]:
    """The DTLS handshake messages, and fragments of them, in a record's fragment."""
    return _walk(_dtls_message, _Given(fragment))


def dtls_client_hello(body: Data) -> DtlsClientHello:
    """The body of a DTLS ClientHello (RFC 6347, section 4.2.1)."""
    given, out = _Given(body), _room.dtls_client_hello
    _check(_c.read_dtls_client_hello(given.address, given.count, out), out.missing)
    return DtlsClientHello(
        out.version,
        given.part(out.random),
        given.part(out.session_id),
        given.part(out.cookie),
        _suites(given.part(out.cipher_suites)),
        tuple(given.part(out.compression_methods)),
        given.part(out.extensions) if out.has_extensions else None,
        out.next,
    )


def _fingerprint(call: Callable, body: Data, size: int) -> str:
    given, text, missing = _Given(body), ctypes.create_string_buffer(size), ctypes.c_size_t()
    _check(call(given.address, given.count, text, size, missing), missing.value)
    return text.raw.decode("ascii")


def ja3(body: Data, *, dtls: bool = False) -> str:
    """The JA3 of a ClientHello's body, with `dtls` of one of DTLS: 32 hexadecimal digits."""
    return _fingerprint(_c.dtls_ja3 if dtls else _c.ja3, body, 32)


def ja3s(body: Data, *, dtls: bool = False) -> str:
    """The JA3S of a ServerHello's body, with `dtls` of one of DTLS: 32 hexadecimal digits."""
    return _fingerprint(_c.dtls_ja3s if dtls else _c.ja3s, body, 32)


def ja4(body: Data, over: str = "tcp") -> str:
    """The JA4 of a ClientHello's body, sent over "tcp", "quic", or DTLS over "udp".

    `ValueError` is raised for another transport.
    """
    calls = {"tcp": _c.ja4, "quic": _c.quic_ja4, "udp": _c.dtls_ja4}
    if over not in calls:
        raise ValueError(f"over must be tcp, quic or udp, not {over}")
    return _fingerprint(calls[over], body, 36)


# The object identifier of subjectAltName, 2.5.29.17, without its tag and its length.
SUBJECT_ALT_NAME = b"\x55\x1d\x11"


class KeyKind(enum.IntEnum):
    """The kind of a certificate's key. `REFUSED` is a malformed RSAPublicKey, or a curve without a
    name."""

    REFUSED = 0
    RSA = 1
    EC = 2
    ED25519 = 3
    ED448 = 4
    OTHER = 5


class NameKind(enum.IntEnum):
    """The kinds of names, by their tags. A name may have another tag."""

    EMAIL = 0x81
    DNS = 0x82
    URI = 0x86
    IP = 0x87
    REGISTERED_ID = 0x88
    OTHER = 0xA0
    DIRECTORY = 0xA4


@dataclass(frozen=True)
class X509:
    """A certificate (RFC 5280, section 4.1).

    Names and `signed_bytes` include tag and length; object identifiers, numbers and keys don't.
    Times are seconds since 1970. Nothing is verified.
    """

    version: int  # as encoded: 2 for v3
    signed_bytes: memoryview
    serial_number: memoryview
    signature_algorithm: memoryview
    issuer: memoryview
    subject: memoryview
    not_before: int
    not_after: int
    key_algorithm: memoryview
    key_parameters: memoryview  # for `KeyKind.EC` the curve's object identifier
    key_kind: KeyKind
    key_bits: int  # for `KeyKind.RSA` the bits of the modulus, else 0
    public_key: memoryview
    extensions: memoryview
    signature: memoryview
    next: int

    def names(self) -> Optional[Iterator[X509Name]]:
        """The names in its first subjectAltName (RFC 5280, section 4.2.1.6); `None` if it has none."""
        for extension in x509_extensions(self.extensions):
            if extension.oid == SUBJECT_ALT_NAME:
                return x509_names(extension.value)
        return None


@dataclass(frozen=True)
class X509Extension:
    """An extension of a certificate (RFC 5280, section 4.2): its object identifier, without tag and
    length, and its value, in DER."""

    oid: memoryview
    critical: bool
    value: memoryview
    next: int


@dataclass(frozen=True)
class X509Name:
    """A name of a subject or an issuer (RFC 5280, section 4.2.1.6): its tag, usually a `NameKind`,
    and its bytes."""

    kind: int
    content: memoryview
    next: int


def read_x509(data: Data) -> X509:
    """The first certificate in the bytes, in DER. Its names and extensions aren't checked here."""
    given, out = _Given(data), _room.x509
    _check(_c.read_x509(given.address, given.count, out), out.missing)
    return X509(
        out.version,
        given.part(out.signed_bytes),
        given.part(out.serial_number),
        given.part(out.signature_algorithm),
        given.part(out.issuer),
        given.part(out.subject),
        out.not_before,
        out.not_after,
        given.part(out.key_algorithm),
        given.part(out.key_parameters),
        KeyKind(out.key_kind),
        out.key_bits,
        given.part(out.public_key),
        given.part(out.extensions),
        given.part(out.signature),
        out.next,
    )


def _x509_extension(given: _Given, offset: int) -> X509Extension:
    out = _room.x509_extension
    _check(_c.read_x509_extension(given.address, given.count, offset, out), out.missing)
    return X509Extension(given.part(out.oid), out.critical, given.part(out.value), out.next)


def x509_extensions(extensions: Data) -> Iterator[X509Extension]:
    """The extensions of a certificate (RFC 5280, section 4.2)."""
    return _walk(_x509_extension, _Given(extensions))


def _x509_name(given: _Given, offset: int) -> X509Name:
    out = _room.part
    _check(_c.read_x509_name(given.address, given.count, offset, out), out.missing)
    return X509Name(out.kind, given.part(out.content), out.next)


def x509_names(value: Data) -> Iterator[X509Name]:
    """The names in the value of a subjectAltName or an issuerAltName (RFC 5280, section
    4.2.1.6)."""
    given, out = _Given(value), _room.found
    _check(_c.find_x509_names(given.address, given.count, out), out.missing)
    return _walk(_x509_name, _Given(given.part(out.place)))


class _Stream:
    """A stream that arrives in pieces; at most `capacity` bytes are buffered."""

    def __init__(self, capacity: int) -> None:
        self._buffer = (ctypes.c_ubyte * capacity)()
        self._view = memoryview(self._buffer).cast("B")
        self._held = _c.Place()
        self._refusal: Optional[Refused] = None

    @property
    def held(self) -> int:
        """The number of buffered bytes, which aren't part of a complete item yet."""
        return self._held.length

    def _feed(self, piece: Data, take: Callable, out: ctypes.Structure, shown: Callable) -> list:
        """The items that are complete with the piece. A refusal after them is raised by the next
        call, and by each later one."""
        rest, taken, whole = _Given(piece), ctypes.c_size_t(), []
        while self._refusal is None and rest.count:
            _c.feed(self._buffer, len(self._buffer), self._held, rest.address, rest.count, taken)
            while (status := take(self._buffer, len(self._buffer), self._held, out)) == _c.READ:
                whole.append(shown(out))
            if status != _c.INCOMPLETE or taken.value == 0:
                self._refusal = Refused("TooLarge" if status == _c.INCOMPLETE else _c.KINDS[status])
            rest = _Given(rest.view[taken.value :])
        if self._refusal is not None and not whole:
            raise self._refusal
        return whole

    def _copied(self, place: _c.Place) -> memoryview:
        return memoryview(bytes(self._view[place.offset : place.offset + place.length]))


class RecordStream(_Stream):
    """The records of one direction, from pieces of any length."""

    def __init__(self) -> None:
        super().__init__(16645)

    def feed(self, piece: Data) -> list[Record]:
        """The records that are complete with this piece; their `next` has no meaning.

        `Refused` is raised for a record that is too large, after those before it were returned, and
        by each later call.
        """
        return self._feed(piece, _c.next_record, _room.record, self._shown)

    def _shown(self, out: _c.Record) -> Record:
        return Record(out.content_type, out.version, self._copied(out.fragment), 0)


class MessageStream(_Stream):
    """Handshake messages, reassembled from the fragments of records. One of more than `capacity`
    bytes is refused."""

    def __init__(self, capacity: int = 65540) -> None:
        super().__init__(capacity)

    def feed(self, fragment: Data) -> list[Message]:
        """The messages that are complete with this fragment; their `next` has no meaning.

        `Refused` is raised for a malformed or too large message, after those before it were
        returned, and by each later call.
        """
        return self._feed(fragment, _c.next_message, _room.part, self._shown)

    def _shown(self, out: _c.Part) -> Message:
        return Message(out.kind, self._copied(out.content), 0)


class EventKind(enum.IntEnum):
    """The kinds of messages and records that the outcome of a conversation depends on."""

    HELLO_REQUEST = 0
    CLIENT_HELLO = 1
    HELLO_VERIFY_REQUEST = 2
    SERVER_HELLO = 3
    HELLO_RETRY_REQUEST = 4
    SERVER_HELLO_13 = 5
    NEW_SESSION_TICKET = 6
    CERTIFICATE = 7
    SERVER_KEY_EXCHANGE = 8
    CERTIFICATE_REQUEST = 9
    SERVER_DONE = 10
    CERTIFICATE_VERIFY = 11
    CLIENT_KEY_EXCHANGE = 12
    CERTIFICATE_STATUS = 13
    CHANGE_CIPHER_SPEC = 14
    ENCRYPTED = 15
    WARNING = 16
    NO_CERTIFICATE = 17
    FATAL = 18
    HEARTBEAT = 19
    OTHER = 20
    UNKNOWN = 21


class Outcome(enum.IntEnum):
    """The state of a conversation. wispuddera.h describes each."""

    WAITING = 0
    FULL = 1
    RESUMED = 2
    BROKEN_OFF = 3
    UNKNOWN = 4
    NO_HANDSHAKE = 5
    TLS13 = 6
    TLS13_RETRIED = 7
    TLS13_EARLY = 8
    TLS13_RETRIED_EARLY = 9


def event_of_message(kind: int, body: Data) -> EventKind:
    """The kind of event of an unencrypted TLS handshake message of this type and body."""
    given = _Given(body)
    return EventKind(_c.event_of_message(given.address, given.count, kind))


def event_of_dtls_message(kind: int) -> EventKind:
    """The kind of event of an unencrypted handshake message of DTLS up to 1.2, one for all its
    fragments."""
    return EventKind(_c.event_of_dtls_message(kind))


def event_of_alert(level: int, description: int) -> EventKind:
    """The kind of event of an unencrypted alert (RFC 5246, section 7.2)."""
    return EventKind(_c.event_of_alert(level, description))


def outcome(events: Iterable[tuple[EventKind, bool]]) -> Outcome:
    """The state of a conversation after these events: their kinds, and whether they go to the
    server, in order."""
    given = [_c.Event(kind, to_server) for kind, to_server in events]
    return Outcome(_c.outcome((_c.Event * len(given))(*given), len(given)))


class Flow:
    """Follows a conversation event by event. Its state is one number."""

    def __init__(self) -> None:
        self._flow = _c.Flow()
        _c.flow_start(self._flow)

    def step(self, kind: EventKind, to_server: bool) -> None:
        """Follows an event: its kind, and whether it goes to the server."""
        _c.flow_step(self._flow, _c.Event(kind, to_server))

    @property
    def outcome(self) -> Outcome:
        """The state of the conversation after the events so far."""
        return Outcome(_c.flow_outcome(self._flow))
