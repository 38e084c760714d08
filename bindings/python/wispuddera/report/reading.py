"""Reads the lines of logs: the fields that the report uses, and why lines are skipped."""

from __future__ import annotations

import json
from collections import Counter
from collections.abc import Callable, Iterator
from functools import lru_cache
from typing import Any, BinaryIO, NamedTuple, NoReturn, Optional

from . import suites, text

# Longer lines are skipped. Those of tlslog are shorter: a hello's lists have lengths of 2 bytes,
# and a byte takes at most 5 as text.
LONGEST_LINE = 4 << 20
# Connections are counted once this many bytes of lines are read. Counting each line takes a tenth
# longer.
BATCH = 256 << 10


class Unread:
    """The reasons why a line is skipped."""

    NO_JSON = "not JSON, or truncated"
    NO_OBJECT = "JSON, but not an object"
    TOO_LONG = f"longer than {text.number(LONGEST_LINE)} bytes"
    MESSAGE = "a message, as --messages prints them"
    NO_FIELD = "no field that the report reads"


class OtherFormat(ValueError):
    """The log isn't JSON of `tlslog`. The text names its format, and the command that makes JSON."""


class Stop(NamedTuple):
    """The message that ended a handshake without success."""

    message: Optional[str]
    sender: Optional[str]


class Server(NamedTuple):
    """The address of a server, and its port if the line has it."""

    address: str
    port: Optional[int]
    name: str  # both, as the page shows them

    def __str__(self) -> str:
        return self.name


class Certificate(NamedTuple):
    """The fields of the server's certificate that the line has."""

    key: str  # the fingerprint, or else not_after, subject and issuer
    fingerprint: Optional[str]
    subject: Optional[str]
    issuer: Optional[str]
    end: str  # `not_after`; the next field has it in seconds
    not_after: int
    is_self_signed: bool
    names: tuple[str, ...]  # the first ones of `san_dns`
    name_count: int


Values = tuple[str, ...]


class Connection(NamedTuple):
    """The fields of a line that the report uses; absent ones are `None`."""

    uid: Optional[str]
    time: Optional[float]
    client: Optional[str]
    server: Optional[Server]
    version: Optional[str]
    suite: Optional[str]
    group: Optional[str]
    host: Optional[str]
    outcome: Optional[str]
    is_resumed: Optional[bool]
    alert: Optional[str]
    stop: Optional[Stop]
    ja4: Optional[str]
    offered_versions: Values
    offered_suites: Values
    has_name: Optional[bool]  # whether the host is one of the certificate's names
    certificate: Optional[Certificate]


def _refuse(constant: str) -> NoReturn:
    raise ValueError(f"{constant} is not JSON")


_DECODER = json.JSONDecoder(parse_constant=_refuse)
# The white space of JSON (RFC 8259, section 2).
_JSON_BLANKS = b" \t\n\r"
# The most names of a certificate that the page shows.
NAMES = 4
# The fields of docs/TLSLOG.md that are read.
TEXTS = (
    "uid",
    "version",
    "cipher",
    "curve",
    "server_name",
    "outcome",
    "last_alert",
    "ja4",
    "id.orig_h",
    "id.resp_h",
)
FIELDS = {
    "ts",
    "resumed",
    "stop",
    "not_after",
    "sni_matches_cert",
    "client_version",
    "client_supported_versions",
    "client_ciphers",
    *TEXTS,
}
# Fields of a message that no connection has.
OF_MESSAGES = {"content_type", "side", "place"}
# The magic numbers of captures: pcap in either byte order, with microseconds or nanoseconds, and
# pcapng.
_CAPTURES = (
    b"\xd4\xc3\xb2\xa1",
    b"\xa1\xb2\xc3\xd4",
    b"\x4d\x3c\xb2\xa1",
    b"\xa1\xb2\x3c\x4d",
    b"\x0a\x0d\x0d\x0a",
)
_IS_CAPTURE = "this is a capture: run tlslog CAPTURE | tlslog-report -"
_TO_JSON = "the report reads JSON: run tlslog CAPTURE > LOG"


def other_format(line: bytes) -> Optional[str]:
    """What the log is, judged by its first line, and what to run instead. `None` if the line can be
    part of a log of connections."""
    if line.startswith(_CAPTURES):
        return _IS_CAPTURE
    if line.startswith(b"#"):
        return f"this is a log in Zeek's format, and {_TO_JSON}"
    if not line.lstrip().startswith(b"{"):
        columns = line.decode(errors="replace").strip().split(",")
        is_csv = len(columns) > 1 and not FIELDS.isdisjoint(columns)
        return f"these are comma-separated values, and {_TO_JSON}" if is_csv else None
    return _other_lines(line)


def _other_lines(line: bytes) -> Optional[str]:
    try:
        fields = _DECODER.decode(line.decode())
    except (ValueError, RecursionError):
        return None
    if not isinstance(fields, dict):
        return None
    if "event_type" in fields:
        return f"these are Suricata's events, and {_TO_JSON}"
    if "@timestamp" in fields:
        return f"these are events in Elastic's format, and {_TO_JSON}"
    if "content_type" in fields and "side" in fields:
        return "these are messages, and the report reads connections: run tlslog CAPTURE > LOG, without --messages"
    if "fingerprint" in fields and "side" in fields:
        return "these are certificates, and the report reads connections: run tlslog CAPTURE > LOG, without --certificates"
    return None


@lru_cache(maxsize=65536)
def _server_at(address: str, port: Optional[int]) -> Server:
    if port is None:
        return Server(address, None, address)
    return Server(address, port, f"[{address}]:{port}" if ":" in address else f"{address}:{port}")


class Reader:
    """Iterates over the connections of logs.

    It counts the skipped lines by reason (`unread`), the values of a wrong type by field
    (`misfits`), and the values that were cut (`cut`). `OtherFormat` is raised if a log isn't JSON
    of connections.
    """

    def __init__(self, *logs: BinaryIO) -> None:
        self._logs = logs
        self.lines = 0
        self.unread: Counter[str] = Counter()
        self.misfits: Counter[str] = Counter()
        self.cut = 0

    def __iter__(self) -> Iterator[Connection]:
        for log in self._logs:
            lines, unread = self.lines, sum(self.unread.values())
            batch: list[Connection] = []
            room = BATCH
            for line in self._lines(log):
                if self.lines == lines + 1 and (reason := other_format(line)):
                    raise OtherFormat(reason)
                fields = self._object(line)
                if fields is None:
                    continue
                batch.append(self._connection(fields))
                room -= len(line)
                if room < 0:
                    yield from batch
                    batch, room = [], BATCH
            yield from batch
            if self.lines > lines and self.lines - lines == sum(self.unread.values()) - unread:
                raise OtherFormat(f"no line is a connection, and {_TO_JSON}")

    def _lines(self, log: BinaryIO) -> Iterator[bytes]:
        """The lines that are neither blank nor too long."""
        blank = b""
        readline = log.readline
        while line := readline(LONGEST_LINE + 1):
            if line.isspace():
                # A file of pcapng begins with two blank lines.
                if len(blank) < 4:
                    blank += line
                if blank == _CAPTURES[-1]:
                    raise OtherFormat(_IS_CAPTURE)
            if len(line) > LONGEST_LINE and not line.endswith(b"\n"):
                while line and not line.endswith(b"\n"):
                    line = readline(LONGEST_LINE + 1)
                self.lines += 1
                self.unread[Unread.TOO_LONG] += 1
            elif not line.isspace():
                self.lines += 1
                yield line

    def _object(self, line: bytes) -> Optional[dict[str, Any]]:
        """The fields of a line, or `None` if it isn't a connection's."""
        try:
            content = line.strip(_JSON_BLANKS).decode()
            fields, end = _DECODER.raw_decode(content)
        except (ValueError, RecursionError):
            self.unread[Unread.NO_JSON] += 1
            return None
        if end != len(content):
            self.unread[Unread.NO_JSON] += 1
        elif type(fields) is not dict:
            self.unread[Unread.NO_OBJECT] += 1
        elif not fields.keys().isdisjoint(OF_MESSAGES):
            self.unread[Unread.MESSAGE] += 1
        elif FIELDS.isdisjoint(fields):
            self.unread[Unread.NO_FIELD] += 1
        else:
            return fields
        return None

    def _connection(self, fields: dict[str, Any]) -> Connection:
        get, longest = fields.get, text.LONGEST
        # This runs for each line, so values that are absent or valid are taken without a call.
        uid, version, suite, group, host, outcome, alert, ja4, client, address = [
            value
            if (value := get(name)) is None or (type(value) is str and len(value) <= longest)
            else self._text(value, name)
            for name in TEXTS
        ]
        time = get("ts")
        if time is not None and not _is_time(time):
            time = self._misfit("ts")
        server = None
        if address is not None:
            port = get("id.resp_p")
            if port is not None and not _is_port(port):
                port = self._misfit("id.resp_p")
            server = _server_at(address, port)
        is_resumed = get("resumed")
        if is_resumed is not None and type(is_resumed) is not bool:
            is_resumed = self._misfit("resumed")
        stop = self._stop(fields) if "stop" in fields else None
        if "client_supported_versions" in fields:
            versions = self._texts(fields, "client_supported_versions")
        else:
            only = self._text(get("client_version"), "client_version")
            versions = (only,) if only is not None else ()
        offered = self._texts(fields, "client_ciphers")
        has_name = get("sni_matches_cert")
        if has_name is not None and type(has_name) is not bool:
            has_name = self._misfit("sni_matches_cert")
        certificate = self._certificate(fields) if "not_after" in fields else None
        # Suites by number count as those by name.
        if suite is not None:
            suite = suites.name_of(suite)
        return Connection(
            uid,
            time,
            client,
            server,
            version,
            suite,
            group,
            host,
            outcome,
            is_resumed,
            alert,
            stop,
            ja4,
            versions,
            offered,
            has_name,
            certificate,
        )

    def _misfit(self, name: str) -> Any:
        """Counts a value of the wrong type. Returns `None`: the field is taken as absent."""
        self.misfits[name] += 1
        return None

    def _value(self, value: Any, name: str, fits: Callable[[Any], bool]) -> Any:
        """The value if it has the field's type, else `None`."""
        return value if value is None or fits(value) else self._misfit(name)

    def _texts(self, fields: dict[str, Any], name: str) -> Values:
        value = fields.get(name)
        if value is None:
            return ()
        if _are_texts(value):
            return tuple(value)
        self._misfit(name)
        return ()

    def _text(self, value: Any, name: str) -> Optional[str]:
        if value is None:
            return None
        return self._within(value) if type(value) is str else self._misfit(name)

    def _within(self, value: str) -> str:
        if len(value) <= text.LONGEST:
            return value
        self.cut += 1
        return text.cut(value)

    def _stop(self, fields: dict[str, Any]) -> Optional[Stop]:
        value = self._value(fields["stop"], "stop", _is_object)
        if value is None:
            return None
        return Stop(
            self._text(value.get("message"), "stop.message"),
            self._text(value.get("sender"), "stop.sender"),
        )

    def _certificate(self, fields: dict[str, Any]) -> Optional[Certificate]:
        not_after = fields["not_after"]
        if not_after is None:
            return None
        end = text.seconds_of(not_after) if type(not_after) is str else None
        if end is None:
            return self._misfit("not_after")
        get = fields.get
        subject, issuer = self._text(get("subject"), "subject"), self._text(get("issuer"), "issuer")
        prints = self._texts(fields, "cert_chain_fps")
        fingerprint = text.cut(prints[0]) if prints else None
        is_self_signed = self._value(get("self_issued"), "self_issued", _is_flag)
        if is_self_signed is None:
            is_self_signed = subject is not None and subject == issuer
        names = self._value(get("san_dns"), "san_dns", _are_texts) or ()
        key = fingerprint or f"{not_after}\n{subject}\n{issuer}"
        first = tuple([self._within(name) for name in names[:NAMES]])
        return Certificate(
            key, fingerprint, subject, issuer, not_after, end, is_self_signed, first, len(names)
        )


def _is_flag(value: Any) -> bool:
    return type(value) is bool


def _is_object(value: Any) -> bool:
    return type(value) is dict


def _is_time(value: Any) -> bool:
    return type(value) in (int, float) and 0 <= value < text.END_OF_TIME


def _is_port(value: Any) -> bool:
    return type(value) is int and 0 <= value < 1 << 16


def _are_texts(value: Any) -> bool:
    if type(value) is not list:
        return False
    try:
        # This takes half the time of a look at each type.
        "".join(value)
    except TypeError:
        return False
    return True
