"""Runs tlslog and yields its lines as objects: `log`, and `Connection` with the fields of
docs/TLSLOG.md."""

from __future__ import annotations

import dataclasses
import json
import os
import shutil
import signal
import subprocess
import tempfile
import threading
from collections.abc import Callable, Iterable, Iterator
from dataclasses import dataclass, field
from typing import Any, BinaryIO, Literal, Optional, Union, overload

StrPath = Union[str, "os.PathLike[str]"]
Line = dict[str, Any]


class LogError(RuntimeError):
    """The program failed with the exit status `status`, below 0 if a signal ended it, and
    `message`."""

    def __init__(self, program: str, status: int, message: str) -> None:
        how = f"status {status}" if status >= 0 else f"signal {_signal_name(-status)}"
        super().__init__(f"{program} ended with {how}" + (f": {message}" if message else ""))
        self.status = status
        self.message = message


def _signal_name(number: int) -> str:
    try:
        return signal.Signals(number).name
    except ValueError:
        return str(number)


@dataclass(frozen=True)
class Stop:
    """The message that ended a handshake without success."""

    message: str
    sender: str
    messages_before: int


@dataclass(frozen=True)
class Connection:
    """A connection with the fields of its line, which docs/TLSLOG.md describes.

    A dot in a field's name is an underscore here. Absent fields are `None`. `more` has the fields
    that this class doesn't know, by their names in the line.
    """

    # made by docs/fields: connections
    ts: float
    uid: str
    id_orig_h: str
    id_orig_p: int
    id_resp_h: str
    id_resp_p: int
    proto: str
    community_id: Optional[str] = None
    duration: Optional[float] = None
    version: Optional[str] = None
    cipher: Optional[str] = None
    curve: Optional[str] = None
    server_name: Optional[str] = None
    other_server_names: Optional[list[str]] = None
    next_protocol: Optional[str] = None
    resumed: Optional[bool] = None
    established: Optional[bool] = None
    last_alert: Optional[str] = None
    outcome: Optional[str] = None
    stop: Optional[Stop] = None
    gap: Optional[str] = None
    ended_early: Optional[bool] = None
    ssl_history: Optional[str] = None
    orig_pkts: Optional[int] = None
    resp_pkts: Optional[int] = None
    orig_bytes: Optional[int] = None
    resp_bytes: Optional[int] = None
    orig_records: Optional[int] = None
    resp_records: Optional[int] = None
    retried: Optional[bool] = None
    orig_repeated_bytes: Optional[int] = None
    resp_repeated_bytes: Optional[int] = None
    orig_disagreeing_bytes: Optional[int] = None
    resp_disagreeing_bytes: Optional[int] = None
    orig_dropped_pkts: Optional[int] = None
    resp_dropped_pkts: Optional[int] = None
    orig_dropped_for: Optional[list[str]] = None
    resp_dropped_for: Optional[list[str]] = None
    orig_preamble_bytes: Optional[int] = None
    resp_preamble_bytes: Optional[int] = None
    found_by: Optional[str] = None
    tunnels: Optional[list[str]] = None
    tunnel_ids: Optional[list[int]] = None
    client_version: Optional[str] = None
    client_supported_versions: Optional[list[str]] = None
    client_session_id: Optional[str] = None
    client_ciphers: Optional[list[str]] = None
    client_comp_methods: Optional[list[int]] = None
    ssl_client_exts: Optional[list[str]] = None
    client_curves: Optional[list[str]] = None
    point_formats: Optional[list[int]] = None
    sigalgs: Optional[list[str]] = None
    orig_alpn: Optional[list[str]] = None
    client_key_share_groups: Optional[list[str]] = None
    psk_key_exchange_modes: Optional[list[int]] = None
    offers_psk: Optional[bool] = None
    offers_early_data: Optional[bool] = None
    offers_ticket: Optional[bool] = None
    cookie: Optional[bool] = None
    ech: Optional[bool] = None
    ech_config_id: Optional[int] = None
    ech_kdf: Optional[str] = None
    ech_aead: Optional[str] = None
    ech_repeated: Optional[bool] = None
    delegated_credential: Optional[bool] = None
    ssl2_hello: Optional[bool] = None
    server_version: Optional[str] = None
    server_session_id: Optional[str] = None
    comp_method: Optional[int] = None
    ssl_server_exts: Optional[list[str]] = None
    server_key_share_group: Optional[str] = None
    dh_param_size: Optional[int] = None
    scts: Optional[int] = None
    sct_logs: Optional[list[str]] = None
    sct_times: Optional[list[int]] = None
    ticket_issued: Optional[bool] = None
    ticket_lifetime_hint: Optional[int] = None
    ocsp_stapled: Optional[bool] = None
    ocsp_status: Optional[str] = None
    ocsp_this_update: Optional[float] = None
    ocsp_next_update: Optional[float] = None
    ocsp_revoked_at: Optional[float] = None
    ocsp_scts: Optional[int] = None
    ocsp_sct_logs: Optional[list[str]] = None
    ocsp_sct_times: Optional[list[int]] = None
    cert_count: Optional[int] = None
    cert_lengths: Optional[list[int]] = None
    cert_chain_fps: Optional[list[str]] = None
    client_cert_requested: Optional[bool] = None
    client_cert_count: Optional[int] = None
    client_cert_lengths: Optional[list[int]] = None
    client_cert_chain_fps: Optional[list[str]] = None
    cert_chain_order: Optional[bool] = None
    client_cert_chain_order: Optional[bool] = None
    subject: Optional[str] = None
    issuer: Optional[str] = None
    serial: Optional[str] = None
    not_before: Optional[str] = None
    not_after: Optional[str] = None
    san_dns: Optional[list[str]] = None
    san_ip: Optional[list[str]] = None
    key_type: Optional[str] = None
    key_length: Optional[int] = None
    key_curve: Optional[str] = None
    sig_alg: Optional[str] = None
    is_ca: Optional[bool] = None
    self_issued: Optional[bool] = None
    validity_days: Optional[int] = None
    weak_key: Optional[bool] = None
    weak_signature: Optional[bool] = None
    tbs_sig_alg: Optional[str] = None
    cert_scts: Optional[int] = None
    cert_sct_logs: Optional[list[str]] = None
    cert_sct_times: Optional[list[int]] = None
    cert_unread_fields: Optional[list[str]] = None
    sni_matches_cert: Optional[bool] = None
    expired_at_connection: Optional[bool] = None
    not_yet_valid: Optional[bool] = None
    validation_status: Optional[str] = None
    cert_error: Optional[list[str]] = None
    client_subject: Optional[str] = None
    client_issuer: Optional[str] = None
    client_cert_error: Optional[list[str]] = None
    ja3: Optional[str] = None
    ja3_string: Optional[str] = None
    ja3s: Optional[str] = None
    ja3s_string: Optional[str] = None
    ja4: Optional[str] = None
    # end
    more: dict[str, Any] = field(default_factory=dict)

    @classmethod
    def of_line(cls, line: Union[str, bytes]) -> Connection:
        """The connection of a line of `tlslog --format json`. `ValueError` is raised for any other
        line."""
        return cls._of_values(_values_of(line))

    @classmethod
    def _of_values(cls, values: Line) -> Connection:
        known: dict[str, Any] = {}
        more: dict[str, Any] = {}
        for name, value in values.items():
            attribute = name.replace(".", "_")
            if attribute in _ATTRIBUTES:
                known[attribute] = Stop(**value) if attribute == "stop" else value
            else:
                more[name] = value
        try:
            return cls(**known, more=more)
        except TypeError as reason:
            raise ValueError(f"the line lacks a field that each line has: {reason}") from None


def _values_of(line: Union[str, bytes]) -> Line:
    values = json.loads(line)
    if not isinstance(values, dict):
        raise ValueError("the line isn't a JSON object")
    return values


_ATTRIBUTES = frozenset(f.name for f in dataclasses.fields(Connection)) - {"more"}


def _program(given: Optional[StrPath]) -> str:
    if given is not None:
        return os.fspath(given)
    beside = os.path.join(os.path.dirname(os.path.abspath(__file__)), "tlslog")
    if os.path.isfile(beside) and os.access(beside, os.X_OK):
        return beside
    found = shutil.which("tlslog")
    if found is None:
        where = "beside the module or in PATH"
        raise FileNotFoundError(f"there is no tlslog {where}: pass its path as `program`")
    return found


@overload
def log(
    path: Union[StrPath, BinaryIO], *others: StrPath, messages: Literal[True], **options: Any
) -> Iterator[Line]:
    ...


@overload
def log(
    path: Union[StrPath, BinaryIO], *others: StrPath, certificates: Literal[True], **options: Any
) -> Iterator[Line]:
    ...


@overload
def log(path: Union[StrPath, BinaryIO], *others: StrPath, **options: Any) -> Iterator[Connection]:
    ...


def log(
    path: Union[StrPath, BinaryIO],
    *others: StrPath,
    program: Optional[StrPath] = None,
    ciphers: Optional[StrPath] = None,
    checksums: Optional[str] = None,
    messages: bool = False,
    certificates: bool = False,
    fields: Union[str, Iterable[str], None] = None,
    memory: Union[str, int, None] = None,
    join: bool = False,
) -> Iterator[Any]:
    """Yields the connections of captures, each when it ends, by running `tlslog`.

    A capture is a path, `-` for standard input, or an object opened for reading in binary: a file,
    a pipe such as the output of tcpdump, or an `io.BytesIO`. An object can't be combined with other
    captures.

    With `messages` or `certificates` it yields a `dict` for each message or certificate, with the
    names of docs/TLSLOG.md. With `fields`, names or one text of names with commas, the connections
    have only these fields, and other attributes are `None`. `ciphers`, `checksums`, `memory` and
    `join` are the program's options.

    The program is `program`, or the one beside this module, or the first in PATH.
    `FileNotFoundError` is raised if there is none, and `LogError`, after the connections so far, if
    its exit status isn't 0. The program is ended if the iterator is closed early. The first Ctrl-C
    while a stream is read ends the stream: the open connections are yielded, and the iterator ends.
    """
    if messages and certificates:
        raise ValueError("messages and certificates can't be combined")
    options = {
        "--ciphers": ciphers and os.fspath(ciphers),
        "--checksums": checksums,
        "--memory": None if memory is None else str(memory),
    }
    if fields is not None:
        options["--fields"] = fields if isinstance(fields, str) else ",".join(fields)
    command = [_program(program), "--format", "json"]
    command += [
        word for name, value in options.items() if value is not None for word in (name, value)
    ]
    command += [
        name
        for name, is_asked in (
            ("--messages", messages),
            ("--certificates", certificates),
            ("--join", join),
        )
        if is_asked
    ]
    is_stream = hasattr(path, "read")
    if is_stream and others:
        raise ValueError("an open capture can't be combined with others")
    names = ["-"] if is_stream else [os.fspath(path), *map(os.fspath, others)]  # type: ignore[arg-type]
    shown = (
        _values_of
        if messages or certificates
        else Connection.of_line
        if fields is None
        else _some_of_line
    )
    return _items([*command, "--", *names], path if is_stream else None, "-" in names, shown)  # type: ignore[arg-type]


_ALWAYS = {
    f.name: None
    for f in dataclasses.fields(Connection)
    if f.default is dataclasses.MISSING and f.name != "more"
}


def _some_of_line(line: bytes) -> Connection:
    """The connection of a line with some of the fields."""
    values = _values_of(line)
    known = {name.replace(".", "_") for name in values}
    return Connection._of_values(
        {**{name: None for name in _ALWAYS if name not in known}, **values}
    )


# The status of tlslog for a truncated capture.
_CUT = 1


class _Feed(threading.Thread):
    """Copies an open capture to the program, until either ends or `stop` is called."""

    def __init__(self, source: BinaryIO, target: BinaryIO) -> None:
        super().__init__(name="wispuddera.log", daemon=True)
        self._read = getattr(source, "read1", source.read)
        self._target = target
        self._lock = threading.Lock()
        self.fault: Optional[BaseException] = None
        self.start()

    def run(self) -> None:
        try:
            while piece := self._read(65536):
                view = memoryview(piece)
                while view:
                    view = view[self._target.write(view) :]
        except (BrokenPipeError, ValueError):
            # The program ended, or the input was stopped.
            pass
        except OSError as fault:
            self.fault = fault
        finally:
            self.stop()

    def stop(self) -> None:
        with self._lock:
            self._target.close()


def _items(
    command: list[str], source: Optional[BinaryIO], is_stream: bool, shown: Callable[[bytes], Any]
) -> Iterator[Any]:
    # Standard error goes to a file, since an unread pipe would block the program. The program has a
    # session of its own, so that Ctrl-C doesn't reach it.
    given: dict[str, Any] = {"stdin": subprocess.PIPE, "bufsize": 0} if source is not None else {}
    feed = None
    with tempfile.TemporaryFile() as errors:
        process = subprocess.Popen(
            command, stdout=subprocess.PIPE, stderr=errors, start_new_session=True, **given
        )
        assert process.stdout is not None
        try:
            if source is not None:
                assert process.stdin is not None
                feed = _Feed(source, process.stdin)  # type: ignore[arg-type]
            output = _Output(process.stdout.fileno(), feed, is_stream)
            for line in output:
                yield shown(line)
            status = process.wait()
        except BaseException:
            process.kill()
            process.wait()
            raise
        finally:
            process.stdout.close()
        # A stream that Ctrl-C ends may end within a packet, which the status reports.
        if status != 0 and not (output.was_interrupted and status == _CUT):
            errors.seek(0)
            raise LogError(
                command[0], status, errors.read().decode("utf-8", "backslashreplace").strip()
            )
        if feed is not None and feed.fault is not None:
            raise feed.fault


class _Output:
    """The lines of the program. The first Ctrl-C ends its input, if that is a stream."""

    def __init__(self, descriptor: int, feed: Optional[_Feed], is_stream: bool) -> None:
        self._descriptor, self._feed, self._is_stream = descriptor, feed, is_stream
        self.was_interrupted = False

    def __iter__(self) -> Iterator[bytes]:
        rest = b""
        while piece := self._read():
            *whole, rest = (rest + piece).split(b"\n")
            yield from whole
        if rest:
            yield rest

    def _read(self) -> bytes:
        try:
            # No bytes are lost if a signal interrupts this read.
            return os.read(self._descriptor, 65536)
        except KeyboardInterrupt:
            if self.was_interrupted or not self._is_stream:
                raise
            self.was_interrupted = True
            if self._feed is not None:
                self._feed.stop()
            return self._read()
