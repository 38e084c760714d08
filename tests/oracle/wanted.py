"""The lines that are wanted of a capture, from tshark's fields."""

from __future__ import annotations

import re
import subprocess
from collections.abc import Iterator
from pathlib import Path
from typing import Any

from tests.oracle import wanted_certificates, wanted_hellos
from tests.support import identifiers, log_columns, suite_names
from tests.support.shapes import Line, Row

FIELDS = """
    handshake.type handshake.version handshake.random handshake.extensions.supported_version
    handshake.ciphersuite handshake.extensions_key_share_group
    handshake.extensions_key_share_selected_group handshake.server_named_curve
    handshake.extensions_server_name_type handshake.extensions_server_name
    handshake.extensions_alpn_str handshake.extension.type record.content_type
    alert_message.level alert_message.desc record.length
""".split()
OUTER = [
    "frame.time_epoch", "ip.src", "ipv6.src", "ip.dst", "ipv6.dst", "_ws.col.Info", "communityid",
]
OF_TCP = [
    "tcp.stream", "tcp.srcport", "tcp.dstport", "tcp.flags.syn", "tcp.flags.fin", "tcp.flags.reset",
    "tcp.flags.ack", "tcp.seq_raw", "tcp.ack_raw", "tcp.len",
]
OF_UDP = ["udp.stream", "udp.srcport", "udp.dstport", "udp.length"]
UDP_HEADER = 8
VERSIONS = {
    0x300: "SSLv3", 0x301: "TLSv10", 0x302: "TLSv11", 0x303: "TLSv12", 0x304: "TLSv13",
    0xFEFF: "DTLSv10", 0xFEFD: "DTLSv12", 0xFEFC: "DTLSv13",
}
ALERTS = {
    0: "close_notify", 10: "unexpected_message", 20: "bad_record_mac", 22: "record_overflow",
    40: "handshake_failure", 42: "bad_certificate", 43: "unsupported_certificate",
    44: "certificate_revoked", 45: "certificate_expired", 46: "certificate_unknown",
    47: "illegal_parameter", 48: "unknown_ca", 49: "access_denied", 50: "decode_error",
    51: "decrypt_error", 52: "too_many_cids_requested", 70: "protocol_version",
    71: "insufficient_security", 80: "internal_error", 86: "inappropriate_fallback",
    90: "user_canceled", 100: "no_renegotiation", 109: "missing_extension",
    110: "unsupported_extension", 112: "unrecognized_name", 116: "certificate_required",
    120: "no_application_protocol",
}
# The random of a ServerHello that is a HelloRetryRequest (RFC 8446, section 4.1.3).
RETRY = "cf21ad74e59a6111be1d8c021e65b891c2a211167abb8c5e079e09e2c8a8339c"
CLIENT_HELLO, SERVER_HELLO, KEY_EXCHANGE, SERVER_DONE = "1", "2", "12", "14"
CHANGE, PRE_SHARED_KEY, HOST_NAME = "20", "41", "0"
# The letter of Zeek's ssl_history by tshark's name of a message; the client's are in upper case.
LETTERS = {
    "Hello Request": "h", "Client Hello": "c", "Server Hello": "s", "Hello Verify Request": "v",
    "Hello Retry Request": "j", "New Session Ticket": "t", "Certificate": "x",
    "Server Key Exchange": "k", "Certificate Request": "r", "Server Hello Done": "n",
    "Certificate Verify": "y", "Client Key Exchange": "g", "Finished": "f",
    "Certificate Status": "u", "Change Cipher Spec": "i", "Alert": "l", "Heartbeat Request": "b",
    "Heartbeat Response": "b",
}
# Fields that are also logged if they are 0.
ALWAYS = [
    "comp_method", "cert_count", "client_cert_count", "ticket_lifetime_hint",
    *wanted_certificates.ALWAYS,
]
# Fields that tshark doesn't have.
UNTOLD = """
    orig_dropped_pkts resp_dropped_pkts orig_dropped_for resp_dropped_for orig_preamble_bytes
    resp_preamble_bytes found_by tunnels tunnel_ids ssl2_hello ended_early ech_config_id ech_kdf
    ech_aead
    ech_repeated cert_unread_fields ocsp_status ocsp_this_update ocsp_next_update ocsp_revoked_at
    ocsp_scts ocsp_sct_logs ocsp_sct_times
""".split()
ORDER = [name for name in log_columns.names() if name not in UNTOLD]
TIMES = ("ts", "duration")


def key(line: Line) -> tuple[str, int, str, int, float]:
    """What a connection is known by: its ends and its first packet's time, to a microsecond."""
    return (
        line["id.orig_h"], line["id.orig_p"], line["id.resp_h"], line["id.resp_p"],
        round(line["ts"], 6),
    )


def is_same(field: str, mine: Any, other: Any) -> bool:
    """Whether two values of a field are equal; times may differ by a microsecond."""
    if field in TIMES and None not in (mine, other):
        return abs(mine - other) < 0.0000015
    return mine == other


def lines(capture: Path | str, port: int | str | None = None, udp: bool = False) -> list[Line]:
    """The lines in the order of the connections' ends: those of TLS, or of DTLS. tshark takes a
    port for TLS by its number; `port` is another one. Each connection is over with an RST, with the
    acknowledgement of the FINs of both of its sides, or at the end; a capture in which one is idle
    for 300 seconds, or segments come out of order, isn't for this."""
    talks, ended = {}, []
    for row in rows(capture, port, udp):
        stream = row["udp.stream" if udp else "tcp.stream"][0]
        talk = talks.setdefault(stream, Analyzer(row, "udp" if udp else "tcp"))
        if talk.is_over():
            continue
        talk.note(row)
        if talk.is_over():
            ended.append(talk)
    left = sorted(
        (talk for talk in talks.values() if not talk.is_over()), key=lambda talk: talk.last
    )
    return [talk.line() for talk in ended + left if talk.is_tls]


def tshark_fields(udp: bool) -> list[str]:
    """tshark's fields of a packet that lines are made of."""
    prefix = "dtls" if udp else "tls"
    fields = [*OUTER, *(OF_UDP if udp else OF_TCP), *wanted_hellos.SHARED]
    return fields + [f"{prefix}.{field}" for field in (*FIELDS, *wanted_hellos.FIELDS)]


def tshark(capture: Path | str, port: int | str | None, udp: bool) -> list[str]:
    """The command that prints them, of each packet of that protocol."""
    layer, prefix = ("udp", "dtls") if udp else ("tcp", "tls")
    command = [
        "tshark", "--enable-protocol", "communityid", "-r", str(capture), "-T", "fields", "-E",
        "separator=/t", "-E", "occurrence=a", "-E", "aggregator=;", "-Y", layer,
    ]
    command += ["-o", "tcp.reassemble_out_of_order:TRUE"]
    if port:
        command += ["-d", f"{layer}.port=={port},{prefix}"]
    for field in tshark_fields(udp):
        command += ["-e", field]
    return command


def rows(capture: Path | str, port: int | str | None, udp: bool) -> Iterator[Row]:
    """tshark's fields of each packet of that protocol, as dictionaries of lists."""
    names = [
        field if field in wanted_hellos.SHARED else re.sub("^d?tls[.]", "", field)
        for field in tshark_fields(udp)
    ]
    text = subprocess.run(
        tshark(capture, port, udp), stdout=subprocess.PIPE, stderr=subprocess.DEVNULL, text=True,
        check=True,
    ).stdout
    for line in text.splitlines():
        yield {
            name: [v for v in part.split(";") if v] for name, part in zip(names, line.split("\t"))
        }


def first(row: Row, *fields: str) -> str | None:
    for field in fields:
        if row[field]:
            return row[field][0]
    return None


def is_told(field: str, value: Any) -> bool:
    """Whether a line has the field: it is there, and if it is a mark, a list or a text of hellos,
    it isn't empty."""
    if field in wanted_hellos.ORDER and field not in ALWAYS:
        return bool(value)
    return value is not None


def group(number: int) -> str:
    return wanted_hellos.group_name(number)


def is_set(row: Row, flag: str) -> bool:
    return bool({*row[flag]} & {"1", "True"})


class Sent:
    """What one side of a connection sends. Of bytes that are sent again none are missing in
    front."""

    def __init__(self) -> None:
        self.packets = self.bytes = self.records = self.repeated = 0
        self.behind = self.fin = None

    def note(self, row: Row, layer: str) -> None:
        self.packets += 1
        self.records += len(row["record.length"])
        if layer == "udp":
            self.bytes += int(first(row, "udp.length")) - UDP_HEADER
        elif not is_set(row, "tcp.flags.reset"):
            begin = int(first(row, "tcp.seq_raw")) + is_set(row, "tcp.flags.syn")
            count = int(first(row, "tcp.len"))
            self.note_segment(begin, count)
            if is_set(row, "tcp.flags.fin"):
                self.fin = begin + count

    def note_segment(self, begin: int, count: int) -> None:
        """By the numbers of its bytes, in the circle of 2^32. After a FIN, which has a number of
        its own, there are none."""
        self.behind = begin if self.behind is None else self.behind
        end = begin + count
        if self.fin is not None and (end - self.fin) % 2**32 < 2**31:
            end = self.fin
        further = (end - self.behind) % 2**32
        if further < 2**31:
            self.bytes += further
            self.behind += further
            self.repeated += count - min(further, count)
        else:
            self.repeated += count

    def told(self, front: str) -> Line:
        return {
            f"{front}_pkts": self.packets,
            f"{front}_bytes": self.bytes,
            f"{front}_records": self.records,
            f"{front}_repeated_bytes": self.repeated or None,
        }


class Analyzer:
    """The fields of one connection, from its packets."""

    def __init__(self, row: Row, layer: str) -> None:
        self.layer = layer
        self.begun = self.last = float(first(row, "frame.time_epoch"))
        self.community_id = first(row, "communityid")
        destination = first(row, "ip.dst", "ipv6.dst"), int(first(row, f"{layer}.dstport"))
        self.ends = self.source(row), destination
        self.is_tls, self.said, self.messages = False, {}, 0
        self.closed, self.changed, self.has_done, self.is_13 = set(), [], False, False
        self.stop, self.history, self.sent = None, "", {True: Sent(), False: Sent()}
        self.own = {True: None, False: None}
        self.finished_len, self.has_finished = None, False

    def source(self, row: Row) -> tuple[str | None, int]:
        return first(row, "ip.src", "ipv6.src"), int(first(row, f"{self.layer}.srcport"))

    def is_over(self) -> bool:
        return len(self.closed) == 2

    def note(self, row: Row) -> None:
        self.last = float(first(row, "frame.time_epoch"))
        side = self.source(row) == self.ends[0]
        self.sent[side].note(row, self.layer)
        types = row["handshake.type"]
        self.is_tls |= bool(types or row["alert_message.desc"] or row["record.content_type"])
        # A fragment has the type alone.
        if CLIENT_HELLO in types and row["handshake.version"]:
            self.note_server_names(row)
            self.said |= wanted_hellos.of_client(row, self.layer, VERSIONS)
        if SERVER_HELLO in types:
            self.note_server(row)
        if KEY_EXCHANGE in types and row["handshake.server_named_curve"]:
            self.said["curve"] = group(int(row["handshake.server_named_curve"][0], 16))
        self.note_names(row, side)
        if side not in self.changed or self.is_13:
            self.said |= wanted_hellos.of_messages(row, side)
            self.note_own(row, side)
        self.note_finished(row, side)
        self.has_done |= SERVER_DONE in types
        self.messages += len(types)
        for kind in row["record.content_type"]:
            self.note_record(kind, side)
        self.note_alerts(row, side)
        if self.layer == "tcp":
            self.note_end(row, side)

    def note_own(self, row: Row, side: bool) -> None:
        """The certificate of a side's own is the first of its chain."""
        chain = wanted_hellos.chain_of(row)
        if chain is not None:
            self.own[side] = chain[0] if chain else None

    def note_end(self, row: Row, side: bool) -> None:
        """An RST ends both sides, and an acknowledgement after the other side's FIN that side."""
        if is_set(row, "tcp.flags.reset"):
            self.closed |= {True, False}
        fin = self.sent[not side].fin
        if (
            is_set(row, "tcp.flags.ack")
            and fin is not None
            and (int(first(row, "tcp.ack_raw")) - fin) % 2**32 == 1
        ):
            self.closed.add(not side)

    def note_server_names(self, row: Row) -> None:
        """The first name of the type host_name, and those of other types (RFC 6066, section 3)."""
        types = row["handshake.extensions_server_name_type"]
        names = [*zip(types, row["handshake.extensions_server_name"])]
        self.said["server_name"] = next((name for kind, name in names if kind == HOST_NAME), None)
        self.said["other_server_names"] = [
            f"{kind}:{name}" for kind, name in names if kind != HOST_NAME
        ] or None

    def note_names(self, row: Row, side: bool) -> None:
        """Adds the history letters of a packet, by the names in tshark's Info column. A fragmented
        message counts at its last fragment."""
        names = re.sub(r" [(]Level: [^)]*[)]", "", ";".join(row["_ws.col.Info"]))
        for name in re.split(", ", names.replace(" (Reassembled)", "")):
            letter = LETTERS.get(name, "")
            is_again = letter == "i" and self.layer == "udp"
            # Where the bytes of an encrypted alert happen to be a level and a name, tshark takes
            # them for these.
            if side in self.changed and not self.is_13 and (is_again or letter == "l"):
                continue
            self.history += letter.upper() if side else letter

    def note_record(self, kind: int, side: bool) -> None:
        """Counts a ChangeCipherSpec, and each record after it, which is encrypted."""
        if kind == CHANGE or (side in self.changed and not self.is_13):
            self.messages += 1
        if kind == CHANGE:
            self.changed.append(side)

    def note_finished(self, row: Row, side: bool) -> None:
        """Whether the client of TLS 1.3 sends a record behind its hello that can hold its Finished
        (RFC 8446, sections 4.4.4 and 5.2), which a ChangeCipherSpec and an alert can't."""
        if side and self.finished_len and not row["handshake.type"]:
            lengths = map(int, row["record.length"])
            self.has_finished |= any(length >= self.finished_len for length in lengths)

    def note_server(self, row: Row) -> None:
        if first(row, "handshake.random").replace(":", "") == RETRY:
            self.said["retried"] = True
            return
        self.said |= wanted_hellos.of_server(row, VERSIONS)
        version = int(first(row, "handshake.extensions.supported_version", "handshake.version"), 16)
        self.said["version"] = VERSIONS[version]
        self.said["cipher"] = suite_names.suite_name(int(first(row, "handshake.ciphersuite"), 16))
        share = first(
            row,
            "handshake.extensions_key_share_group",
            "handshake.extensions_key_share_selected_group",
        )
        self.said["curve"] = group(int(share)) if share else None
        self.said["next_protocol"] = first(row, "handshake.extensions_alpn_str")
        # (0x7f and a number is a draft of TLS 1.3)
        is_13 = version in (0x304, 0xFEFC) or version >> 8 == 0x7F
        self.said["resumed"] = is_13 and PRE_SHARED_KEY in row["handshake.extension.type"]
        self.is_13 |= is_13
        suite = int(first(row, "handshake.ciphersuite"), 16)
        hash_len, tag_len = 48 if suite == 0x1302 else 32, 8 if suite == 0x1305 else 16
        self.finished_len = 4 + hash_len + 1 + tag_len

    def note_alerts(self, row: Row, side: bool) -> None:
        # Where the bytes of an encrypted one happen to be a level and a name, tshark takes them for
        # these.
        if side in self.changed and not self.is_13:
            return
        for level, name in zip(row["alert_message.level"], row["alert_message.desc"]):
            self.said["last_alert"] = ALERTS[int(name)]
            if level == "2" and not self.stop and not self.is_complete():
                self.stop = {
                    "message": "alert",
                    "sender": "client" if side else "server",
                    "messages_before": self.messages,
                }
            self.messages += 1

    def is_complete(self) -> bool:
        """A ServerHello of TLS 1.3, or a ChangeCipherSpec of each side (RFC 5246, section 7.3)."""
        return self.is_13 or {*self.changed} == {True, False}

    def line(self) -> Line:
        is_short = self.is_complete() and not self.is_13 and not self.has_done
        outcome = (
            "tls13"
            if self.is_13
            else "resumed"
            if is_short
            else "full"
            if self.is_complete()
            else "broken_off"
            if self.stop
            else "waiting"
        )
        known = {
            "ts": round(self.begun, 6),
            "proto": self.layer,
            "community_id": self.community_id,
            "duration": round(self.last - self.begun, 6),
            "id.orig_h": self.ends[0][0],
            "id.orig_p": self.ends[0][1],
            "id.resp_h": self.ends[1][0],
            "id.resp_p": self.ends[1][1],
            **self.said,
            **wanted_certificates.of_talk(
                self.said.get("server_name"), self.own[False], self.own[True], self.begun
            ),
            "resumed": is_short or (self.is_13 and self.said["resumed"]),
            "established": self.is_complete() and (self.has_finished or not self.is_13),
            "outcome": outcome,
            "stop": self.stop,
            "ssl_history": self.history or None,
            **self.sent[True].told("orig"),
            **self.sent[False].told("resp"),
        }
        # (tshark has no uid)
        known["uid"] = identifiers.uid(known)
        return {field: known[field] for field in ORDER if is_told(field, known.get(field))}
