"""Compares `--format zeek` and `--format suricata` with the lines (docs/TLSLOG.md, "Formats")."""

from __future__ import annotations

import base64
import hashlib
import json
import re
import subprocess
from collections import Counter
from collections.abc import Iterable, Iterator
from dataclasses import replace
from datetime import datetime, timezone
from pathlib import Path
from typing import Any

from tests.support import identifiers, packets
from tests.tlslog import ecs_format, text_format, zeek_log
from tests.support.shapes import Ask, Line

TOP = Path(__file__).resolve().parents[2]
PATHS = {(): "ssl", ("--messages",): "tls_messages", ("--certificates",): "x509"}
# The fields of Zeek 6's logs, as it writes them with its local.zeek.
OF_ZEEK = {
    "ssl": """
        ts uid id.orig_h id.orig_p id.resp_h id.resp_p version cipher curve server_name resumed last_alert next_protocol established ssl_history
        cert_chain_fps client_cert_chain_fps sni_matches_cert validation_status
    """.split(),
    "x509": """
        ts fingerprint certificate.version certificate.serial certificate.subject certificate.issuer certificate.not_valid_before
        certificate.not_valid_after certificate.key_alg certificate.sig_alg certificate.key_type certificate.key_length certificate.exponent
        certificate.curve san.dns san.uri san.email san.ip basic_constraints.ca basic_constraints.path_len host_cert client_cert
    """.split(),
}
# zeek-cut of two fields, as a program of awk.
CUT = r"""BEGIN { FS = OFS = "\t" } /^#fields/ { for (i = 2; i <= NF; i++) at[$i] = i - 1 } !/^#/ { print $at["uid"], $at["id.resp_p"] }"""
VERSION_NUMBERS = {
    "SSLv3": 0x0300,
    "TLSv10": 0x0301,
    "TLSv11": 0x0302,
    "TLSv12": 0x0303,
    "TLSv13": 0x0304,
    "DTLSv10": 0xFEFF,
    "DTLSv12": 0xFEFD,
    "DTLSv13": 0xFEFC,
}
# What Zeek has as a name, and JSON as a number (RFC 3749, 2, and RFC 3943, 3; RFC 8422, 5.1.2; RFC
# 8446, 4.2.9).
METHODS = {0: "NULL", 1: "DEFLATE", 64: "LZS"}
NAMED = {
    "comp_method": METHODS,
    "client_comp_methods": METHODS,
    "point_formats": {
        0: "uncompressed",
        1: "ansiX962_compressed_prime",
        2: "ansiX962_compressed_char2",
    },
    "psk_key_exchange_modes": {0: "psk_ke", 1: "psk_dhe_ke"},
}
OF_VERSION = ("client_version", "server_version")
ADDRESSES = ("san_ip", "san.ip")
VERSIONS = {
    "SSLv3": "SSLv3",
    "TLSv10": "TLSv1",
    "TLSv11": "TLS 1.1",
    "TLSv12": "TLS 1.2",
    "TLSv13": "TLS 1.3",
    "DTLSv10": "DTLS 1.0",
    "DTLSv12": "DTLS 1.2",
    "DTLSv13": "DTLS 1.3",
}


# Names that could be taken for something else, cut a line or a column, or are orders for a
# terminal.
NAMES = [
    b"\x1b[31m\x1b]0;title\x07",
    "\u202e\u0430pple.example".encode(),
    b"\x9b2J",
    b"-",
    b"(empty)",
    b"#close",
    b"#fields\ta",
    b"a,b",
    b"\t\n\r\0\x7f\xff",
    b"\\x2d",
    b"\\",
    b"\"'",
    b"--",
    b"(empty),",
    b" ",
    b",",
]
# The fields that Zeek has as times.
TIMES = (
    "ts", "certificate.not_valid_before", "certificate.not_valid_after", "ocsp_this_update",
    "ocsp_next_update", "ocsp_revoked_at",
)


def want(is_so: object, *words: object) -> None:
    if not is_so:
        raise zeek_log.Wrong(" ".join(map(str, words)))


def kind_of(field: str, value: Any) -> str:
    """The type in which Zeek has a value of JSON."""
    if field in TIMES:
        return "time"
    if field.startswith("id."):
        return "port" if field.endswith("_p") else "addr"
    if field in ("duration", "proto"):
        return {"duration": "interval", "proto": "enum"}[field]
    if field in OF_VERSION:
        return "count"
    if field in NAMED:
        return "vector[string]" if isinstance(value, list) else "string"
    if field in ADDRESSES:
        return "vector[addr]"
    if isinstance(value, list):
        # (an empty list is one of names: lists of numbers are left out)
        return "vector[string]" if isinstance([*value, ""][0], str) else "vector[count]"
    return {bool: "bool", int: "count", str: "string", dict: "string"}[type(value)]


def as_zeek(field: str, value: Any) -> Any:
    """A value of JSON as Zeek's log has it."""
    if field in OF_VERSION:
        return VERSION_NUMBERS[value] if value in VERSION_NUMBERS else int(value, 16)
    if field in NAMED:
        name = lambda number: NAMED[field].get(number, f"unknown-{number}")  # noqa: E731
        return list(map(name, value)) if isinstance(value, list) else name(value)
    return json.dumps(value, separators=(",", ":")) if isinstance(value, dict) else value


def row_of(line: Line) -> Line:
    """A line of JSON as a row of Zeek's log."""
    return {field: as_zeek(field, value) for field, value in line.items()}


def rows(ask: Ask, *words: object) -> str:
    status, text, told = ask([*words])
    want(status == 0, *words, "status", status, told)
    return text


def zeek(ask: Ask, files: list[Path]) -> int:
    """Each log has the fields and values of the JSON lines. Chosen fields are in their order, and
    awk cuts as zeek-cut does."""
    count = 0
    for words, path in PATHS.items():
        lines = [json.loads(line) for line in rows(ask, *words, *files).splitlines()]
        log = zeek_log.Log(rows(ask, *words, "--format", "zeek", *files))
        want(
            log.path == path and len(log.rows) == len(lines) and lines,
            "the log",
            log.path,
            len(log.rows),
            len(lines),
        )
        for row, line in zip(log.rows, lines):
            want(row == row_of(line), "zeek:", row, line)
            kinds = dict(zip(log.fields, log.types))
            for field, value in line.items():
                want(kinds[field] == kind_of(field, value), field, "is", kinds[field])
            count += len(line)
        header = rows(ask, *words, "--format", "csv", *files).splitlines()[0]
        want(",".join(log.fields) == header, "fields of", path, log.fields)
        lacking = [field for field in OF_ZEEK.get(path, ()) if field not in log.fields]
        want(not lacking, "Zeek's fields that", path, "lacks:", lacking)
    chosen = zeek_log.Log(
        rows(ask, "--format", "zeek", "--fields", "id.resp_p,server_name,uid", *files)
    )
    want(chosen.fields == ["id.resp_p", "server_name", "uid"], "chosen fields", chosen.fields)
    lines = [json.loads(line) for line in rows(ask, *files).splitlines()]
    cut = subprocess.run(
        ["awk", CUT],
        input=rows(ask, "--format", "zeek", *files),
        stdout=subprocess.PIPE,
        text=True,
        check=True,
    ).stdout
    want(
        cut.splitlines() == [f"{line['uid']}\t{line['id.resp_p']}" for line in lines],
        "awk:",
        cut[:300],
    )
    return count


def counted(size: int, content: bytes) -> bytes:
    return len(content).to_bytes(size, "big") + content


def hello(name: bytes, protocols: list[bytes]) -> bytes:
    """A record with a ClientHello that asks for this name and these protocols (RFC 8446, 4.1.2; RFC
    6066, 3; RFC 7301, 3.1)."""
    extensions = [
        (0, counted(2, b"\0" + counted(2, name))),
        (16, counted(2, b"".join(counted(1, one) for one in protocols))),
    ]
    block = b"".join(kind.to_bytes(2, "big") + counted(2, content) for kind, content in extensions)
    body = b"\3\3" + bytes(32) + b"\0" + counted(2, b"\xc0\x2f") + b"\1\0" + counted(2, block)
    return b"\x16\3\1" + counted(2, b"\1" + counted(3, body))


def with_hello(capture: Path, record: bytes) -> bytes:
    """Returns a capture whose first payload is a hello, up to there, with another hello."""
    segments = packets.read(capture.read_bytes())
    place = next(place for place, segment in enumerate(segments) if segment.payload)
    made = [*segments[:place], replace(segments[place], payload=record)]
    return packets.pcap([(segment.time, segment.frame()) for segment in made])


def hostile_captures(capture: Path, room: Path) -> list[Path]:
    """Writes a capture for each name, with the name as the host and in the list of protocols of its
    hello. In the capture given, the first payload is a hello."""
    files = []
    for number, name in enumerate(NAMES):
        files.append(room / f"name-{number}.pcap")
        files[-1].write_bytes(with_hello(capture, hello(name, [name, b"h2", name])))
    return files


def hostile(ask: Ask, capture: Path, room: Path) -> int:
    """Each name, also in a list, and before its line, is read as the text that JSON has."""
    files = hostile_captures(capture, room)
    for words in (
        [],
        ["--fields", "server_name,orig_alpn"],
        ["--fields", "server_name"],
        ["--messages"],
    ):
        lines = [json.loads(line) for line in rows(ask, *words, *files).splitlines()]
        log = zeek_log.Log(rows(ask, *words, "--format", "zeek", *files))
        want(len(lines) == len(NAMES), len(lines), "lines of hostile names")
        want(log.rows == list(map(row_of, lines)), "hostile names:", log.rows)
    events = [json.loads(line) for line in rows(ask, "--format", "suricata", *files).splitlines()]
    lines = [json.loads(line) for line in rows(ask, *files).splitlines()]
    want(
        [event["tls"]["sni"] for event in events] == [line["server_name"] for line in lines],
        "hostile names of Suricata's",
    )
    want(
        text_format.check(ask, files) == ecs_format.check(ask, files) == len(NAMES),
        "hostile names as text and by ECS",
    )
    return len(NAMES)


def colons(digits: str) -> str:
    return ":".join(digits[at : at + 2] for at in range(0, len(digits), 2))


def sent_certificates(messages: Iterable[Line]) -> dict[str, bytes]:
    """The bytes of each certificate of a message, by its SHA-256."""
    found = {}
    for message in messages:
        if message.get("name") == "certificate" and isinstance(
            message["message"].get("body"), dict
        ):
            for digits in message["message"]["body"]["certificate_list"]:
                one = bytes.fromhex(digits)
                found[hashlib.sha256(one).hexdigest()] = one
    return found


def date(text: str | None) -> str | None:
    return text.removesuffix("Z") if text else None


def day(seconds: int | None) -> str | None:
    return (
        f"{datetime.fromtimestamp(seconds, timezone.utc):%Y-%m-%dT%H:%M:%S}"
        if seconds is not None
        else None
    )


def forward(name: str | None) -> str | None:
    """A name from its first attribute to the last, of one that RFC 4514 writes from the last on."""
    if not name:
        return name
    parts = re.split(r"((?<!\\)(?:\\\\)*[,+])", name)
    # (backslashes before a separator are of the attribute there)
    attributes = [part + behind[:-1] for part, behind in zip(parts[::2], [*parts[1::2], ","])]
    signs = [behind[-1] for behind in parts[1::2]]
    text = attributes[-1]
    for attribute, sign in zip(reversed(attributes[:-1]), reversed(signs)):
        text += {",": ", ", "+": " + "}[sign] + attribute
    return text


def serial_of(digits: str | None) -> str | None:
    """(the bytes of a number whose first bit is set begin with one of zeros)"""
    return digits and colons("00" + digits if int(digits[0], 16) >= 8 else digits)


def event_of(line: Line, sent: dict[str, bytes], certificates: dict[str, Line]) -> Line:
    """The event that is wanted of a connection. A client's certificate has its line, by the
    SHA-256."""
    print_of = lambda chain: chain and colons(
        hashlib.sha1(sent[chain[0]]).hexdigest()
    )  # noqa: E731
    texts = (
        lambda chain: [base64.b64encode(sent[one]).decode() for one in chain or ()] or None
    )  # noqa: E731
    first = lambda texts: texts and texts[0]  # noqa: E731
    time = datetime.fromtimestamp(round(line["ts"] * 1_000_000) // 1_000_000, timezone.utc)
    chain, of_client = line.get("cert_chain_fps"), line.get("client_cert_chain_fps")
    pair = (
        lambda name: {"hash": line[name], "string": line[f"{name}_string"]}
        if name in line
        else None
    )  # noqa: E731
    some = lambda given: {
        name: value for name, value in given.items() if value is not None
    }  # noqa: E731
    own = certificates[of_client[0]] if of_client else {}
    client = own and some(
        {
            "subject": forward(line.get("client_subject")),
            "issuerdn": forward(line.get("client_issuer")),
            "fingerprint": print_of(of_client),
            "serial": serial_of(own.get("certificate.serial")),
            "notbefore": day(own.get("certificate.not_valid_before")),
            "notafter": day(own.get("certificate.not_valid_after")),
            "certificate": first(texts(of_client)),
            "chain": texts(of_client),
        }
    )
    tls = {
        "subject": forward(line.get("subject")),
        "issuerdn": forward(line.get("issuer")),
        "subjectaltname": [*line.get("san_dns", []), *line.get("san_ip", [])] or None,
        "session_resumed": line["resumed"] or None,
        "serial": serial_of(line.get("serial")),
        "fingerprint": print_of(chain),
        "sni": line.get("server_name"),
        "version": VERSIONS.get(line.get("version"), line.get("version")),
        "notbefore": date(line.get("not_before")),
        "notafter": date(line.get("not_after")),
        "certificate": first(texts(chain)),
        "chain": texts(chain),
        "ja3": pair("ja3"),
        "ja3s": pair("ja3s"),
        "ja4": line.get("ja4"),
        "client": client or None,
        "client_alpns": line.get("orig_alpn"),
        "server_alpns": [line["next_protocol"]] if "next_protocol" in line else None,
    }
    return {
        "timestamp": f"{time:%Y-%m-%dT%H:%M:%S}.{round(line['ts'] * 1_000_000) % 1_000_000:06}+0000",
        "flow_id": identifiers.flow_id(line),
        "event_type": "tls",
        "src_ip": line["id.orig_h"],
        "src_port": line["id.orig_p"],
        "dest_ip": line["id.resp_h"],
        "dest_port": line["id.resp_p"],
        "proto": line["proto"].upper(),
        "community_id": line["community_id"],
        "tls": some(tls),
    }


def chains_of(file: Path, event: Line) -> Iterator[str]:
    """The chains of an event, as `captures/chains` has them."""
    for side, said in (("client", event["tls"].get("client", {})), ("server", event["tls"])):
        if "chain" in said:
            want(
                said["certificate"] == said["chain"][0],
                "suricata:",
                file,
                "the first of the chain isn't the certificate",
            )
            yield " ".join([file.stem, str(event["src_port"]), side, *said["chain"]])


def chains(ask: Ask, files: list[Path]) -> None:
    """Compares the certificates of the events with those of tshark, in `captures/chains`."""
    wanted = Counter((TOP / "captures" / "chains").read_text().splitlines())
    found = Counter(
        chain
        for file in files
        for row in rows(ask, "--format", "suricata", file).splitlines()
        for chain in chains_of(file, json.loads(row))
    )
    want(
        found == wanted,
        "chains that tshark hasn't:",
        found - wanted,
        "chains that it has:",
        wanted - found,
    )


def suricata(ask: Ask, files: list[Path]) -> int:
    """Compares each event with the JSON line. Python computes SHA-1 and base64, of the certificates
    whose SHA-256 the line has."""
    lines = [json.loads(line) for line in rows(ask, *files).splitlines()]
    sent = sent_certificates(
        json.loads(line) for line in rows(ask, "--messages", *files).splitlines()
    )
    events = [json.loads(line) for line in rows(ask, "--format", "suricata", *files).splitlines()]
    want(len(events) == len(lines), len(events), "events of", len(lines), "connections")
    certificates = {
        one["fingerprint"]: one
        for one in map(json.loads, rows(ask, "--certificates", *files).splitlines())
    }
    for event, line in zip(events, lines):
        wanted = event_of(line, sent, certificates)
        want(
            event == wanted
            and list(event) == list(wanted)
            and list(event["tls"]) == list(wanted["tls"]),
            "suricata:",
            event,
            "wanted is",
            wanted,
        )
    for words, told in [
        (["--fields", "ts"], "--fields can't be combined with"),
        (["--messages"], "it can't be combined with --messages"),
        (["--certificates"], "it can't be combined with --messages or --certificates"),
    ]:
        status, text, error = ask(["--format", "suricata", *words, *files])
        want((status, text) == (2, "") and told in error, "suricata", *words, status, error)
    chains(ask, files)
    return len(events)
