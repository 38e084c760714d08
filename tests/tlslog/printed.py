"""Parts that compare formats and options with the lines, and statuses with the pages."""

from __future__ import annotations

import os
from collections.abc import Iterator
from dataclasses import replace
from pathlib import Path
from typing import NamedTuple

from tests.support import packets
from tests.tlslog import ecs_format, log_forms, other_formats, text_format
from tests.tlslog.program import Program, parsed, stop
from tests.tlslog.stored import STORED, TLS, TOP, Stored, counted, report_of

CERTIFICATES = TOP / "captures/certificates"
# Link types that aren't read, and their names by tcpdump.org.
LINKS = {105: " (IEEE 802.11)", 127: " (IEEE 802.11 with radiotap header)", 9999: ""}
# What is no size for --memory, or too small. The last one needs more than 64 bits.
NO_SIZES = """
    M B 64 63M 0.06G 1.5 0 all 67108863 64MM .5G 1.G 1.2.3G +1G 1.+5G 1e3M 1.0000000G
    18014398509481984K
""".split()
SIZES = """
    64M 64m 64MB 64mb 64.0M 65536K 65536kb 1G 0.5G 0.0625g 1T 67108864 67108864B none
""".split()
NO_PARTS = ("0/3", "4/3", "1", "/", "a/b", "1/0")
# The beginning of a block of pcapng.
BLOCK = b"\x0a\x0d\x0d\x0a\x1c\0\0\0"
# Options of other programs, and what to write instead.
OTHERS_OPTIONS = {
    "-r": "name the capture without -r: tlslog FILE",
    "-i": "to read an interface, use tcpdump",
    "-w": "to write a file, redirect the output: tlslog FILE > LOG",
}
# Compressed files: what unpacks them, and their first bytes.
COMPRESSED = {
    "gzip": ("zcat", b"\x1f\x8b\x08"),
    "xz": ("xzcat", b"\xfd7zXZ\0"),
    "zstd": ("zstdcat", b"\x28\xb5\x2f\xfd"),
}
# Misspelt and unknown fields.
FIELDS = [
    ([], "ja5", "a connection has no field ja5: did you mean ja3?"),
    ([], "ts,servername", "a connection has no field servername: did you mean server_name?"),
    (
        [],
        "temperature",
        "a connection has no field temperature: docs/TLSLOG.md and the manual page have all",
    ),
    (
        ["--messages"],
        "contenttype",
        "a message has no field contenttype: did you mean content_type?",
    ),
    (
        ["--certificates"],
        "fingerprints",
        "a certificate has no field fingerprints: did you mean fingerprint?",
    ),
]


def formats(program: Program, _: object) -> None:
    """Each other format, on all stored captures, with certificates and hostile names."""
    folders = [*(folder for folder, _ in STORED), CERTIFICATES]
    files = [file for folder in folders for file in sorted(folder.glob("*.pcap"))]
    try:
        values = other_formats.zeek(program.run, files)
        events = other_formats.suricata(program.run, files)
        rows = text_format.check(program.run, files)
        documents = ecs_format.check(program.run, files)
        for name in ("text", "ecs"):
            text_format.refused(program.run, name, files)
        names = other_formats.hostile(program.run, TLS[0] / "openssl_rsa.pcap", program.room)
    except (other_formats.zeek_log.Wrong, KeyError) as wrong:
        stop("formats:", wrong)
    printed = f"{values} values of Zeek's, {events} events of Suricata's, {rows} rows of text"
    print(f"tlslog: {printed}: as the lines have them")
    print(f"tlslog: {documents} documents of ECS and {names} hostile names: as the lines have them")


def options(program: Program, _: object) -> None:
    """Each option, on all stored captures."""
    files, lines = [], []
    for folder, file in STORED:
        wanted = parsed(file.read_text())
        captures = sorted(folder.glob("*.pcap"))
        files += captures
        for capture in captures:
            lines += Stored(capture, wanted).lines
    try:
        log_forms.check(program.file, program.run, files, lines, program.room)
    except log_forms.Wrong as wrong:
        stop(wrong)


def counts(program: Program, captures: list[Stored]) -> None:
    """What standard error reports: of each capture, of some and all packets damaged, and of links
    that aren't read."""

    def compare(what: str, report: str, wanted: str) -> None:
        if report != wanted:
            stop(f"{what}: standard error has {report}, wanted is {wanted}")

    for capture in captures:
        file, lines, count = program.room / "found.pcap", capture.lines, len(capture.segments)
        file.write_bytes(capture.bytes)
        compare(capture.name, program.run([file])[2], report_of(file, lines, count))

        damaged = [with_wrong_checksum(s) for s in capture.segments]
        both = zip(((s.time, s.frame()) for s in capture.segments), damaged)
        some = [packet for pair in both for packet in pair if packet]
        bad = [packet for packet in damaged if packet]
        left_out = counted(len(bad), "packets", "with a wrong checksum")
        report = program.run(given=packets.pcap(some))[2]
        wanted = report_of("standard input", lines, count + len(bad), left_out)
        compare(f"{capture.name}, with damaged packets", report, wanted)
        report = program.run(["--checksums", "check"], packets.pcap(bad))[2]
        wanted = report_of("standard input", [], len(bad), left_out)
        compare(f"{capture.name}, all packets damaged", report, wanted)

        frames = [(s.time, s.frame()) for s in capture.segments]
        for link, name in LINKS.items():
            why = f"of link type {link}{name}, which is not supported"
            left_out = counted(count, "packets", why)
            report = program.run(given=packets.pcap(frames, link=link))[2]
            wanted = report_of("standard input", [], count, left_out)
            compare(f"{capture.name}, on the link {link}", report, wanted)
    empty = [(s.time, replace(s, payload=b"").frame()) for s in captures[0].segments]
    left_out = "1 connection that is neither TLS nor DTLS"
    wanted = report_of("standard input", [], len(empty), left_out)
    compare("a connection without data", program.run(given=packets.pcap(empty))[2], wanted)
    print(f"tlslog: {len(captures)} captures, also damaged and on other links: their reports")


def extension_at(hello: bytes, kind: int) -> int | None:
    """Where the content of an extension begins in a record with a ClientHello (RFC 8446, section
    4.1.2), which a ChangeCipherSpec may come before."""
    at = 6 if hello[:1] == b"\x14" else 0
    if hello[at : at + 1] != b"\x16" or hello[at + 5 : at + 6] != b"\x01":
        return None
    at += 5 + 4 + 2 + 32
    at += 1 + hello[at]
    at += 2 + int.from_bytes(hello[at : at + 2], "big")
    at += 1 + hello[at] + 2
    while at < len(hello):
        if int.from_bytes(hello[at : at + 2], "big") == kind:
            return at + 4
        at += 4 + int.from_bytes(hello[at + 2 : at + 4], "big")
    return None


def encrypted_hellos(program: Program, _: object) -> None:
    """The fields of encrypted_client_hello (RFC 9849, sections 5 and 6.1.5), which takes the place of
    signature_algorithms in the hellos of a handshake with a retry."""
    segments = packets.read((TLS[0] / "openssl_tls13_retry.pcap").read_bytes())
    # The type outer; HKDF-SHA384, AES-256-GCM, a configuration, no key; the length of the payload.
    outer, inner = bytes.fromhex("00 0002 0002 9b 0000"), bytes.fromhex("01 0002 0002 9b 0000")
    facts = {"ech_config_id": 155, "ech_kdf": "0x0002", "ech_aead": "0x0002"}
    for fronts, wanted in (
        ([None, None], {}),
        ([outer, None], {"ech_repeated": False}),
        ([None, outer], {"ech": True} | facts),
        ([outer, outer], {"ech": True, "ech_repeated": True} | facts),
        ([outer, inner], {"ech": True, "ech_repeated": True}),
    ):
        left, frames = list(fronts), []
        for s in segments:
            at = extension_at(s.payload, 13)
            if at is not None and (front := left.pop(0)):
                length = int.from_bytes(s.payload[at - 2 : at], "big")
                content = front + (length - len(front) - 2).to_bytes(2, "big")
                there = b"\xfe\x0d" + s.payload[at - 2 : at] + content
                behind = s.payload[at + len(content) :]
                s = replace(s, payload=s.payload[: at - 4] + there + behind)
            frames.append((s.time, s.frame()))
        [line] = parsed(program.run(given=packets.pcap(frames))[1])
        names = ("ech", "ech_config_id", "ech_kdf", "ech_aead", "ech_repeated")
        had = {name: line[name] for name in names if name in line}
        if left or had != wanted:
            stop(f"encrypted hellos: {had}, wanted is {wanted}")
    print("tlslog: hellos with encrypted_client_hello: as RFC 9849 has it")


def with_wrong_checksum(s: packets.Segment) -> tuple[int, bytes] | None:
    """The packet with another last byte of its payload, if it has one."""
    frame = s.frame()
    return (s.time, frame[:-1] + bytes([frame[-1] ^ 0xFF])) if s.payload else None


class Case(NamedTuple):
    """Arguments and standard input, with the status and a part of standard error."""

    what: str
    arguments: list[object]
    status: int
    message: str
    given: bytes = b""


def cases(some: bytes, file: Path) -> Iterator[Case]:
    """Wrong arguments and inputs, by a capture that is stored in the file."""
    none, folder = file.with_name("none"), file.parent
    no_capture = "not a capture: "
    yield Case("no such option", ["--no-such-option"], 2, "--no-such-option")
    yield Case("no such file", [none], 3, f"{none}: cannot open: no such file")
    yield Case("a folder", [folder], 3, f"{folder}: cannot read: is a directory")
    yield Case("a file, and no such file", [file, none], 3, f"{none}: cannot open: no such file")
    unread = f"{none}: cannot read: no such file"
    yield Case("no such list of suites", ["--ciphers", none, file], 3, unread)
    kind = f"standard input: {no_capture}neither pcap nor pcapng, begins with 3e203136"
    yield Case("no capture", [], 1, kind, b"> 16030100310100002d")
    yield Case("few bytes of no capture", [], 1, "begins with 3e20\n", b"> ")
    yield Case("nothing", [], 1, f"{no_capture}it is empty")
    for front in (some[:1], some[:23], BLOCK):
        short = f"{no_capture}its header is truncated"
        yield Case(f"{len(front)} bytes of a capture", [], 1, short, front)
    version = some[:4] + b"\3" + some[5:]
    yield Case(
        "another version of pcap", [], 1, "unsupported pcap version: only 2 is read", version
    )
    broken = "standard input: the capture is truncated, after "
    yield Case("half a capture", [], 1, broken, some[: len(some) // 2])
    for arguments, fields, message in FIELDS:
        yield Case(f"fields {fields}", [*arguments, "--fields", fields], 2, message)
    for option, tip in OTHERS_OPTIONS.items():
        yield Case(f"the option {option}", [option, file], 2, f"tip: {tip}")
    suricata = ["--format", "suricata"]
    message = "--fields can't be combined with --format suricata"
    yield Case("fields for Suricata", [*suricata, "--fields", "ts"], 2, message)
    message = "prints connections: it can't be combined with --messages or --certificates"
    yield Case("messages for Suricata", [*suricata, "--messages"], 2, message)
    for text in NO_PARTS:
        yield Case(f"part {text}", ["--part", text, file], 2, f"--part {text}: expected K/N")
    for text in ["", *NO_SIZES]:
        message = f"--memory {text}: expected at least 64M"
        yield Case(f"memory {text}", ["--memory", text, file], 2, message)
    for text in SIZES:
        yield Case(f"memory {text}", ["--memory", text, file], 0, "")
    message = "--messages and --certificates can't be combined"
    yield Case("messages and certificates", ["--messages", "--certificates"], 2, message)
    yield Case("help", ["--help"], 0, "")
    for name, (by, start) in COMPRESSED.items():
        packed = file.with_name(name)
        packed.write_bytes(start + bytes(100))
        yield Case(f"{name} file", [packed], 1, f"compressed: use {by} FILE | tlslog")


def statuses(program: Program, captures: list[Stored]) -> None:
    """Outputs that are full or closed, and wrong arguments and inputs: status and message."""
    some = captures[0].bytes
    file = program.room / "some"
    file.write_bytes(some)
    csv, zeek = ["--format", "csv"], ["--format", "zeek"]
    cannot = "standard output: cannot write: "
    with open("/dev/full", "wb") as full:
        to_full = [
            Case("full output", [], 3, f"{cannot}no space left on the device", some),
            Case("full output for a header", csv, 3, cannot, some),
            Case("full output for a log of Zeek's", zeek, 3, cannot, some),
        ]
        results = [(one, program.run(one.arguments, some, stdout=full)) for one in to_full]
        one = Case("full standard error", [], 3, "", some)
        results.append((one, program.run([], some, stderr=full)))
    results += [(case, program.run(case.arguments, case.given)) for case in cases(some, file)]
    for case, (status, text, report) in results:
        if status != case.status or case.message not in report:
            stop(f"{case.what}: the status is {status}: {report}{text}")
    [text] = [text for case, (_, text, _) in results if case.what == "a file, and no such file"]
    if parsed(text) != captures[0].lines:
        stop("the file in front of one that doesn't exist has other lines")
    none = program.room / "none"
    silent = [
        ("closed output", program.run(given=some, stdout=closed()), ""),
        ("closed output for a header", program.run(csv, some, stdout=closed()), ""),
        ("closed output for a log of Zeek's", program.run(zeek, some, stdout=closed()), ""),
        ("closed output for files", program.run([file, none], stdout=closed()), ""),
        ("the version", program.run(["--version"]), f"tlslog {(TOP / 'VERSION').read_text()}"),
    ]
    for what, found, printed in silent:
        if found != (0, printed, ""):
            stop(f"{what}: {found} where {(0, printed, '')} is wanted")
    status, text, report = program.run(["-", file], some)
    if status or parsed(text) != captures[0].lines * 2 or "left out" in report:
        stop(f"standard input as -, and a file: {status}, {report}{text}")
    count = len(results) + len(silent) + 1
    print(f"tlslog: {count} outputs, arguments and inputs: the documented status and message")


def closed() -> int:
    """The write end of a pipe without a reader."""
    reading, writing = os.pipe()
    os.close(reading)
    return writing
