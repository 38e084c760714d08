"""Tests of the Python module that the rows don't cover: sizes of structs, buffers that are accepted
and refused, streams in pieces, threads, DTLS, names.

The bytes and their offsets are those of tests/bindings/calls.c.
"""

import ctypes
import hashlib
import ipaddress
import json
import pathlib
import re
import struct
import sys
import threading
from pathlib import Path

sys.path.insert(0, str(Path(__file__).resolve().parents[2]))
from tests.support import script  # noqa: E402

script.answer_help(__doc__)
import wispuddera as w  # noqa: E402
from wispuddera import _library  # noqa: E402

RANDOM = bytes(range(1, 33))
NAME = bytes.fromhex("0000 0008 0006 00 0003") + b"a.b"
PROTOCOLS = bytes.fromhex("0010 0005 0003 02") + b"h2"
VERSIONS = bytes.fromhex("002b 0005 04 0304 0303")
SHARES = bytes.fromhex("0033 0008 0006 001d 0002 b1b2")
BLOCK = NAME + PROTOCOLS + VERSIONS + SHARES
BODY = (
    b"\x03\x03"
    + RANDOM
    + bytes.fromhex("02a1a2 0006 1301 1302 c02f 01 00")
    + len(BLOCK).to_bytes(2, "big")
    + BLOCK
)
MESSAGE = b"\x01" + len(BODY).to_bytes(3, "big") + BODY
RECORD = b"\x16\x03\x01" + len(MESSAGE).to_bytes(2, "big") + MESSAGE


def refusal_of(call, *given):
    try:
        call(*given)
    except (w.Incomplete, w.Refused, w.Outside, TypeError) as e:
        return type(e), getattr(e, "missing", getattr(e, "kind", None))
    return None


def test_sizes():
    sizes = [_library.struct_size(i) for i in range(len(_library.STRUCTS) + 1)]
    assert sizes == [*map(ctypes.sizeof, _library.STRUCTS), 0], sizes
    for i, one in enumerate(_library.STRUCTS):
        fields = [getattr(one, name).offset for name, _ in one._fields_]
        assert [_library.field_offset(i, j) for j in range(len(fields) + 1)] == [
            *fields,
            ctypes.sizeof(one),
        ], one


def test_hello():
    (record,) = w.records(RECORD)
    (message,) = w.messages(record.fragment)
    hello = w.client_hello(message.body)
    assert (hello.version, hello.random, hello.session_id) == (0x0303, RANDOM, b"\xa1\xa2")
    assert hello.cipher_suites == (0x1301, 0x1302, 0xC02F) and hello.compression_methods == (0,)
    assert hello.extensions == BLOCK and hello.next == len(BODY)
    assert [e.kind for e in w.extensions(hello.extensions)] == [0, 16, 43, 51]
    assert (
        w.server_name(BLOCK)
        == w.server_name_of_hello(BODY)
        == w.server_name_of_record(RECORD)
        == b"a.b"
    )
    assert (
        w.server_name(PROTOCOLS) is None
        and list(w.protocols(BLOCK)) == [b"h2"]
        and w.protocols(NAME) is None
    )
    assert (
        w.versions(w.find_extension(BLOCK, 43)) == (0x0304, 0x0303)
        and w.find_extension(BLOCK, 44) is None
    )
    assert w.signature_schemes(bytes.fromhex("0005 0403 0804 08")) == (0x0403, 0x0804)
    assert w.best_version(0x0303, BLOCK) == 0x0304 and w.best_version(0x0302, None) == 0x0302
    assert [(s.group, bytes(s.value)) for s in w.key_shares(w.find_extension(BLOCK, 51))] == [
        (29, b"\xb1\xb2")
    ]
    assert w.key_share(bytes.fromhex("001d 0001 07")).value == b"\x07"
    assert w.find_body(MESSAGE, 1) == BODY and w.find_body(MESSAGE, 2) is None


def test_detection():
    assert (
        w.looks_like_tls(RECORD) is True
        and w.looks_like_tls(RECORD[:5]) is True
        and w.looks_like_tls(RECORD[:4]) is None
    )
    for first, looks in (
        ("1403030001", True), ("1803044100", True), ("1603ff0001", True), ("1803044101", False),
        ("1303030001", False), ("1903030001", False),
    ):
        assert w.looks_like_tls(bytes.fromhex(first)) is looks
    for first in (
        b"GET / HTTP/1.0\r\n\r\n", bytes.fromhex("1602010001"), bytes.fromhex("1604000001"),
        bytes.fromhex("16fefd0000"),
    ):
        assert w.looks_like_tls(first) is False
    assert w.looks_like_tls(b"") is None


def test_refusals():
    assert refusal_of(w.record, RECORD[:60]) == (w.Incomplete, 5 + len(MESSAGE) - 60)
    assert refusal_of(w.record, bytes.fromhex("1603014101")) == (w.Refused, "TooLarge")
    assert refusal_of(w.record, RECORD, len(RECORD) + 1) == (w.Outside, None)
    assert refusal_of(w.record, RECORD, -1) == (w.Outside, None)
    assert refusal_of(w.record, b"") == refusal_of(w.record, bytearray()) == (w.Incomplete, 1)
    assert refusal_of(w.record, memoryview(RECORD)[::2]) == (TypeError, None)
    assert refusal_of(w.groups, bytes.fromhex("0003 001d 00")) == (w.Refused, "LengthValue")


def test_buffers():
    # A writable buffer isn't copied: what is read is seen to change with it.
    held = bytearray(b"\0\0" + RECORD)
    view = w.record(memoryview(held)[2:]).fragment
    held[7] = 99
    assert view[0] == 99
    held = bytearray(RECORD)
    assert w.record(held).fragment.obj is held


def test_streams():
    for size in (1, 7, 1000):
        records, messages, found = w.RecordStream(), w.MessageStream(), []
        stream = RECORD * 3
        for i in range(0, len(stream), size):
            for record in records.feed(stream[i : i + size]):
                found += messages.feed(record.fragment)
        assert [bytes(it.body) for it in found] == [BODY] * 3 and records.held == messages.held == 0
    records = w.RecordStream()
    assert len(records.feed(RECORD + bytes.fromhex("1603014101"))) == 1
    assert refusal_of(records.feed, b"\0") == (w.Refused, "TooLarge")
    assert refusal_of(w.MessageStream(10).feed, MESSAGE) == (w.Refused, "TooLarge")


def test_dtls():
    datagram = bytes.fromhex("16 fefd 0001 000000001234 000e  0b 000009 0005 000003 000002 d1d2")
    (record,) = w.dtls_records(datagram)
    assert (record.content_type, record.version, record.epoch, record.sequence_number) == (
        22, 0xFEFD, 1, 0x1234,
    )
    (message,) = w.dtls_messages(record.fragment)
    assert (
        message.kind, message.length, message.message_seq, message.fragment_offset, message.is_part,
    ) == (11, 9, 5, 3, True)
    assert message.body == b"\xd1\xd2"
    body = b"\xfe\xfd" + RANDOM + bytes.fromhex("00 02e1e2 0004c02f1301 0100 0000")
    hello = w.dtls_client_hello(body)
    assert (hello.version, hello.random, hello.session_id, hello.cookie) == (
        0xFEFD, RANDOM, b"", b"\xe1\xe2",
    )
    assert (hello.cipher_suites, hello.compression_methods, hello.extensions) == (
        (0xC02F, 0x1301),
        (0,),
        b"",
    )
    assert hello.next == len(body) and refusal_of(w.dtls_client_hello, body[:33]) == (
        w.Incomplete,
        1,
    )
    body = b"\xfe\xfd" + RANDOM + bytes.fromhex("02c1c2 c02f 01 0004 00170000")
    hello = w.dtls_server_hello(body)
    assert (hello.version, hello.session_id, hello.cipher_suite, hello.compression_method) == (
        0xFEFD, b"\xc1\xc2", 0xC02F, 1,
    )
    assert hello.extensions == bytes.fromhex("00170000") and refusal_of(w.server_hello, body) == (
        w.Refused,
        "Tag",
    )


CERTIFICATES = pathlib.Path(__file__).resolve().parents[2] / "tests" / "units" / "x509"
KEYS = {
    w.KeyKind.ED25519: "ed25519",
    w.KeyKind.ED448: "ed448",
    w.KeyKind.REFUSED: "ec without a name",
}
NAMES = {
    w.NameKind.DNS: "DNS", w.NameKind.EMAIL: "email", w.NameKind.URI: "URI",
    w.NameKind.IP: "IP Address",
}


def dotted(oid):
    arcs, number = [], 0
    for byte in oid:
        number = number << 7 | byte & 127
        if byte < 128:
            arcs, number = [*arcs, number], 0
    root = min(arcs[0] // 40, 2)
    return ".".join(map(str, [root, arcs[0] - 40 * root, *arcs[1:]]))


def elements(content):
    """The tag, the content and the bytes of each element."""
    while content:
        size, at = content[1], 2
        if size > 127:
            at += size - 128
            size = int.from_bytes(content[2:at], "big")
        yield content[0], content[at : at + size], content[: at + size]
        content = content[at + size :]


def name_text(name):
    """A Name as `tests/units/x509/make` has it of openssl."""
    sets = []
    for _, attributes, _ in elements(next(elements(bytes(name)))[1]):
        pairs = (list(elements(attribute)) for _, attribute, _ in elements(attributes))
        sets.append(
            "+".join(f"{dotted(kind[1])}=#{value[2].hex().upper()}" for kind, value in pairs)
        )
    return ",".join(sets)


def address_text(content):
    address = ipaddress.ip_address(bytes(content))
    return (
        str(address)
        if address.version == 4
        else ":".join(f"{int(it, 16):X}" for it in address.exploded.split(":"))
    )


def alt_name_text(name):
    if name.kind not in NAMES:
        return f"other {name.kind:X}"
    is_address = name.kind == w.NameKind.IP
    text = address_text(name.content) if is_address else bytes(name.content).decode()
    return f"{NAMES[name.kind]}:{text}"


def key_text(certificate):
    kind = certificate.key_kind
    if kind == w.KeyKind.RSA:
        return f"rsa {certificate.key_bits}"
    if kind == w.KeyKind.EC:
        return f"ec {dotted(certificate.key_parameters)}"
    return KEYS.get(kind) or f"other {dotted(certificate.key_algorithm)}"


def lines_of(text, certificate):
    """Yields the fields that the module reads in a certificate, in the form of the stored lines."""
    yield f"version {certificate.version + 1}"
    yield f"serial_number {certificate.serial_number.hex().upper()}"
    yield f"issuer {name_text(certificate.issuer)}"
    yield f"not_before {certificate.not_before}"
    yield f"not_after {certificate.not_after}"
    yield f"subject {name_text(certificate.subject)}"
    yield f"public_key {key_text(certificate)}"
    yield f"signature_algorithm {dotted(certificate.signature_algorithm)}"
    yield f"signature_value {certificate.signature.hex().upper()}"
    yield f"signed {text.index(bytes(certificate.signed_bytes))} {len(certificate.signed_bytes)}"
    for it in w.x509_extensions(certificate.extensions):
        critical = "critical" if it.critical else "-"
        yield f"extension {dotted(it.oid)} {critical} {it.value.hex().upper()}"
    for name in certificate.names() or ():
        yield f"subject_alt_name {alt_name_text(name)}"


def test_certificates():
    """Compares each stored certificate with the fields that openssl printed when it was made."""
    told = re.findall(
        r'name: "(.*)",\n +bytes: "(.*)",\n +wanted: &\[\n((?: +".*",\n)*)',
        (CERTIFICATES / "made.rt.unproved").read_text(),
    )
    fields = {
        line.split()[0]
        for line in lines_of(
            *(lambda t: (t, w.read_x509(t)))(
                bytes.fromhex(next(it[1] for it in told if it[0] == "rsa_1024"))
            )
        )
    }
    assert len(told) == len(list((CERTIFICATES / "stored").glob("*.der"))) > 20
    for name, text, wanted in told:
        text = bytes.fromhex(text)
        wanted = [line for line in re.findall(r'"(.*)",', wanted) if line.split()[0] in fields]
        certificate = w.read_x509(text)
        assert [*lines_of(text, certificate)] == wanted, name
        assert certificate.next == len(text) and w.read_x509(bytearray(text + b"x")).next == len(
            text
        )
        # Cut at each byte it is incomplete: after the first four bytes, which have tag and length,
        # by all that is missing.
        for count in range(len(text)):
            kind, missing = refusal_of(w.read_x509, text[:count])
            assert kind is w.Incomplete and (count < 4 or missing == len(text) - count), (
                name,
                count,
            )
    text = bytearray(told[0][1] and bytes.fromhex(told[0][1]))
    for at, byte, kind in (
        (0, 0x31, "Tag"), (1, 0x80, "Switch"), (1, 0x84, "TooLarge"), (2, 0, "Verify"),
    ):
        assert refusal_of(w.read_x509, text[:at] + bytes([byte]) + text[at + 1 :]) == (
            w.Refused,
            kind,
        )
    assert refusal_of(w.x509_names, b"\x31\x00") == (w.Refused, "Tag")
    assert refusal_of(next, w.x509_names(b"\x30\x01\x1f")) == (w.Refused, "Switch")
    assert refusal_of(next, w.x509_extensions(b"\x30\x02\x06")) == (w.Incomplete, 1)


def test_outcome():
    kind, to_server = w.EventKind, {1: True, 16: True}
    hello = w.event_of_message(2, b"\x03\x03" + RANDOM + bytes.fromhex("00 c02f 00"))
    said = [
        (w.event_of_message(1, BODY), True),
        (hello, False),
        *((w.event_of_message(k, b""), k in to_server) for k in (11, 12, 14, 16)),
    ]
    said += [
        (kind.CHANGE_CIPHER_SPEC, True), (kind.ENCRYPTED, True), (kind.CHANGE_CIPHER_SPEC, False),
        (kind.ENCRYPTED, False),
    ]
    assert (
        w.outcome([]) == w.outcome(said[:7]) == w.Outcome.WAITING
        and w.outcome(iter(said)) == w.Outcome.FULL
    )
    assert w.outcome([*said[:2], (w.event_of_alert(2, 40), True)]) == w.Outcome.BROKEN_OFF
    flow = w.Flow()
    for i, (said_kind, side) in enumerate(said):
        assert flow.outcome == w.outcome(said[:i])
        flow.step(said_kind, side)
    assert flow.outcome == w.Outcome.FULL
    assert w.event_of_dtls_message(3) == kind.HELLO_VERIFY_REQUEST


TOP = pathlib.Path(__file__).resolve().parents[2]


def payloads(capture):
    """The payloads of a stored capture, each with its ends and, over TCP, its sequence number. It
    reads Ethernet, IP and no fragments."""
    data, place = capture.read_bytes(), 24
    order = "<" if data[:4] in (b"\xd4\xc3\xb2\xa1", b"\x4d\x3c\xb2\xa1") else ">"
    while place < len(data):
        length = struct.unpack_from(order + "I", data, place + 8)[0]
        frame = data[place + 16 : place + 16 + length]
        place += 16 + length
        if frame[12:14] == b"\x08\x00":
            header = 14 + frame[14] % 16 * 4
            addresses, protocol, whole = (
                (frame[26:30], frame[30:34]),
                frame[23],
                14 + int.from_bytes(frame[16:18], "big"),
            )
        elif frame[12:14] == b"\x86\xdd":
            header = 54
            addresses, protocol, whole = (
                (frame[22:38], frame[38:54]),
                frame[20],
                54 + int.from_bytes(frame[18:20], "big"),
            )
        else:
            continue
        source, target = (
            (address, frame[header + i : header + i + 2]) for address, i in zip(addresses, (0, 2))
        )
        if protocol == 6:
            payload = frame[header + frame[header + 12] // 16 * 4 : whole]
            sequence = int.from_bytes(frame[header + 4 : header + 8], "big")
            yield "tcp", (source, target), sequence, payload
        elif protocol == 17:
            yield "udp", (source, target), None, frame[header + 8 : whole]


def streams(capture):
    """What each side of the connections of a capture sent over TCP, in the order of its bytes; and
    over UDP its datagrams."""
    segments, datagrams = {}, {}
    for protocol, ends, number, payload in payloads(capture):
        if protocol == "udp":
            datagrams.setdefault(ends, []).append(payload)
        elif payload:
            segments.setdefault(ends, {}).setdefault(number, payload)
    return {
        ends: b"".join(parts[number] for number in sorted(parts))
        for ends, parts in segments.items()
    }, datagrams


def hellos(stream):
    """The bodies of the ClientHellos and ServerHellos that are in the clear."""
    messages = w.MessageStream()
    for record in w.RecordStream().feed(stream):
        if record.content_type == 20:
            break
        if record.content_type == 22:
            for message in messages.feed(record.fragment):
                if message.kind in (1, 2):
                    yield message.kind, bytes(message.body)


def test_fingerprints_of_captures():
    stored = [
        line
        for line in map(json.loads, (TOP / "crates/tlslog/stdout").read_text().splitlines())
        if line["proto"] == "tcp"
    ]
    wanted = {
        (line[name], name) for line in stored for name in ("ja3", "ja3s", "ja4") if name in line
    }
    assert len(wanted) > 20
    found = set()
    for capture in sorted((TOP / "crates/tlslog/data").glob("*.pcap")):
        for stream in streams(capture)[0].values():
            for kind, body in hellos(stream):
                if kind == 1:
                    found |= {(w.ja3(body), "ja3"), (w.ja4(body), "ja4")}
                    assert w.ja4(bytearray(body), "quic") == "q" + w.ja4(body)[1:]
                else:
                    found.add((w.ja3s(body), "ja3s"))
    # Hellos that a HelloRetryRequest answers, and these, have fingerprints too, and no line.
    assert wanted <= found and len(found - wanted) < 12, (wanted - found, found - wanted)
    stored = list(map(json.loads, (TOP / "captures/dtls/lines").read_text().splitlines()))
    wanted = {
        (line[name], name) for line in stored for name in ("ja3", "ja3s", "ja4") if name in line
    }
    assert len(wanted) > 4
    found = set()
    for capture in sorted((TOP / "captures/dtls").glob("*.pcap")):
        for datagrams in streams(capture)[1].values():
            for body, kind in dtls_hellos(datagrams):
                if kind == 1:
                    found |= {(w.ja3(body, dtls=True), "ja3"), (w.ja4(body, "udp"), "ja4")}
                else:
                    found.add((w.ja3s(body, dtls=True), "ja3s"))
    assert wanted <= found, wanted - found


def dtls_hellos(datagrams):
    """The bodies of hellos in datagrams, from the fragments of each."""
    parts = {}
    for datagram in datagrams:
        try:
            for record in w.dtls_records(datagram):
                if record.content_type == 22 and record.epoch == 0:
                    for message in w.dtls_messages(record.fragment):
                        if message.kind in (1, 2):
                            body = parts.setdefault(
                                (message.message_seq, message.kind), bytearray(message.length)
                            )
                            body[
                                message.fragment_offset : message.fragment_offset
                                + len(message.body)
                            ] = message.body
        except w.Incomplete:
            continue
    return [(bytes(body), kind) for (_, kind), body in parts.items()]


def test_fingerprints():
    assert (
        w.ja3(BODY) == "5f671f8e05377b8c8876847f82d52406"
        and w.ja4(BODY) == "t13d0304h2_40b44b994229_a56c5b993250"
    )
    for call in (w.ja3, w.ja4):
        assert refusal_of(call, BODY[:33]) == (w.Incomplete, 1)
        assert refusal_of(call, BODY[:34] + b"\x21" + BODY[35:]) == (w.Refused, "Verify")
    assert (
        refusal_of(w.ja3s, b"\xfe\xfd" + bytes(40)) == (w.Refused, "Tag")
        and len(w.ja3s(b"\xfe\xfd" + bytes(40), dtls=True)) == 32
    )
    try:
        w.ja4(BODY, "sctp")
        raise AssertionError("no error")
    except ValueError:
        pass
    # As many suites as a hello can have, in falling order, and GREASE.
    suites = b"".join(n.to_bytes(2, "big") for n in range(32767, 0, -1))
    body = b"\x03\x03" + RANDOM + b"\0" + len(suites).to_bytes(2, "big") + suites + b"\x01\0"
    kept = [n for n in range(1, 32768) if not (n // 256 == n % 256 and n % 16 == 10)]
    ciphers = hashlib.sha256(",".join(f"{n:04x}" for n in kept).encode()).hexdigest()[:12]
    assert w.ja4(body) == f"t12i990000_{ciphers}_000000000000"
    assert (
        w.ja3(body)
        == hashlib.md5(f"771,{'-'.join(map(str, reversed(kept)))},,,".encode()).hexdigest()
    )


def test_threads():
    wrong = []

    def run(count):
        record = b"\x17\x03\x03" + count.to_bytes(2, "big") + bytes(count)
        for _ in range(2000):
            if len(w.record(record).fragment) != count:
                wrong.append(count)

    threads = [threading.Thread(target=run, args=(count,)) for count in range(8)]
    for thread in threads:
        thread.start()
    for thread in threads:
        thread.join()
    assert not wrong


tests = [test for name, test in sorted(globals().items()) if name.startswith("test_")]
for test in tests:
    test()
print(f"python: {len(tests)} tests passed", file=sys.stdout)
