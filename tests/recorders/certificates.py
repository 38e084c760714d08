"""Handshakes of TLS 1.2 with certificates that have all fields that tlslog prints.

Both peers are OpenSSL's, in this process (Python's `ssl` over buffers); their bytes are put into
segments of TCP. Where the server staples an OCSP response they are openssl's programs. wanted.json
has the expected lines: of connections by tshark's fields and what `openssl x509` and `openssl ocsp`
print of the certificates and the response, of certificates by openssl alone. In `broken`, `expired`,
`unread` and those of `BY_HAND` bytes of certificates were changed after the handshake: what tshark
or openssl can't read then is written here by hand. So is what is noted of extensions (`NOTED`). It
needs `tshark` and `openssl`.
"""

from __future__ import annotations

import hashlib
import json
import ssl
import struct
import subprocess
import tempfile
from collections.abc import Iterable
from pathlib import Path

from tests.oracle import wanted, wanted_certificates
from tests.recorders import stapled
from tests.support import log_columns, packets
from tests.support.shapes import Line

FOLDER = Path(__file__).resolve().parents[2] / "captures/certificates"
CLIENT, SERVER = (bytes([192, 0, 2, 1]), 50000), (bytes([192, 0, 2, 2]), 443)
# The start of each capture, in microseconds since 1970.
BEGIN = 1_795_700_000_000_000
STEP = 1000
EC = ["-newkey", "ec", "-pkeyopt", "ec_paramgen_curve:P-256"]
LEAF = """subjectAltName = DNS:example.test,DNS:*.wild.test,DNS:*.a.b.test,IP:192.0.2.7,IP:2001:db8::7,email:someone@example.test,URI:https://example.test/path
basicConstraints = CA:FALSE
keyUsage = critical, digitalSignature, keyEncipherment
extendedKeyUsage = serverAuth, clientAuth, 1.2.3.4
"""
FACTS = """subjectAltName = DNS:facts.test,otherName:1.3.6.1.4.1.311.20.2.3;UTF8:user@example.test,otherName:1.2.3.4;UTF8:other,dirName:directory
authorityInfoAccess = OCSP;URI:http://ocsp.example.test/,caIssuers;URI:http://example.test/issuer.der,OCSP;DNS:ocsp.test
certificatePolicies = 2.23.140.1.2.1,@policy,2.5.29.32.0
[policy]
policyIdentifier = 1.2.3.4.5
CPS.1 = "http://example.test/cps"
[directory]
C = DE
CN = a directory
"""
# BasicConstraints with cA as 1, a TRUE of BER and not of DER (X.690, sections 8.2.2 and 11.1).
BER_CA = "3003010101"
# A keyUsage that is critical, and so by a TRUE of BER.
CRITICAL, BER_CRITICAL = bytes.fromhex("0603551d0f0101ff"), bytes.fromhex("0603551d0f010101")
ODD_NAMES = "DNS:*.test,DNS:a_b.test,DNS:*.dot.test"
# The content of the names that openssl doesn't print by its bytes (RFC 5280, section 4.2.1.6).
OTHER_NAMES = [
    "otherName:060A2B060104018237140203A0130C11" + b"user@example.test".hex().upper(),
    "otherName:06032A0304A0070C05" + b"other".hex().upper(),
    "directoryName:3023310B30090603550406130244453114301206035504030C0B"
    + b"a directory".hex().upper(),
]


def timestamp(log: str, milliseconds: int, extensions: bytes) -> bytes:
    """Returns a timestamp of version 1 behind its length (RFC 6962, sections 3.2 and 3.3), with what
    looks like a signature by ecdsa_secp256r1_sha256."""
    signature = b"\x30\x44" + 2 * (b"\x02\x20" + 32 * b"\x01")
    one = b"\0" + hashlib.sha256(log.encode()).digest() + struct.pack(">Q", milliseconds)
    return counted(one + counted(extensions) + b"\4\3" + counted(signature))


def counted(content: bytes) -> bytes:
    return struct.pack(">H", len(content)) + content


def timestamp_list() -> bytes:
    """Returns an OCTET STRING with a list of two timestamps."""
    content = counted(
        timestamp("a log", 1_795_600_000_001, b"")
        + timestamp("another log", 1_795_600_123_456, b"\1\2")
    )
    return b"\x04\x81" + bytes([len(content)]) + content


def timestamps() -> str:
    """Returns the extension of a certificate with two timestamps."""
    return f"1.3.6.1.4.1.11129.2.4.2 = DER:{timestamp_list().hex()}\n"


# The subject, key, extensions and issuer of each certificate.
CERTIFICATES = {
    "root": (
        "/C=DE/O=Caf\u00e9, Inc./CN=root",
        ["-newkey", "rsa:2048"],
        "basicConstraints = critical, CA:TRUE\nkeyUsage = critical, keyCertSign, cRLSign\n",
        None,
    ),
    "issuer": (
        "/DC=test/DC=example/CN=issuer+OU=signs",
        EC,
        "basicConstraints = critical, CA:TRUE, pathlen:0\nkeyUsage = keyCertSign\n",
        "root",
    ),
    "leaf": ("/CN=example.test", ["-newkey", "rsa:2048"], LEAF, "issuer"),
    "curve": (
        "/CN=other.test",
        ["-newkey", "ec", "-pkeyopt", "ec_paramgen_curve:P-384"],
        "subjectAltName = DNS:other.test\n",
        "issuer",
    ),
    "facts": ("/CN=facts.test", ["-newkey", "rsa:1024", "-sha1"], FACTS, "root"),
    "timestamps": (
        "/CN=timestamps.test",
        EC,
        f"subjectAltName = DNS:timestamps.test\n{timestamps()}",
        "issuer",
    ),
    "below": ("/CN=below.test", EC, "basicConstraints = CA:TRUE, pathlen:127\n", "issuer"),
    "above": ("/CN=above.test", EC, f"basicConstraints = CA:TRUE, pathlen:{2**64 - 1}\n", "issuer"),
    "ber": (
        "/CN=ber.test",
        EC,
        f"subjectAltName = DNS:ber.test\nbasicConstraints = DER:{BER_CA}\n"
        "keyUsage = critical, digitalSignature\n",
        "issuer",
    ),
    "explicit": (
        "/CN=explicit.test",
        [*EC, "-pkeyopt", "ec_param_enc:explicit"],
        "subjectAltName = DNS:explicit.test\n",
        "issuer",
    ),
    "oakley": (
        "/CN=oakley.test",
        ["-newkey", "ec", "-pkeyopt", "ec_paramgen_curve:Oakley-EC2N-3"],
        "subjectAltName = DNS:oakley.test\n",
        "issuer",
    ),
    "dsa": ("/CN=dsa.test", ["-newkey", "dsa:dsa.params"], "subjectAltName = DNS:dsa.test\n", "issuer"),
    "cut_constraints": (
        "/CN=cut.test",
        EC,
        "subjectAltName = DNS:cut.test\nbasicConstraints = CA:TRUE\nkeyUsage = digitalSignature\n",
        "issuer",
    ),
    "no_uses": (
        "/CN=uses.test",
        EC,
        "keyUsage = digitalSignature\nextendedKeyUsage = DER:3000\n",
        "issuer",
    ),
    "odd_names": ("/CN=odd.test", EC, f"subjectAltName = {ODD_NAMES}\n", "issuer"),
    "person": (
        "/O=Caf\u00e9/CN=a person",
        ["-newkey", "ed25519"],
        "extendedKeyUsage = clientAuth\n",
        "root",
    ),
}
# The server's certificates, the client's, and the requested host.
CASES = {
    "names": (["leaf", "issuer", "root"], [], "example.test"),
    "wildcard": (["leaf", "issuer"], [], "Host.WILD.test"),
    "out_of_order": (["leaf", "root", "issuer"], [], "example.test"),
    "two_labels": (["leaf"], [], "x.a.wild.test"),
    "client": (["curve", "issuer"], ["person"], "other.test"),
    "self_signed": (["root"], [], "root"),
    "broken": (["leaf", "issuer"], [], "example.test"),
    "facts": (["facts", "root"], [], "facts.test"),
    "expired": (["leaf", "issuer"], [], "example.test"),
    "unread": (["leaf", "issuer"], [], "example.test"),
    "timestamps": (["timestamps", "issuer"], [], "timestamps.test"),
    "path_lengths": (["below", "above"], [], "below.test"),
    "ber_true": (["ber", "issuer"], [], "ber.test"),
    "explicit_curves": (["explicit", "oakley", "issuer"], [], "explicit.test"),
    "dsa": (["dsa", "issuer"], [], "dsa.test"),
    "cut_constraints": (["cut_constraints", "issuer"], [], "cut.test"),
    "no_uses": (["no_uses", "issuer"], [], "uses.test"),
    "single_label": (["odd_names"], [], "host.test"),
    "underscore": (["odd_names"], [], "A_B.test"),
    "underscore_for_wildcard": (["odd_names"], [], "a_b.dot.test"),
    "trailing_dot": (["odd_names"], [], "host.dot.test."),
    "subject_tag": (["leaf", "issuer"], [], "example.test"),
    "extension_tag": (["leaf", "issuer"], [], "example.test"),
    "no_extension": (["leaf", "issuer"], [], "example.test"),
    "stapled_good": (["leaf", "issuer"], [], "example.test"),
    "stapled_revoked": (["curve", "issuer"], [], "other.test"),
    "stapled_unknown": (["curve", "issuer"], [], "other.test"),
    "stapled_try_later": (["curve", "issuer"], [], "other.test"),
}
# The cases whose server staples an OCSP response, and its status. That of `good` has timestamps.
STAPLED = {f"stapled_{status}": status for status in stapled.STATUSES}
# The case in which the second certificate's SEQUENCE has the tag of a SET: what it is, by hand (RFC
# 5280, section 4.1: "Tag").
BROKEN, FAULT = "broken", "tag"
# The case that begins when its certificates have expired, and the seconds since `BEGIN`. In it the
# signed part of the first certificate names another algorithm: ecdsa-with-SHA384 (RFC 5758, section
# 3.2).
EXPIRED, LATER = "expired", 11 * 365 * 86400
ALGORITHM, OTHER = bytes.fromhex("06082a8648ce3d040302"), bytes.fromhex("06082a8648ce3d040303")
# The case in which the first certificate begins in month 13 (kind of error "Verify"), and the second
# name in its subjectAltName doesn't fit in the list ("Complete").
UNREAD, SECOND_NAME = "unread", b"\x82\x0b*.wild.test"
# The cases in which the first certificate's subject, or the second extension, has the tag of a SET,
# and that whose third extension begins with a UTF8String instead of an OBJECT IDENTIFIER.
SUBJECT_TAG, EXTENSION_TAG, NO_EXTENSION = "subject_tag", "extension_tag", "no_extension"
KEY_USAGE = bytes.fromhex("0603551d0f")
# The case whose basicConstraints are cut: see `BYTES`.
CUT_CONSTRAINTS = "cut_constraints"
SUBJECT = bytes.fromhex("30173115301306035504030c0c") + b"example.test"
# Bytes of certificates that OpenSSL's server doesn't take as they are in the capture: a
# pathLenConstraint of 127 is -1, one of 2^64 - 1 is 2^64; cA has two bytes, of which one is there;
# the only bit of keyUsage isn't set (RFC 5280, sections 4.2.1.3 and 4.2.1.9; X.690, sections 8.1.3
# and 8.3.3).
BYTES = {
    ("path_lengths", 0): ("0101ff02017f", "0101ff0201ff"),
    ("path_lengths", 1): ("020900ffffffffffffffff", "0209010000000000000000"),
    (CUT_CONSTRAINTS, 0): ("30030101ff", "30030102ff"),
    ("no_uses", 0): ("03020780", "03020700"),
}
# The capture before bytes were changed, and the cases whose fields aren't all read from the other.
INTACT = "intact.pcap"
BY_HAND = (BROKEN, UNREAD, SUBJECT_TAG, EXTENSION_TAG, NO_EXTENSION, CUT_CONSTRAINTS)
UNREAD_FIELDS = {
    "cert_chain_order": None,
    "not_before": None, "validity_days": None, "not_yet_valid": None, "san_dns": ["example.test"],
    "san_ip": None, "cert_error": ["0:verify"],
    "cert_unread_fields": ["notBefore:verify", "subjectAltName@14:complete"],
}
UNREAD_OF_LINE = {
    "certificate.not_valid_before": None, "validity_days": None, "not_yet_valid": None,
    "san.dns": ["example.test"], "san.ip": None, "san.email": None, "san.uri": None,
    "error": "verify", "unread_fields": UNREAD_FIELDS["cert_unread_fields"],
}


# What differs from the intact certificate in those cases: of the connection, of the certificate.
# PLACE is that of the extension that isn't read.
OTHERS = {
    UNREAD: (UNREAD_FIELDS, UNREAD_OF_LINE),
    SUBJECT_TAG: (
        {
            "subject": None, "self_issued": None, "cert_chain_order": None,
            "cert_error": ["0:tag"], "cert_unread_fields": ["subject:tag"],
        },
        {
            "certificate.subject": None, "self_issued": None, "error": "tag",
            "unread_fields": ["subject:tag"],
        },
    ),
    EXTENSION_TAG: (
        {"cert_unread_fields": ["extensions@PLACE:tag"]},
        {
            "basic_constraints.ca": None, "key_usage": None, "ext_key_usage": None,
            "unread_fields": ["extensions@PLACE:tag"],
        },
    ),
    CUT_CONSTRAINTS: (
        {"is_ca": False, "cert_unread_fields": ["basicConstraints:complete"]},
        {"basic_constraints.ca": None, "unread_fields": ["basicConstraints:complete"]},
    ),
    NO_EXTENSION: (
        {"cert_unread_fields": ["extensions@PLACE:tag"]},
        {
            "key_usage": None, "ext_key_usage": None,
            "unread_fields": ["extensions@PLACE:tag"],
        },
    ),
}
# The number of the extension at PLACE, from 0.
PLACES = {"ber_true": 2, EXTENSION_TAG: 1, NO_EXTENSION: 2}
# What is noted of the certificates in their places.
NOTED = {
    "path_lengths": [["pathLenConstraint:verify"], ["pathLenConstraint:too_large"]],
    "ber_true": [["critical@PLACE:verify", "cA:verify"]],
}
# Fields that are empty, which openssl prints nothing for.
BESIDE = {("no_uses", 0): {"key_usage": [], "ext_key_usage": []}}


def run(*words: str) -> None:
    subprocess.run(words, stdout=subprocess.DEVNULL, stderr=subprocess.PIPE, check=True)


def make(work: Path, name: str) -> None:
    """Makes a certificate and its key, as name.pem and name.key."""
    subject, key, extensions, signer = CERTIFICATES[name]
    conf = work / f"{name}.conf"
    conf.write_text(
        f"[req]\ndistinguished_name = dn\nx509_extensions = v3\nstring_mask = utf8only\nutf8 = yes\n[dn]\n[v3]\n{extensions}"
    )
    key = [word.replace("dsa.params", str(work / "dsa.params")) for word in key]
    words = [
        "openssl",
        "req",
        "-x509",
        *key,
        "-nodes",
        "-utf8",
        "-multivalue-rdn",
        "-days",
        "3650",
        "-subj",
        subject,
        "-config",
        str(conf),
    ]
    words += ["-keyout", str(work / f"{name}.key"), "-out", str(work / f"{name}.pem")]
    if signer:
        words += ["-CA", str(work / f"{signer}.pem"), "-CAkey", str(work / f"{signer}.key")]
    run(*words)
    pem = work / f"{name}.pem"
    pem.write_text(ssl.DER_cert_to_PEM_cert(as_sent(ssl.PEM_cert_to_DER_cert(pem.read_text()))))


def make_parameters(work: Path) -> None:
    """Makes the parameters of a DSA key, and of a server's key exchange."""
    generate = ["openssl", "genpkey", "-genparam"]
    bits = ["-pkeyopt", "dsa_paramgen_bits:2048", "-pkeyopt", "dsa_paramgen_q_bits:256"]
    run(*generate, "-algorithm", "DSA", *bits, "-out", str(work / "dsa.params"))
    run(*generate, "-algorithm", "DH", "-pkeyopt", "group:ffdhe2048", "-out", str(work / "dh.params"))


def as_sent(one: bytes) -> bytes:
    """Returns a certificate as it is given to the server, which sends it as it is."""
    return one.replace(CRITICAL, BER_CRITICAL) if b"ber.test" in one else one


def context(work: Path, side: int, chain: list[str], other: bool) -> ssl.SSLContext:
    made = ssl.SSLContext(side)
    made.maximum_version = ssl.TLSVersion.TLSv1_2
    made.check_hostname, made.verify_mode = False, ssl.CERT_NONE
    made.set_ciphers("ALL:@SECLEVEL=0")
    if chain:
        file = work / "chain.pem"
        file.write_text("".join((work / f"{name}.pem").read_text() for name in chain))
        made.load_cert_chain(file, work / f"{chain[0]}.key")
        if chain[0] == "dsa":
            made.load_dh_params(work / "dh.params")
    if other:
        made.verify_mode = ssl.CERT_OPTIONAL
        made.load_verify_locations(work / "root.pem")
    return made


def talk(work: Path, server: list[str], client: list[str], host: str) -> list[tuple[bool, bytes]]:
    """Returns the pieces of a handshake in order, each with whether the client sends it."""
    buffers = [ssl.MemoryBIO() for _ in range(4)]
    of_client = context(work, ssl.PROTOCOL_TLS_CLIENT, client, False).wrap_bio(
        buffers[0], buffers[1], server_hostname=host
    )
    of_server = context(work, ssl.PROTOCOL_TLS_SERVER, server, bool(client)).wrap_bio(
        buffers[2], buffers[3], server_side=True
    )
    pieces, done = [], set()
    for _ in range(20):
        for one, is_client, out, into in (
            (of_client, True, buffers[1], buffers[2]),
            (of_server, False, buffers[3], buffers[0]),
        ):
            try:
                one.do_handshake()
                done.add(is_client)
            except ssl.SSLWantReadError:
                pass
            piece = out.read()
            if piece:
                pieces.append((is_client, piece))
                into.write(piece)
        if len(done) == 2:
            return pieces
    raise ValueError("no handshake")


class Capture:
    """Builds the segments of one connection, with correct sequence numbers."""

    def __init__(self, later: int) -> None:
        self.time = BEGIN + later * 1_000_000
        self.sent, self.segments = {True: 1000, False: 2000}, []

    def add(self, is_client: bool, flags: int, payload: bytes = b"") -> None:
        ends = (CLIENT, SERVER) if is_client else (SERVER, CLIENT)
        ip = struct.pack(
            ">BBHHHBBH4s4s", 0x45, 0, 0, 0, 0x4000, 64, packets.TCP, 0, ends[0][0], ends[1][0]
        )
        acknowledged = 0 if flags == packets.SYN else self.sent[not is_client]
        tcp = struct.pack(
            ">HHIIBBHHH",
            ends[0][1],
            ends[1][1],
            self.sent[is_client],
            acknowledged,
            0x50,
            flags,
            65535,
            0,
            0,
        )
        self.segments.append(packets.Segment(self.time, bytes(12) + b"\x08\x00" + ip, tcp, payload))
        self.sent[is_client] += len(payload) + bool(flags & (packets.SYN | packets.FIN))
        self.time += STEP

    def write(self, file: Path, pieces: Iterable[tuple[bool, bytes]]) -> None:
        ack = 16
        self.add(True, packets.SYN)
        self.add(False, packets.SYN | ack)
        self.add(True, ack)
        for is_client, piece in pieces:
            for at in range(0, len(piece), 1400):
                self.add(is_client, ack | packets.PSH, piece[at : at + 1400])
        for is_client in (True, False):
            self.add(is_client, ack | packets.FIN)
        self.add(True, ack)
        file.write_bytes(packets.pcap([(s.time, s.frame()) for s in self.segments]))


def stapled_response(work: Path, case: str) -> bytes:
    """Returns the response of a case with one; it is made once."""
    file = work / f"{case}.der"
    if not file.exists():
        chain, _, _ = CASES[case]
        response = stapled.response(work, STAPLED[case], *chain[:2])
        is_good = STAPLED[case] == "good"
        file.write_bytes(
            stapled.with_timestamps(response, timestamp_list()) if is_good else response
        )
    return file.read_bytes()


def der(work: Path, name: str) -> bytes:
    return ssl.PEM_cert_to_DER_cert((work / f"{name}.pem").read_text())


def bent(case: str, place: int, one: bytes) -> bytes:
    """Returns a certificate of the server as it is in the capture."""
    if (case, place) == (BROKEN, 1):
        return b"\x31" + one[1:]
    if (case, place) == (EXPIRED, 0):
        return one.replace(ALGORITHM, OTHER, 1)
    if (case, place) == (UNREAD, 0):
        # (the first UTCTime: year, month, day)
        at = one.index(b"\x17\x0d") + 4
        front = one[:at] + b"13" + one[at + 2 :]
        return front.replace(SECOND_NAME, b"\x82\x7f" + SECOND_NAME[2:], 1)
    if (case, place) in BYTES:
        return one.replace(*map(bytes.fromhex, BYTES[case, place]), 1)
    if (case, place) == (SUBJECT_TAG, 0):
        # (a Name of one attribute: the last of its bytes are the host's)
        at = one.index(SUBJECT)
        return one[:at] + b"\x31" + one[at + 1 :]
    if (case, place) == (EXTENSION_TAG, 0):
        at = one.index(extensions(one)[PLACES[case]])
        return one[:at] + b"\x31" + one[at + 1 :]
    if (case, place) == (NO_EXTENSION, 0):
        return one.replace(KEY_USAGE, b"\x0c" + KEY_USAGE[1:], 1)
    return one


def extensions(one: bytes) -> list[bytes]:
    """Returns the extensions of a certificate (RFC 5280, section 4.1)."""
    [(_, content)] = stapled.elements(one)
    [(_, signed), *_] = stapled.elements(content)
    *_, (_, explicit) = stapled.elements(signed)
    [(_, listed)] = stapled.elements(explicit)
    return [stapled.element(*part) for part in stapled.elements(listed)]


def placed(case: str, one: bytes, fields: Line) -> Line:
    """Returns fields with the place of an extension of the intact certificate: the count of bytes
    before it."""
    place = sum(map(len, extensions(one)[: PLACES.get(case, 0)]))
    return {
        field: [text.replace("PLACE", str(place)) for text in value]
        if field in ("unread_fields", "cert_unread_fields")
        else value
        for field, value in fields.items()
    }


def sent(
    case: str, pieces: Iterable[tuple[bool, bytes]], chain: list[bytes]
) -> Iterable[tuple[bool, bytes]]:
    """Yields the pieces with the server's certificates as they are in the capture."""
    for is_client, piece in pieces:
        for place, one in enumerate(chain):
            piece = piece.replace(one, bent(case, place, one))
        yield is_client, piece


def detail(case: str, place: int, one: bytes, at: float) -> Line:
    """Returns the expected line of one certificate of the server that came at this time; `one` is
    as it was sent."""
    there = bent(case, place, one)
    line = {"fingerprint": wanted_certificates.fingerprint(there), "length": len(there)}
    line["fingerprint_sha1"] = hashlib.sha1(there).hexdigest()
    if (case, place) == (BROKEN, 1):
        return line | {"error": FAULT}
    if case in OTHERS and place == 0:
        changed = placed(case, one, OTHERS[case][1])
        return without_none(wanted_certificates.of_line(one, at) | line | changed)
    others = {"san.other": OTHER_NAMES} if (case, place) == ("facts", 0) else {}
    noted = noted_of(case, place, there)
    others |= BESIDE.get((case, place), {}) | ({"unread_fields": noted} if noted else {})
    return wanted_certificates.of_line(there, at) | line | others


def noted_of(case: str, place: int, one: bytes) -> list[str] | None:
    """Returns what is noted of a certificate of the server that openssl can read."""
    of_chain = NOTED.get(case, [])
    if place >= len(of_chain):
        return None
    return placed(case, one, {"unread_fields": of_chain[place]})["unread_fields"]


def without_none(line: Line) -> Line:
    return {field: value for field, value in line.items() if value is not None}


def wanted_of(work: Path, file: Path, case: str) -> dict[str, list[Line]]:
    server, client, host = CASES[case]
    [connection] = wanted.lines(file) if case not in BY_HAND else [wanted_by_hand(work, case)]
    if case in STAPLED:
        connection |= wanted_certificates.of_response(stapled_response(work, case))
        connection = in_order(connection)
    if case in NOTED:
        connection["cert_unread_fields"] = noted_of(case, 0, der(work, server[0]))
        connection = in_order(connection)
    times = time_of_messages(file)
    lines = []
    for is_client, chain in ((False, server), (True, client)):
        for place, name in enumerate(chain):
            at = times[is_client]
            line = {
                "ts": at,
                **{
                    field: connection[field]
                    for field in connection
                    if field == "uid" or field.startswith("id.")
                },
                "proto": "tcp",
            }
            line |= {
                "side": "client" if is_client else "server",
                "place": place,
                **detail("" if is_client else case, place, der(work, name), at),
            }
            line |= {"client_cert" if is_client else "host_cert": True} if place == 0 else {}
            lines.append(line)
    return {"connections": [connection], "certificates": sorted(lines, key=lambda line: line["ts"])}


def wanted_by_hand(work: Path, case: str) -> Line:
    """Returns the line of a connection with a certificate that tshark or openssl can't read: the
    line with the intact certificates, except for the fields that the changed bytes affect."""
    [found] = wanted.lines(work / INTACT)
    chain = [bent(case, place, der(work, name)) for place, name in enumerate(CASES[case][0])]
    found["cert_chain_fps"] = [wanted_certificates.fingerprint(one) for one in chain]
    of_broken = {"cert_error": [f"1:{FAULT}"], "cert_chain_order": None}
    own = der(work, CASES[case][0][0])
    found |= of_broken if case == BROKEN else placed(case, own, OTHERS[case][0])
    return in_order(found)


def in_order(line: Line) -> Line:
    """Returns a line's fields in the order of the log."""
    return without_none({field: line.get(field) for field in log_columns.names()})


def time_of_messages(file: Path) -> dict[bool, float]:
    """Returns when each side's Certificate was complete."""
    words = [
        "tshark",
        "-r",
        str(file),
        "-T",
        "fields",
        "-e",
        "frame.time_epoch",
        "-e",
        "tcp.dstport",
        "-Y",
        "tls.handshake.type == 11",
    ]
    text = subprocess.run(
        words, stdout=subprocess.PIPE, stderr=subprocess.DEVNULL, text=True, check=True
    ).stdout
    return {
        port == str(SERVER[1]): round(float(time), 6)
        for time, port in (line.split("\t") for line in text.splitlines())
    }


def names() -> list[str]:
    return list(CASES)


def record(folder: Path, chosen: list[str]) -> bool:
    stored = folder / "wanted.json"
    lines = json.loads(stored.read_text()) if chosen and stored.exists() else {}
    with tempfile.TemporaryDirectory() as room:
        work = Path(room)
        make_parameters(work)
        for name in CERTIFICATES:
            make(work, name)
        for case in chosen or CASES:
            server, client, host = CASES[case]
            if case in STAPLED:
                pieces = stapled.talk(work, server, host, stapled_response(work, case))
            else:
                pieces = talk(work, server, client, host)
            later = LATER if case == EXPIRED else 0
            Capture(later).write(work / INTACT, pieces)
            file = folder / f"{case}.pcap"
            chain = [der(work, name) for name in server]
            Capture(later).write(file, sent(case, pieces, chain))
            lines[file.name] = wanted_of(work, file, case)
    text = ",\n".join(f" {json.dumps(name)}: {json.dumps(lines[name])}" for name in sorted(lines))
    stored.write_text(f"{{\n{text}\n}}\n")
    return True
