"""The fields of hellos and certificates that are wanted of a connection, from tshark's fields of a
packet."""

from __future__ import annotations

import datetime
import functools
import hashlib
import subprocess

from tests.oracle import wanted_certificates
from tests.support import log_columns, suite_names
from tests.support.shapes import Line, Row

FIELDS = """
    handshake.session_id handshake.comp_method handshake.extension.len
    handshake.extensions_supported_group handshake.extensions_ec_point_format handshake.sig_hash_alg
    handshake.certificate handshake.ja3 handshake.ja3_full handshake.ja3s handshake.ja3s_full
    handshake.p handshake.session_ticket_lifetime_hint
""".split()
# Fields that tshark has under the names of TLS alone, also of DTLS.
SHARED = [
    "tls.extension.psk_ke_mode", "tls.sct.sct_length", "tls.sct.sct_logid",
    "tls.sct.sct_timestamp",
]
# They follow the other fields in a line.
ORDER = log_columns.names()[log_columns.names().index("client_version") :]
TICKET, CERTIFICATE, CERTIFICATE_REQUEST, STATUS = "4", "11", "13", "22"
# signed_certificate_timestamp (RFC 6962, section 3.3.1)
TIMESTAMPS = 18
LETTERS = {
    0x304: "13", 0x303: "12", 0x302: "11", 0x301: "10", 0x300: "s3", 2: "s2", 0xFEFF: "d1",
    0xFEFD: "d2", 0xFEFC: "d3",
}


def names_of(*fields: str) -> list[dict[int, str]]:
    """tshark's names of the numbers of fields."""
    text = subprocess.run(
        ["tshark", "-G", "values"], stdout=subprocess.PIPE, stderr=subprocess.DEVNULL, text=True,
        check=True,
    ).stdout
    known = {field: {} for field in fields}
    for row in (line.split("\t") for line in text.splitlines()):
        if row[0] == "V" and row[1] in known and " " not in row[3]:
            known[row[1]][int(row[2], 0)] = row[3]
    return [known[field] for field in fields]


# Those of the registries that tshark 4.0 has otherwise, or not.
LATER_EXTENSIONS = {
    26: "tls_lts", 29: "pwd_protect", 30: "pwd_clear", 31: "password_salt", 32: "ticket_pinning",
    33: "tls_cert_with_extern_psk", 34: "delegated_credential", 36: "TLMSP", 37: "TLMSP_proxying",
    38: "TLMSP_delegate", 39: "supported_ekt_ciphers", 60: "sequence_number_encryption_algorithms",
    61: "rrc", 62: "tls_flags", 0xFD00: "ech_outer_extensions", 0xFE0D: "encrypted_client_hello",
    0x44CD: "application_settings", 0xCA34: "trust_anchors",
}
# RFC 8446, 4.2.3, without the mark that they are reserved; pairs of RFC 5246, 7.4.1.4.1, that it
# leaves out, in the same form; draft-ietf-tls-mldsa.
LATER_SCHEMES = {
    0x0202: "dsa_sha1", 0x0402: "dsa_sha256", 0x0502: "dsa_sha384", 0x0602: "dsa_sha512",
    0x0101: "rsa_pkcs1_md5", 0x0301: "rsa_pkcs1_sha224", 0x0302: "dsa_sha224",
    0x0303: "ecdsa_sha224", 0x0904: "mldsa44", 0x0905: "mldsa65", 0x0906: "mldsa87",
}
LATER_GROUPS = {
    31: "brainpoolP256r1tls13", 32: "brainpoolP384r1tls13", 33: "brainpoolP512r1tls13",
    34: "GC256A", 35: "GC256B", 36: "GC256C", 37: "GC256D", 38: "GC512A", 39: "GC512B",
    40: "GC512C", 512: "MLKEM512", 513: "MLKEM768", 514: "MLKEM1024", 4587: "SecP256r1MLKEM768",
    4588: "X25519MLKEM768", 4589: "SecP384r1MLKEM1024", 4590: "curveSM2MLKEM768",
    0x6399: "X25519Kyber768Draft00", 0x639A: "SecP256r1Kyber768Draft00",
    0xFF01: "arbitrary_explicit_prime_curves", 0xFF02: "arbitrary_explicit_char2_curves",
}


@functools.lru_cache(maxsize=None)
def registries() -> tuple[dict[int, str], dict[int, str], dict[int, str]]:
    """The names of extensions, signature schemes and groups. Schemes for private use have none in
    the registry."""
    extensions, schemes, groups = names_of(
        "tls.handshake.extension.type",
        "tls.handshake.sig_hash_alg",
        "tls.handshake.extensions_supported_group",
    )
    schemes = {number: name for number, name in schemes.items() if number < 0xFE00}
    groups = {number: name for number, name in groups.items() if number < 0x200}
    return extensions | LATER_EXTENSIONS, schemes | LATER_SCHEMES, groups | LATER_GROUPS


def group_name(number: int) -> str:
    return registries()[2].get(number, f"0x{number:04x}")


def numbers(row: Row, field: str) -> list[int]:
    return [int(value, 0) for value in row[field]]


def named(names: dict[int, str], numbers: list[int]) -> list[str]:
    return [names.get(number, f"0x{number:04x}") for number in numbers]


def is_grease(number: int) -> bool:
    return number >> 8 == number & 0xFF and number & 0xF == 0xA


def short(text: str) -> str:
    return hashlib.sha256(text.encode()).hexdigest()[:12] if text else "0" * 12


def ja4(
    layer: str, version: int, ciphers: list[int], types: list[int], versions: list[int],
    schemes: list[int], protocols: list[str],
) -> str:
    """JA4 of a ClientHello (github.com/FoxIO-LLC/ja4, technical_details/JA4.md)."""
    ciphers, types, schemes = (
        [n for n in ns if not is_grease(n)] for ns in (ciphers, types, schemes)
    )
    versions = [n for n in versions if not is_grease(n)] or [version]
    best = max(versions)
    first = (protocols or [""])[0]
    ends = (first[0] + first[-1]) if first else "00"
    if not all(c.isascii() and c.isalnum() for c in ends):
        ends = f"{ord(ends[0]):02x}"[0] + f"{ord(ends[1]):02x}"[1]
    front = f"{'d' if layer == 'udp' else 't'}{LETTERS.get(best, '00')}{'d' if 0 in types else 'i'}"
    front += f"{min(len(ciphers), 99):02}{min(len(types), 99):02}{ends}"
    others = ",".join(f"{n:04x}" for n in sorted(types) if n not in (0, 16))
    third = others + ("_" + ",".join(f"{n:04x}" for n in schemes) if schemes else "")
    return "_".join([front, short(",".join(f"{n:04x}" for n in sorted(ciphers))), short(third)])


def plain(value: str) -> str:
    return value.replace(":", "")


def first(row: Row, field: str) -> str | None:
    return row[field][0] if row[field] else None


def of_client(row: Row, layer: str, versions_by: dict[int, str]) -> Line:
    """The fields of a ClientHello."""
    extensions, schemes_by, groups = registries()
    types = numbers(row, "handshake.extension.type")
    lengths = dict(zip(types, numbers(row, "handshake.extension.len")))
    version = numbers(row, "handshake.version")[0]
    versions = numbers(row, "handshake.extensions.supported_version")
    ciphers, schemes = numbers(row, "handshake.ciphersuite"), numbers(row, "handshake.sig_hash_alg")
    protocols = row["handshake.extensions_alpn_str"]
    return {
        "client_version": named(versions_by, [version])[0],
        "client_supported_versions": named(versions_by, versions),
        "client_session_id": plain(first(row, "handshake.session_id") or ""),
        "client_ciphers": named(suite_names.NAMES, ciphers),
        "client_comp_methods": numbers(row, "handshake.comp_method"),
        "ssl_client_exts": named(extensions, types),
        "client_curves": named(groups, numbers(row, "handshake.extensions_supported_group")),
        "point_formats": numbers(row, "handshake.extensions_ec_point_format"),
        "sigalgs": named(schemes_by, schemes),
        "orig_alpn": protocols,
        "client_key_share_groups": named(
            groups, numbers(row, "handshake.extensions_key_share_group")
        ),
        "psk_key_exchange_modes": numbers(row, "tls.extension.psk_ke_mode"),
        "offers_psk": 41 in types,
        "offers_early_data": 42 in types,
        "offers_ticket": lengths.get(35, 0) > 0,
        "cookie": 44 in types,
        "ech": 0xFE0D in types,
        "delegated_credential": 34 in types,
        "ja3": first(row, "handshake.ja3"),
        "ja3_string": first(row, "handshake.ja3_full"),
        "ja4": ja4(layer, version, ciphers, types, versions, schemes, protocols),
    }


def milliseconds(text: str) -> int:
    """A time, as `Nov 18, 2026 11:06:40.001000000 UTC`, in milliseconds since 1970."""
    moment = datetime.datetime.strptime(text.removesuffix("000 UTC"), "%b %d, %Y %H:%M:%S.%f")
    since = moment - datetime.datetime(1970, 1, 1)
    return since // datetime.timedelta(milliseconds=1)


def timestamps(row: Row) -> Line:
    """The signed certificate timestamps in a ServerHello. tshark's fields also have those in
    certificates of the same packet."""
    if TIMESTAMPS not in numbers(row, "handshake.extension.type"):
        return {}
    return {
        "scts": len(row["tls.sct.sct_length"]),
        "sct_logs": [plain(log) for log in row["tls.sct.sct_logid"]],
        "sct_times": [milliseconds(time) for time in row["tls.sct.sct_timestamp"]],
    }


def of_server(row: Row, versions_by: dict[int, str]) -> Line:
    """The fields of a ServerHello."""
    extensions, _, groups = registries()
    share = numbers(row, "handshake.extensions_key_share_group")
    return {
        "server_version": named(versions_by, numbers(row, "handshake.version"))[0],
        "server_session_id": plain(first(row, "handshake.session_id") or ""),
        "comp_method": next(iter(numbers(row, "handshake.comp_method")), None),
        "ssl_server_exts": named(extensions, numbers(row, "handshake.extension.type")),
        "server_key_share_group": named(groups, share)[0] if share else None,
        **timestamps(row),
        "ja3s": first(row, "handshake.ja3s"),
        "ja3s_string": first(row, "handshake.ja3s_full"),
    }


def chain_of(row: Row) -> list[bytes] | None:
    """The certificates of a Certificate, in DER; None where there is no such message."""
    if CERTIFICATE not in row["handshake.type"]:
        return None
    return [bytes.fromhex(plain(value)) for value in row["handshake.certificate"]]


def of_messages(row: Row, side: bool) -> Line:
    """The fields of other messages in the clear; `side` is whether the client sent them."""
    types, said = row["handshake.type"], {}
    chain = chain_of(row)
    if chain is not None:
        front, whole = (
            ("client_cert_", "client_cert_chain_fps") if side else ("cert_", "cert_chain_fps")
        )
        said[front + "count"] = len(chain)
        said[front + "lengths"] = [len(one) for one in chain]
        said[whole] = [hashlib.sha256(one).hexdigest() for one in chain]
        said[front + "chain_order"] = wanted_certificates.is_chain_in_order(chain)
    marks = {
        CERTIFICATE_REQUEST: "client_cert_requested",
        STATUS: "ocsp_stapled",
        TICKET: "ticket_issued",
    }
    for kind, field in marks.items():
        if kind in types:
            said[field] = True
    lifetime, prime = first(row, "handshake.session_ticket_lifetime_hint"), first(row, "handshake.p")
    if lifetime is not None:
        said["ticket_lifetime_hint"] = int(lifetime)
    if prime is not None:
        said["dh_param_size"] = int(plain(prime), 16).bit_length()
    return said
