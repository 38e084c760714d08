"""Names of cipher suites, and which suites are weak, judged by name."""

from __future__ import annotations

import re
from collections.abc import Iterable
from typing import NamedTuple, Optional

from .._suites import NAMES

_BY_NUMBER = {f"0x{number:04x}": name for number, name in NAMES.items()}
_BY_NAME = {name: number for number, name in _BY_NUMBER.items()}


def name_of(suite: str) -> str:
    """The name of a suite given by number, as `--numbers` prints it. Other text is returned
    unchanged."""
    return _BY_NUMBER.get(suite, suite)


def number_of_suite(suite: str) -> Optional[str]:
    """The number of a suite by its name, as `0x1301`; `None` if the registry doesn't have the name."""
    return _BY_NAME.get(suite)


class Fault(NamedTuple):
    """Why suites whose names match the pattern are weak, and the RFC that says so. `contains` shows
    the pattern to readers."""

    pattern: str
    contains: str
    reason: str
    is_forbidden: bool  # MUST NOT; else SHOULD NOT
    reference: str


# The key exchange is the first word after TLS_. Nothing else precedes _WITH_.
_STATIC = r"^TLS_(RSA|RSA_PSK|DH_DSS|DH_RSA|ECDH_ECDSA|ECDH_RSA|PSK|KRB5)(_EXPORT(1024)?)?_WITH_"
FAULTS = (
    Fault(
        r"_NULL(_|$)|^TLS_SHA\d+_SHA\d+$",
        "NULL; TLS_SHA256_SHA256, TLS_SHA384_SHA384",
        "no encryption",
        True,
        "RFC 9325, 4.1",
    ),
    Fault(r"_anon_", "anon", "no authentication", True, "RFC 5246, A.5"),
    Fault(r"_EXPORT(1024)?_", "EXPORT", "export key length", True, "RFC 9325, 4.1"),
    Fault(r"_RC4_", "RC4", "RC4", True, "RFC 7465"),
    Fault(r"_DES(40)?_", "DES, DES40", "DES", True, "RFC 9325, 4.1"),
    Fault(r"_3DES_", "3DES", "3DES", False, "RFC 9325, 4.1"),
    Fault(r"_IDEA_", "IDEA", "IDEA", False, "RFC 5469"),
    Fault(r"_MD5$", "MD5 at the end", "MD5", False, "RFC 6151"),
    Fault(r"_CBC_SHA$", "CBC_SHA at the end", "CBC with SHA-1", False, "RFC 7457, 2.4"),
    Fault(
        _STATIC,
        "RSA, RSA_PSK, DH_DSS, DH_RSA, ECDH_ECDSA, ECDH_RSA, PSK or KRB5 before WITH",
        "no forward secrecy",
        False,
        "RFC 9325, 4.1",
    ),
)


def is_judged(name: str) -> bool:
    """Whether the suite can be judged: the rule needs a name in the registry's form."""
    return name.startswith("TLS_")


def faults_of(name: str) -> tuple[Fault, ...]:
    """Why the suite of this name is weak, in the order of the rule; empty for a name in another
    form."""
    return (
        tuple(fault for fault in FAULTS if re.search(fault.pattern, name))
        if is_judged(name)
        else ()
    )


def faults_in(names: tuple[str, ...]) -> tuple[Fault, ...]:
    """Why any of these suites is weak, in the order of the rule."""
    found = {fault for name in names for fault in faults_of(name)}
    return tuple(fault for fault in FAULTS if fault in found)


_VERSIONS = {
    "TLSv13": "TLS 1.3",
    "TLSv12": "TLS 1.2",
    "TLSv11": "TLS 1.1",
    "TLSv10": "TLS 1.0",
    "SSLv3": "SSL 3.0",
}
_VERSIONS.update({"DTLSv13": "DTLS 1.3", "DTLSv12": "DTLS 1.2", "DTLSv10": "DTLS 1.0"})
_OLD = {"SSLv3", "TLSv10", "TLSv11", "DTLSv10"}
_TLS12 = 0x0303


def name_of_version(version: str) -> str:
    """The version in words. A number without a name is returned unchanged."""
    return _VERSIONS.get(version, version)


def in_order(versions: Iterable[str]) -> list[str]:
    """The versions in words: TLS, then DTLS, each newest first, then numbers without a name."""
    found = set(versions)
    return [name for version, name in _VERSIONS.items() if version in found] + sorted(
        found - set(_VERSIONS)
    )


def number_of(version: str) -> Optional[int]:
    return int(version, 16) if re.fullmatch(r"0x[0-9a-f]{4}", version) else None


def is_old(version: str) -> bool:
    """Whether the version is below TLS 1.2 or DTLS 1.2 (RFC 8996), by name or by number. (Drafts of
    TLS 1.3 have higher numbers.)"""
    number = number_of(version)
    return version in _OLD or (number is not None and number < _TLS12)
