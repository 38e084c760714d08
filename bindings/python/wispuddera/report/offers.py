"""What a client shouldn't offer: old versions, and only weak suites."""

from __future__ import annotations

import re
from functools import lru_cache
from typing import Optional

from . import suites, text
from .reading import Values

# Signalling values in a list of suites (RFC 5746, section 3.3; RFC 7507).
_SIGNALS = {"0x00ff", "0x5600", "TLS_EMPTY_RENEGOTIATION_INFO_SCSV", "TLS_FALLBACK_SCSV"}
# GREASE (RFC 8701, section 2), and a CipherSpec of SSL 2.0 (RFC 6176), each of which is weak.
_GREASE = re.compile(r"0x([0-9a-f]a)\1")
_OF_SSL2 = re.compile(r"0x[0-9a-f]{6}")


@lru_cache(maxsize=4096)
def _is_old(version: str) -> bool:
    return suites.is_old(version)


def old_of(versions: Values) -> Values:
    """The old versions among those that a client offers."""
    return tuple([one for one in versions if len(one) <= text.LONGEST and _is_old(one)])


@lru_cache(maxsize=4096)
def _name_if_weak(offered: str) -> Optional[str]:
    """The name of a weak suite, `""` for a value that is no suite, and `None` for a suite that
    isn't weak or can't be judged."""
    if offered in _SIGNALS or _GREASE.fullmatch(offered):
        return ""
    name = suites.name_of(offered)
    return name if _OF_SSL2.fullmatch(name) or suites.faults_of(name) else None


def weak_of(offered: Values) -> Values:
    """The names of the offered suites if all are weak; empty if one isn't, or can't be judged."""
    names = []
    # Most lists begin with a suite that isn't weak.
    for one in offered:
        name = _name_if_weak(one) if len(one) <= text.LONGEST else None
        if name is None:
            return ()
        if name:
            names.append(name)
    return tuple(names)
