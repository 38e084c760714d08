"""The `jq` commands that list the connections of a row."""

from __future__ import annotations

import json
import re
import shlex
from collections.abc import Iterable, Sequence
from typing import Optional

from . import text
from .reading import Certificate, Server

# A name that needs no quotes after a dot in jq.
_PLAIN = re.compile(r"[A-Za-z_]\w*(\.[A-Za-z_]\w*)*", re.ASCII)
# Fields of a line whose names have a dot. In other names a dot leads to a nested field.
_DOTTED = re.compile(r"id\.(orig|resp)_[hp]")


def value_of(value: object) -> str:
    """A value as a jq literal, without apostrophes, so that the shell needs no escapes."""
    return json.dumps(value).replace("'", "\\u0027")


def field(name: str) -> str:
    return (
        f".{name}"
        if _PLAIN.fullmatch(name) and not _DOTTED.fullmatch(name)
        else f".[{value_of(name)}]"
    )


def equals(name: str, value: Optional[object]) -> str:
    """The condition that a field has the value. If the value was cut, its front is compared."""
    if isinstance(value, str) and len(value) == text.LONGEST and value.endswith("…"):
        return f'({field(name)} // "" | startswith({value_of(value[:-1])}))'
    return f"{field(name)} == {value_of(value)}"


def is_one_of(name: str, values: Sequence[str]) -> str:
    if len(values) == 1:
        return equals(name, values[0])
    return f"({field(name)} | IN({', '.join(map(value_of, values))}))"


def has_one_of(name: str, values: Iterable[str]) -> str:
    """The condition that a list, given as a jq expression, has one of the values."""
    return f"({name} | any(IN({', '.join(map(value_of, values))})))"


def all_of(*conditions: str) -> str:
    return " and ".join(filter(None, conditions))


def any_of(*conditions: str) -> str:
    found = list(filter(None, conditions))
    return f"({' or '.join(found)})" if len(found) > 1 else "".join(found)


def of_server(server: Optional[Server]) -> str:
    if server is None:
        return equals("id.resp_h", None)
    port = equals("id.resp_p", server.port) if server.port is not None else ""
    return all_of(equals("id.resp_h", server.address), port)


def of_certificate(certificate: Certificate) -> str:
    if certificate.fingerprint is not None:
        return f".cert_chain_fps[0] == {value_of(certificate.fingerprint)}"
    return all_of(
        equals("not_after", certificate.end),
        equals("subject", certificate.subject),
        equals("issuer", certificate.issuer),
    )


def _word(name: str) -> str:
    """The name of a log, quoted for the shell; `LOG` for standard input."""
    if name == "-":
        return "LOG"
    return shlex.quote(f"./{name}" if name.startswith("-") else name)


class Commands:
    """Makes commands for logs of these names. They print the `uid` of each connection, or whole
    lines if the logs have no `uid`."""

    def __init__(self, names: Sequence[str], has_uid: bool) -> None:
        self._files = " ".join(map(_word, names))
        self._has_uid = has_uid

    def of(self, condition: str) -> str:
        if self._has_uid:
            return f"jq -r 'select({condition}) | .uid' {self._files}"
        return f"jq -c 'select({condition})' {self._files}"
