"""Compares `--format ecs` with the lines (docs/TLSLOG.md, "Elastic Common Schema")."""

from __future__ import annotations

import ipaddress
import json
import re
from collections.abc import Iterator
from datetime import datetime, timezone
from pathlib import Path
from typing import Any

from tests.support.shapes import Ask, Line
from tests.tlslog.text_format import micro, want

PAGE = Path(__file__).resolve().parents[2] / "docs/TLSLOG.md"
VERSION = re.compile(r"(D?TLS|SSL)v(\d)(\d?)")
SUCCESS = {"full": "success", "resumed": "success", "tls13": "success", "broken_off": "failure"}


def stamp(time: int) -> str:
    """A time in microseconds, by RFC 3339."""
    return f"{datetime.fromtimestamp(time // 1_000_000, timezone.utc):%Y-%m-%dT%H:%M:%S}.{time % 1_000_000:06}Z"


def date(seconds: float) -> str:
    return f"{datetime.fromtimestamp(seconds, timezone.utc):%Y-%m-%dT%H:%M:%SZ}"


def version(name: str | None) -> tuple[str | None, str | None]:
    """The protocol, and the version in it."""
    found = VERSION.fullmatch(name or "")
    return (found[1].lower(), f"{found[2]}.{found[3] or 0}") if found else (None, name)


def own_certificates(lines: list[Line]) -> dict[tuple[str, str], Line]:
    """The line of each side's own certificate, by the connection and the side."""
    return {(line["uid"], line["side"]): line for line in lines if line["place"] == 0}


def certificate(line: Line | None) -> Line:
    """Returns the expected event of a certificate, from its line."""
    if line is None:
        return {}
    of = lambda name: line.get(f"certificate.{name}")  # noqa: E731
    names = [name for kind in ("dns", "ip", "email", "uri") for name in line.get(f"san.{kind}", [])]
    exponent, serial = of("exponent"), of("serial")
    subject, issuer = of("subject"), of("issuer")
    before, after = (
        date(time) if (time := of(f"not_valid_{when}")) is not None else None
        for when in ("before", "after")
    )
    return {
        "subject": subject,
        "issuer": issuer,
        "not_before": before,
        "not_after": after,
        "hash": {
            "sha1": line["fingerprint_sha1"].upper(),
            "sha256": line["fingerprint"].upper(),
        },
        "x509": {
            "version_number": of("version"),
            "serial_number": serial and serial.upper(),
            "not_before": before,
            "not_after": after,
            "alternative_names": names or None,
            "public_key_algorithm": of("key_alg"),
            "public_key_size": of("key_length"),
            "public_key_exponent": int(exponent) if exponent and exponent.isdigit() else None,
            "public_key_curve": of("curve"),
            "signature_algorithm": of("sig_alg"),
            "subject": {"distinguished_name": subject},
            "issuer": {"distinguished_name": issuer},
        },
    }


def without_none(value: Any) -> Any:
    """An object without what is missing, and without objects in which all is."""
    if not isinstance(value, dict):
        return value
    kept = {name: without_none(one) for name, one in value.items()}
    return {name: one for name, one in kept.items() if one is not None and one != {}}


def event_of(line: Line, certificates: dict[tuple[str, str], Line]) -> Line:
    """Returns the expected event of a connection."""
    begin, duration = micro(line["ts"]), micro(line["duration"])
    protocol, number = version(line.get("version"))
    client, server = (
        certificate(certificates.get((line["uid"], side))) for side in ("client", "server")
    )
    ends = {
        name: {
            "ip": line[f"id.{side}_h"],
            "port": line[f"id.{side}_p"],
            "bytes": line[f"{side}_bytes"],
            "packets": line[f"{side}_pkts"],
        }
        for name, side in (("source", "orig"), ("destination", "resp"))
    }
    return without_none(
        {
            "@timestamp": stamp(begin),
            "ecs": {"version": "8.11.0"},
            "event": {
                "kind": "event",
                "category": ["network"],
                "type": ["connection", "protocol"],
                "dataset": "tlslog.connection",
                "id": line["uid"],
                "outcome": SUCCESS.get(line["outcome"], "unknown"),
                "start": stamp(begin),
                "end": stamp(begin + duration),
                "duration": duration * 1000,
            },
            **ends,
            "network": {
                "transport": line["proto"],
                "type": f"ipv{ipaddress.ip_address(line['id.orig_h']).version}",
                "protocol": "tls" if line["proto"] == "tcp" else "dtls",
                "community_id": line["community_id"],
                **{
                    what: ends["source"][what] + ends["destination"][what]
                    for what in ("bytes", "packets")
                },
            },
            "tls": {
                "version": number,
                "version_protocol": protocol,
                "cipher": line.get("cipher"),
                "curve": line.get("curve"),
                "established": line["established"],
                "resumed": line["resumed"],
                "next_protocol": line.get("next_protocol"),
                "client": {
                    "server_name": line.get("server_name"),
                    "ja3": line.get("ja3"),
                    "supported_ciphers": line.get("client_ciphers"),
                    **client,
                },
                "server": {"ja3s": line.get("ja3s"), **server},
            },
            "tlslog": {
                "ja4": line.get("ja4"),
                "outcome": line["outcome"],
                "last_alert": line.get("last_alert"),
                "gap": line.get("gap"),
            },
        }
    )


def names_in(value: Line, front: str = "") -> Iterator[str]:
    """The names of an event, with dots between the names of its objects."""
    for name, one in value.items():
        if isinstance(one, dict):
            yield from names_in(one, f"{front}{name}.")
        else:
            yield front + name


def told_names() -> set[str]:
    """The names in the table of the page, where SIDE is each of both sides."""
    table = PAGE.read_text().split("### Elastic Common Schema")[1].split("\n\n#")[0]
    names = [
        name
        for line in table.splitlines()
        if line.startswith("| `")
        for name in re.findall("`([^`]+)`", line.split("|")[1])
    ]
    return {name.replace("SIDE", side) for name in names for side in ("client", "server")}


def unique(pairs: list[tuple[str, Any]]) -> Line:
    want(len(dict(pairs)) == len(pairs), "ecs: a name comes twice:", pairs)
    return dict(pairs)


def check_one(ask: Ask, file: Path, told: set[str]) -> int:
    """Compares each event of a capture with the lines of the connection and of its certificates, in
    that order. Each of its names is on the page."""
    lines = [json.loads(line) for line in ask([file])[1].splitlines()]
    certificates = own_certificates(
        [json.loads(line) for line in ask(["--certificates", file])[1].splitlines()]
    )
    status, text, error = ask(["--format", "ecs", file])
    events = [json.loads(line, object_pairs_hook=unique) for line in text.splitlines()]
    want(
        status == 0 and len(events) == len(lines),
        "ecs:",
        status,
        error,
        len(events),
        "events of",
        len(lines),
        "connections",
    )
    for event, line in zip(events, lines):
        wanted = event_of(line, certificates)
        want(event == wanted, "ecs:", event, "wanted is", wanted)
        names = list(names_in(event))
        want(names == list(names_in(wanted)), "ecs: the order of names is", names)
        want(set(names) <= told, "ecs: docs/TLSLOG.md doesn't have", set(names) - told)
    return len(events)


def check(ask: Ask, files: list[Path]) -> int:
    """So for each capture: connections of several may have one identifier."""
    told = told_names()
    count = sum(check_one(ask, file, told) for file in files)
    want(count, "ecs: there are no events")
    return count
