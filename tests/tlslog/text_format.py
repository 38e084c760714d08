"""Compares `--format text` with the lines (docs/TLSLOG.md, "Text")."""

from __future__ import annotations

import ipaddress
import json
from datetime import datetime, timezone
from pathlib import Path

from tests.tlslog import zeek_log
from tests.support.shapes import Ask, Line

# The widths of the columns, and which end of a value is left where it is cut.
COLUMNS = {
    "time (UTC)": (14, "front"),
    "client": (15, "back"),
    "server": (21, "back"),
    "host": (18, "back"),
    "version": (7, "front"),
    "suite": (18, "back"),
    "alpn": (6, "front"),
    "ja4": (36, "front"),
    "secs": (6, "front"),
    "outcome": (10, "front"),
}
WIDEST = 160


def want(is_so: object, *words: object) -> None:
    if not is_so:
        raise zeek_log.Wrong(" ".join(map(str, words)))


def micro(seconds: float) -> int:
    return round(seconds * 1_000_000)


def server(line: Line) -> str:
    host, port = line["id.resp_h"], line["id.resp_p"]
    return f"[{host}]:{port}" if ipaddress.ip_address(host).version == 6 else f"{host}:{port}"


def seconds(line: Line) -> str:
    whole, part = divmod(micro(line["duration"]) // 1000, 1000)
    return (
        f"{whole}.{part:03}"
        if whole < 100
        else f"{whole}.{part // 10:02}"
        if whole < 1000
        else str(whole)
    )


def values(line: Line) -> dict[str, str]:
    """The text of each column for a connection, unabridged."""
    begin = datetime.fromtimestamp(micro(line["ts"]) // 1_000_000, timezone.utc)
    return {
        "time (UTC)": f"{begin:%m-%d %H:%M:%S}",
        "client": line["id.orig_h"],
        "server": server(line),
        "host": line.get("server_name", "-"),
        "version": line.get("version", "-"),
        "suite": line.get("cipher", "-").removeprefix("TLS_"),
        "alpn": line.get("next_protocol", "-"),
        "ja4": line.get("ja4", "-"),
        "secs": seconds(line),
        "outcome": line["outcome"],
    }


def cut(value: str, width: int, left: str) -> str:
    if len(value) <= width:
        return value
    return value[: width - 2] + ".." if left == "front" else ".." + value[2 - width :]


def row(texts: dict[str, str]) -> str:
    return " ".join(
        cut(texts[name], width, left).ljust(width) for name, (width, left) in COLUMNS.items()
    ).rstrip()


def check(ask: Ask, files: list[Path]) -> int:
    """The header and each line are those that the lines of JSON want, in printable ASCII and no
    wider than a window of 160 columns."""
    status, text, told = ask([*files])
    lines = [json.loads(line) for line in text.splitlines()]
    status, text, told = ask(["--format", "text", *files])
    want(status == 0 and text.endswith("\n"), "text: status", status, told)
    header, *rows = text.split("\n")[:-1]
    want(header == row({name: name for name in COLUMNS}), "text: the header is", header)
    want(
        len(rows) == len(lines) and lines, "text:", len(rows), "rows of", len(lines), "connections"
    )
    for shown, line in zip(rows, lines):
        want(shown == row(values(line)), "text:", shown, "wanted is", row(values(line)))
        want(
            shown.isascii() and shown.isprintable() and len(shown) <= WIDEST,
            "text: a terminal can't show",
            repr(shown),
        )
    return len(rows)


def refused(ask: Ask, name: str, files: list[Path]) -> None:
    """A format with fixed fields can't be combined with these options."""
    for words, told in [
        (["--fields", "ts"], f"--fields can't be combined with --format {name}"),
        (["--messages"], "it can't be combined with --messages"),
        (["--certificates"], "it can't be combined with --messages or --certificates"),
    ]:
        status, text, error = ask(["--format", name, *words, *files])
        want((status, text) == (2, "") and told in error, name, *words, status, error)
