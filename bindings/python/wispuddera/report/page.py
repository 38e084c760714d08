"""The page: one HTML file with style, charts and script inline, which loads nothing."""

from __future__ import annotations

import base64
import hashlib
from collections.abc import Iterator, Sequence
from importlib import resources
from typing import Any, BinaryIO

from . import distinct, drawing, sections, text, weak
from .commands import Commands
from .counting import Counts
from .drawing import Series
from .reading import Reader
from .tables import ROWS, Column, number, table, words
from .tallies import MOST, Tally

_BY_OUTCOME = (
    Series("Completed", "good"),
    Series("Broken off", "broken"),
    Series("Other", "other"),
)
_BY_VERSION = (
    Series("1.3", "newest"),
    Series("1.2", "newer"),
    Series("Older", "older"),
    Series("None or unknown", "other"),
)


def report(*logs: BinaryIO, names: Sequence[str] = (), capture: str = "") -> str:
    """Returns the page of logs that are open in binary.

    The commands on the page have the logs' `names`. The title has the name `capture`, or else the
    names of the logs. `OtherFormat` is raised if a log isn't JSON lines of connections.
    """
    reader, counts = Reader(*logs), Counts()
    counts.add_all(reader)
    return _Page(reader, counts, names or ["-"] * len(logs), capture).text()


def _hash(source: str) -> str:
    return f"'sha256-{base64.b64encode(hashlib.sha256(source.encode()).digest()).decode()}'"


def _source(name: str) -> str:
    return resources.files(__package__).joinpath(name).read_text(encoding="utf-8")


class _Page:
    """The data that the parts of the page are made from."""

    def __init__(self, reader: Reader, counts: Counts, names: Sequence[str], capture: str) -> None:
        self.reader, self.counts = reader, counts
        self.commands = Commands(names, counts.has_uid)
        self.of = text.cut(
            capture or ", ".join(name.rsplit("/", 1)[-1] for name in names if name != "-")
        )

    def text(self) -> str:
        style, script = _source("page.css"), _source("page.js")
        policy = f"default-src 'none'; style-src {_hash(style)}; script-src {_hash(script)}; base-uri 'none'; form-action 'none'"
        body = "\n".join([*_header(self), "<main>", *_main(self), "</main>"])
        return (
            '<!DOCTYPE html>\n<html lang="en"><head><meta charset="utf-8"/>\n'
            f'<meta http-equiv="Content-Security-Policy" content="{policy}"/>\n'
            '<meta name="viewport" content="width=device-width, initial-scale=1"/><meta name="color-scheme" content="light dark"/>\n'
            f"<title>{text.escaped(self.title())}</title>\n<style>{style}</style></head>\n<body>\n{body}\n<script>{script}</script>\n</body></html>\n"
        )

    def title(self) -> str:
        of = f" of {self.of}" if self.of else ""
        if self.counts.first is None or self.counts.last is None:
            return f"TLS connections{of}"
        first, last = text.day(self.counts.first), text.day(self.counts.last)
        return (
            f"TLS connections{of}, {first}"
            if first == last
            else f"TLS connections{of}, {first} to {last}"
        )


def _header(page: _Page) -> Iterator[str]:
    counts, reader = page.counts, page.reader
    of = (
        f' <span class="of">of <span id="capture">{text.escaped(page.of)}</span></span>'
        if page.of
        else ""
    )
    yield f"<header><h1>TLS connections{of}</h1>"
    if counts.first is not None and counts.last is not None:
        first, last = text.time(counts.first), text.time(counts.last)
        span = text.duration(counts.last - counts.first)
        yield f'<p class="span"><span id="first">{first}</span> to <span id="last">{last}</span> UTC, {span}</p>'
    unread = sum(reader.unread.values())
    if unread:
        skipped = f'<span id="unread">{text.counted(unread, "line")}</span> of {text.number(reader.lines)} skipped'
        yield f'<p class="notice">{skipped}: <a href="#about">why</a>.</p>'
    yield "</header>"


def _figure(name: str, title: str, value: str, more: str) -> str:
    return f'<div><dt>{text.escaped(title)}</dt><dd><span id="{name}">{value}</span><small>{text.escaped(more)}</small></dd></div>'


def _figures(counts: Counts) -> str:
    whole = counts.connections
    rows = [
        _figure(
            "connections", "Connections", text.number(whole), _kinds(counts.hosts, "host").lower()
        )
    ]
    of_all = (
        ("completed", "Handshakes completed", counts.completed),
        ("broken-off", "Broken off", counts.broken_off),
        ("resumed", "Resumed", counts.resumed),
    )
    of_versioned = (
        ("tls13", "TLS or DTLS 1.3", counts.newest),
        ("old", "Old versions", counts.old),
        ("weak", "Weak cipher suites", counts.weak),
    )
    rows += [
        _figure(name, title, text.number(count), text.share(count, whole))
        for name, title, count in of_all
    ]
    for name, title, count in of_versioned:
        rows.append(
            _figure(
                name,
                title,
                text.number(count),
                f"{text.share(count, counts.versioned)} of connections with a ServerHello",
            )
        )
    is_known = counts.certified and counts.last is not None
    value, more = (
        (text.number(len(weak.expiring(counts))), "or already expired")
        if is_known
        else ("–", "not in the log")
    )
    rows.append(_figure("expiring", f"Certificates expiring in {weak.SOON} days", value, more))
    return f'<dl class="figures">{"".join(rows)}</dl>'


def _main(page: _Page) -> Iterator[str]:
    counts, commands = page.counts, page.commands
    yield _figures(counts)
    yield from _over_time(counts)
    for section in (
        _chosen,
        _failures,
        _poor_servers,
        _poor_clients,
        _expiring,
        _unproven,
        _hosts,
        _programs,
        _addresses,
    ):
        yield section(counts, commands)
    yield _about(page.reader, counts)


def _section(name: str, title: str, content: str) -> str:
    return f'<section aria-labelledby="{name}-head"><h2 id="{name}-head">{text.escaped(title)}</h2>{content}</section>'


def _paragraph(content: str) -> str:
    return f"<p>{text.escaped(content)}</p>"


def _over_time(counts: Counts) -> Iterator[str]:
    if counts.first is None:
        yield _section("time", "Over time", _paragraph("No line has a time (ts)."))
        return
    pictures = []
    kinds = (
        ("outcome", counts.by_outcome, _BY_OUTCOME),
        ("version", counts.by_version, _BY_VERSION),
    )
    for name, line, series in kinds:
        title = f"Connections by {name}, {text.duration(line.step)} per bar"
        picture = drawing.timeline(f"by-{name}", title, line, series)
        pictures.append(
            f"<figure><figcaption>{text.escaped(title)}{drawing.legend(series)}</figcaption>{picture}</figure>"
        )
    yield _section("time", "Over time", "".join(pictures))


def _chosen(counts: Counts, commands: Commands) -> str:
    left = sections.outcomes(counts, commands) + sections.groups(counts, commands)
    pair = (
        f'<div class="pair"><div>{left}</div><div>{sections.versions(counts, commands)}</div></div>'
    )
    return _section(
        "chosen", "Outcomes and negotiated parameters", pair + sections.suite_table(counts, commands)
    )


def _failures(counts: Counts, commands: Commands) -> str:
    title = "Failed handshakes"
    if not counts.failures.total:
        return _section("broken", title, _paragraph("No handshake failed."))
    content = (
        f"{text.counted(counts.failures.total, 'handshake')} failed. The last alert gives the reason. The message that ended the handshake is that "
        "alert, or an unexpected message. TLS 1.3 encrypts alerts after the ServerHello, so they don’t appear here."
    )
    return _section("broken", title, _paragraph(content) + sections.failures(counts, commands))


def _kinds(tally: Tally[Any, Any], noun: str) -> str:
    """How many distinct values there are: `12 distinct hosts`, `More than 10,000 distinct hosts`."""
    return f"{'More than ' if tally.missed else ''}{text.counted(len(tally.entries), 'distinct ' + noun)}"


def _hosts(counts: Counts, commands: Commands) -> str:
    if not counts.hosts.total:
        return _section("by-host", "Hosts", _paragraph("No line has a server_name."))
    without = counts.connections - counts.hosts.total
    content = f"{_kinds(counts.hosts, 'host')}. {text.counted(without, 'connection')} without a server_name. Clients and servers are counted by address."
    return _section("by-host", "Hosts", _paragraph(content) + sections.hosts(counts, commands))


def _programs(counts: Counts, commands: Commands) -> str:
    if not counts.programs.total:
        return _section("by-program", "Client programs", _paragraph("No line has a ja4."))
    content = f"{_kinds(counts.programs, 'JA4 fingerprint')}. Programs that use a TLS library with the same settings share a fingerprint."
    return _section(
        "by-program", "Client programs", _paragraph(content) + sections.programs(counts, commands)
    )


def _addresses(counts: Counts, commands: Commands) -> str:
    title = "Clients and servers"
    if not counts.clients.total and not counts.servers.total:
        return _section(
            "by-address", title, _paragraph("No line has an address (id.orig_h, id.resp_h).")
        )
    content = f"{_kinds(counts.clients, 'client')} and {_kinds(counts.servers, 'server').lower()}."
    found = sections.clients(counts, commands) if counts.clients.total else ""
    found += sections.servers(counts, commands) if counts.servers.total else ""
    return _section("by-address", title, _paragraph(content) + found)


def _poor_servers(counts: Counts, commands: Commands) -> str:
    title = "Servers with old versions or weak suites"
    content = (
        f"{text.counted(counts.old, 'connection')} with an old version (below TLS 1.2 or DTLS 1.2, RFC 8996), {text.number(counts.weak)} with a weak "
        "suite. The grade follows the RFCs: a server must not choose it, or should not."
    )
    if counts.unjudged:
        content += f" The suites of {text.counted(counts.unjudged, 'connection')} have no known name and weren’t judged."
    rule = f"<details><summary>Which suites are weak</summary>{weak.rule()}</details>"
    found = weak.poor_servers(counts, commands) if counts.poor.total else ""
    return _section("weak-servers", title, _paragraph(content) + found + rule)


def _poor_clients(counts: Counts, commands: Commands) -> str:
    content = (
        f"{text.counted(counts.old_offers, 'ClientHello')} offered TLS 1.1, DTLS 1.0 or older: in supported_versions, or as the version of a hello "
        f"without that extension. {text.number(counts.weak_offers)} offered only weak suites, by the rules above."
    )
    found = weak.poor_clients(counts, commands) if counts.offers.total else ""
    return _section(
        "weak-clients", "Clients with old versions or weak suites", _paragraph(content) + found
    )


def _expiring(counts: Counts, commands: Commands) -> str:
    title = "Certificates that expire soon"
    if not counts.certified:
        return _section(
            "expiry",
            title,
            _paragraph(
                "No line has a not_after: the log has no fields of certificates, or TLS 1.3 encrypted them all."
            ),
        )
    if counts.last is None:
        return _section(
            "expiry", title, _paragraph("No line has a time (ts) to count days from.")
        )
    found = weak.expiring(counts)
    more = "more than " if counts.certificates.latest is not None else ""
    kept = f"{more}{text.counted(len(counts.certificates.entries), 'certificate')}"
    content = (
        f"{kept} in {text.counted(counts.certified, 'connection')}; {text.number(len(found))} have expired or expire within {weak.SOON} days. Days are "
        f"counted from the last time in the log, {text.time(counts.last)} UTC, not from today: the same log always gives the same page. TLS 1.3 encrypts "
        "certificates, so only those of earlier versions appear here."
    )
    return _section(
        "expiry",
        title,
        _paragraph(content[0].upper() + content[1:])
        + (weak.certificates(counts, commands) if found else ""),
    )


def _unproven(counts: Counts, commands: Commands) -> str:
    content = (
        f"{text.counted(counts.mismatches.total, 'connection')} got a certificate without the requested name (RFC 6125), and "
        f"{text.number(counts.self_signed.total)} one whose subject equals its issuer. Signatures aren’t verified."
    )
    found = weak.mismatches(counts, commands) if counts.mismatches.total else ""
    found += weak.self_signed(counts, commands) if counts.self_signed.total else ""
    return _section(
        "unproven", "Wrong names and self-signed certificates", _paragraph(content) + found
    )


def _about(reader: Reader, counts: Counts) -> str:
    lines, connections = text.counted(reader.lines, "line"), text.counted(
        counts.connections, "connection"
    )
    content = [
        f"{lines} of the log, {connections}. The time of a connection is that of its first packet.",
        f"Tables have at most {ROWS} rows. Click a column’s head to sort by it. The last column has the uids of a row’s first connections and the "
        "command that lists all of them.",
        f"Numbers of clients, servers and addresses are exact up to {text.number(distinct.EXACT)}. Those marked ≈ are HyperLogLog estimates with "
        f"{text.number(distinct.REGISTERS)} registers and a standard error of {100 * distinct.ERROR:.1f}%.",
        f"Invisible characters are escaped. Text is cut at {text.LONGEST} characters ({text.counted(reader.cut, 'value')} cut).",
        *_limits(counts),
    ]
    items = "".join(f"<li>{text.escaped(one)}</li>" for one in content)
    return _section(
        "about", "How this was counted", f'<ul id="about">{items}</ul>{_skipped(reader)}'
    )


def _limits(counts: Counts) -> Iterator[str]:
    """The limits that were reached, and what they mean for the counts."""
    tallies: tuple[tuple[str, Tally[Any, Any]], ...] = (
        ("hosts", counts.hosts),
        ("client programs", counts.programs),
        ("clients", counts.clients),
        ("servers", counts.servers),
        ("servers with old versions or weak suites", counts.poor),
        ("clients with old versions or weak suites", counts.offers),
        ("hosts with wrong names", counts.mismatches),
        ("self-signed certificates", counts.self_signed),
        ("reasons of failed handshakes", counts.failures),
        ("outcomes", counts.outcomes),
        ("versions", counts.versions),
        ("suites", counts.suites),
        ("groups", counts.groups),
    )
    reached = [(name, tally.missed) for name, tally in tallies if tally.missed]
    if counts.certificates.latest is not None:
        yield f"There were more than {text.number(2 * MOST)} certificates; only those that expire first were kept."
    for name, missed in reached:
        yield (
            f"There were more than {text.number(2 * MOST)} distinct {name}, so the rarest were dropped. Counts marked ≥ may be short by up "
            f"to {text.number(missed)}; others are exact. Nothing with more than {text.number(missed)} connections is missing."
        )
    if not reached and counts.certificates.latest is None:
        yield f"No field has more than {text.number(2 * MOST)} distinct values, so all counts of connections are exact."


def _skipped(reader: Reader) -> str:
    parts = []
    if reader.unread:
        columns = (Column("Reason"), Column("Lines", True))
        rows = [
            [words(reason), number(count)]
            for reason, count in sorted(reader.unread.items(), key=lambda item: (-item[1], item[0]))
        ]
        parts.append(table("unread-lines", "Skipped lines by reason", columns, rows))
    if reader.misfits:
        columns = (Column("Field"), Column("Lines", True))
        rows = [[words(field), number(count)] for field, count in sorted(reader.misfits.items())]
        parts.append(
            table(
                "misfits",
                "Skipped values of the wrong type",
                columns,
                rows,
            )
        )
    return "".join(parts)
