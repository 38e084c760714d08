"""The tables of old versions, weak suites, and certificates."""

from __future__ import annotations

from collections.abc import Sequence
from typing import Optional

from . import commands as jq
from . import suites, text
from .commands import Commands
from .counting import MUST_NOT, OFFERED, Counts, Issued, Mismatch, Offer, Poor, SelfSigned
from .reading import Certificate, Server
from .sections import BEHIND, CONNECTIONS, NONE, Ranking, faults, of_entry, spellings
from .tables import ROWS, Cell, Column, aside, counted, number, some, table, words

# A certificate expires soon if at most so many days are left.
SOON = 30
_NO_ADDRESS = "no address"
_LAST_SEEN = Column("Last seen (UTC)")
_FINGERPRINT = Column("SHA-256")
# A line may break after this many digits of a fingerprint.
_DIGITS = 16


def _time(seconds: Optional[float]) -> Cell:
    return Cell(text.time(seconds), seconds) if seconds is not None else words(None)


def _suites(names: Sequence[str]) -> Cell:
    if not names:
        return words(None)
    return Cell(f"{some(sorted(names), 2).html} {faults(suites.faults_in(tuple(names)))}".rstrip())


def _fingerprint(of: Certificate) -> Cell:
    if of.fingerprint is None:
        return words(None)
    parts = [of.fingerprint[at : at + _DIGITS] for at in range(0, len(of.fingerprint), _DIGITS)]
    return Cell(f"<code class=\"digits\">{'<wbr/>'.join(map(text.escaped, parts))}</code>")


def poor_servers(counts: Counts, commands: Commands) -> str:
    columns = (
        Column("Server"),
        Column("Connections", True),
        Column("Grade", False, "ascending"),
        Column("Old versions"),
        Column("Weak suites"),
        Column("Hosts"),
        _LAST_SEEN,
        BEHIND,
    )
    title = "Servers that chose an old version or a weak suite"
    ranking = Ranking(
        "poor", title, "with the worst grades", "server", counts.poor.total, columns
    )

    def row(key: Optional[Server], entry: Poor) -> list[Cell]:
        style, grade = ("bad", "must not") if entry.rank == MUST_NOT else ("poor", "should not")
        judged = Cell(f'<span class="{style}">{grade}</span>', entry.rank)
        fields = (("version", entry.versions), ("cipher", spellings(entry.suites)))
        chosen = [jq.is_one_of(name, values) if values else "" for name, values in fields]
        listed = of_entry(entry, commands, jq.of_server(key), jq.any_of(*chosen))
        front = [
            words(key.name if key else None, _NO_ADDRESS),
            counted(entry),
            judged,
            some(suites.in_order(entry.versions)),
        ]
        return [
            *front,
            _suites(entry.suites),
            some(sorted(entry.hosts), 2),
            _time(entry.last),
            listed,
        ]

    return ranking.table(counts.poor, row)


def _of_offer(entry: Offer) -> str:
    """The condition that a client's connection offers an old version or only weak suites."""
    versions = "client_supported_versions // [.client_version]"
    old = jq.has_one_of(f".{versions}", entry.versions) if entry.versions else ""
    weak = (
        f"(.client_ciphers // [0] | all(IN({', '.join(map(jq.value_of, entry.listed))})))"
        if entry.listed
        else ""
    )
    # If the list was cut, only the client's address is compared.
    return jq.any_of(old, weak) if len(entry.listed) <= OFFERED else ""


def poor_clients(counts: Counts, commands: Commands) -> str:
    columns = (
        Column("Client"),
        CONNECTIONS,
        Column("Old versions offered"),
        Column("Only weak suites"),
        Column("Requested hosts"),
        _LAST_SEEN,
        BEHIND,
    )
    title = "Clients that offer TLS 1.1 or older, or only weak suites"
    ranking = Ranking(
        "offers", title, "with the most connections", "client", counts.offers.total, columns
    )

    def row(key: Optional[str], entry: Offer) -> list[Cell]:
        listed = of_entry(entry, commands, jq.equals("id.orig_h", key), _of_offer(entry))
        lists = [
            some(suites.in_order(entry.versions)),
            _suites(tuple(entry.suites)),
            some(sorted(entry.hosts), 2),
            _time(entry.last),
        ]
        return [words(key, _NO_ADDRESS), counted(entry), *lists, listed]

    return ranking.table(counts.offers, row)


def expiring(counts: Counts) -> list[Issued]:
    """The certificates that have expired at the log's last timestamp, and then those that expire
    within `SOON` days of it."""
    if counts.last is None:
        return []
    limit = counts.last + SOON * text.DAY
    return [
        issued
        for _, issued in counts.certificates.ranked()
        if issued.certificate.not_after <= limit
    ]


def _days_left(of: Certificate, now: float) -> list[Cell]:
    """When it expires, and in how many days."""
    left = int((of.not_after - now) // text.DAY)
    days = (
        f'<span class="bad">expired</span> {text.number(left)}'
        if of.not_after < now
        else text.number(left)
    )
    return [Cell(text.time(of.not_after), of.not_after), Cell(days, left)]


def certificates(counts: Counts, commands: Commands) -> str:
    columns = (
        Column("Subject"),
        Column("Connections", True),
        Column("Expires (UTC)", False, "ascending"),
        Column("Days left", True),
        Column("Issuer"),
        Column("Names"),
        Column("Server"),
        _FINGERPRINT,
        BEHIND,
    )
    now, found = counts.last or 0, expiring(counts)

    def row(issued: Issued) -> list[Cell]:
        of = issued.certificate
        front = [
            words(of.subject, NONE),
            number(issued.count),
            *_days_left(of, now),
            words(of.issuer),
            some(of.names, 1, of.name_count),
        ]
        return [
            *front,
            some(sorted(issued.servers), 2),
            _fingerprint(of),
            of_entry(issued, commands, jq.of_certificate(of)),
        ]

    more = len(found) - ROWS
    foot = (
        [Cell(aside(f"{text.number(more)} more, which expire later"))]
        + [Cell("")] * (len(columns) - 1)
        if more > 0
        else []
    )
    return table(
        "certificates",
        f"Certificates that have expired, or expire within {SOON} days",
        columns,
        map(row, found[:ROWS]),
        foot,
    )


def mismatches(counts: Counts, commands: Commands) -> str:
    columns = (
        Column("Host (server_name)"),
        CONNECTIONS,
        Column("Server"),
        Column("Subject"),
        Column("Names in the certificate"),
        BEHIND,
    )
    ranking = Ranking(
        "mismatches",
        "Certificates that lack the host’s name",
        "most frequent",
        "pair",
        counts.mismatches.total,
        columns,
    )

    def row(key: tuple[Optional[str], Optional[Server]], entry: Mismatch) -> list[Cell]:
        host, server = key
        listed = of_entry(
            entry,
            commands,
            jq.equals("sni_matches_cert", False),
            jq.equals("server_name", host),
            jq.of_server(server),
        )
        front = [
            words(host, NONE),
            counted(entry),
            words(server.name if server else None, _NO_ADDRESS),
        ]
        return [*front, some(sorted(entry.subjects), 2), some(sorted(entry.names)), listed]

    return ranking.table(counts.mismatches, row)


def self_signed(counts: Counts, commands: Commands) -> str:
    columns = (
        Column("Subject"),
        CONNECTIONS,
        Column("Expires (UTC)"),
        Column("Days left", True),
        Column("Requested hosts"),
        Column("Server"),
        _FINGERPRINT,
        BEHIND,
    )
    title = "Self-signed certificates (subject equals issuer)"
    ranking = Ranking(
        "self-signed", title, "most frequent", "certificate", counts.self_signed.total, columns
    )

    def row(key: str, entry: SelfSigned) -> list[Cell]:
        of = entry.certificate
        assert of is not None
        left = (
            _days_left(of, counts.last)
            if counts.last is not None
            else [Cell(text.time(of.not_after), of.not_after), words(None)]
        )
        where = [some(sorted(entry.hosts), 2), some(sorted(entry.servers), 2)]
        return [
            words(of.subject, NONE),
            counted(entry),
            *left,
            *where,
            _fingerprint(of),
            of_entry(entry, commands, jq.of_certificate(of)),
        ]

    return ranking.table(counts.self_signed, row)


def rule() -> str:
    """The table of the rules for weak suites."""
    columns = (Column("Name contains"), Column("Fault"), Column("Grade"), Column("Reference"))

    def row(one: suites.Fault) -> list[Cell]:
        grade = words("must not" if one.is_forbidden else "should not")
        return [
            Cell(f"<code>{text.escaped(one.contains)}</code>"),
            Cell(faults([one])),
            grade,
            words(one.reference),
        ]

    return table("rule", "Weak suites by name", columns, map(row, suites.FAULTS))
