"""The tables of what was negotiated, what failed, and which hosts, programs and addresses there
are."""

from __future__ import annotations

from collections.abc import Callable, Sequence
from typing import Any, NamedTuple, Optional

from . import commands as jq
from . import suites, text
from .commands import Commands
from .counting import Address, Counts, Failure, Host, Program, Way
from .reading import Server
from .tables import (
    ROWS,
    Cell,
    Column,
    aside,
    behind,
    breakable,
    counted,
    how_many,
    number,
    share,
    some,
    table,
    words,
)
from .tallies import Entry, Tally

CONNECTIONS = Column("Connections", True, "descending")
BEHIND = Column("uid")
_SHARE = Column("Share", True)
_BROKEN_OFF = Column("Broken off", True)
NONE = "absent"

OUTCOMES = {
    "full": "full handshake",
    "resumed": "session resumed",
    "tls13": "TLS 1.3, up to the ServerHello",
    "broken_off": "broken off by an alert",
    "waiting": "incomplete",
    "unknown": "unknown message",
    "no_handshake": "not a handshake",
}


class Ranking(NamedTuple):
    """A table of the most frequent values: its name, its title, which rows are shown if there are
    more, the noun for a value, and the number of connections that shares refer to."""

    name: str
    title: str
    shown: str
    noun: str
    whole: int
    columns: Sequence[Column]

    def table(self, tally: Tally[Any, Any], row: Callable[[Any, Any], list[Cell]]) -> str:
        caption = (
            self.title if len(tally.entries) <= ROWS else f"{self.title}: the {ROWS} {self.shown}"
        )
        rows = [row(key, entry) for key, entry in tally.ranked()[:ROWS]]
        return table(self.name, caption, self.columns, rows, self._others(tally))

    def _others(self, tally: Tally[Any, Any]) -> list[Cell]:
        """The last row: the connections of all values without a row."""
        shown = tally.ranked()[:ROWS]
        rest = tally.total - sum(entry.count for _, entry in shown)
        if not rest:
            return []
        others = f"{'more than ' if tally.missed else ''}{text.counted(len(tally.entries) - len(shown), 'other ' + self.noun)}"
        cells = [Cell(aside(others)), number(rest)] + (
            [share(rest, self.whole)] if _SHARE in self.columns else []
        )
        return cells + [Cell("")] * (len(self.columns) - len(cells))

    def counts(self, entry: Entry) -> list[Cell]:
        """The cells with the count of connections and its share."""
        return [counted(entry), share(entry.count, self.whole)]


def of_entry(entry: Any, commands: Commands, *conditions: str) -> Cell:
    """The cell that lists an entry's connections: those that meet all the conditions."""
    return behind(entry.uids, entry.count + entry.missed, commands.of(jq.all_of(*conditions)))


def _of_field(
    name: str,
    title: str,
    column: str,
    tally: Tally[Optional[str], Any],
    cell: Callable[[Optional[str]], Cell],
    list_of: Callable[[Any, Any], Cell],
) -> str:
    """A table of the values of one field."""
    ranking = Ranking(
        name,
        title,
        "most frequent",
        "value",
        tally.total,
        (Column(column), CONNECTIONS, _SHARE, BEHIND),
    )
    return ranking.table(
        tally, lambda key, entry: [cell(key), *ranking.counts(entry), list_of(key, entry)]
    )


def _having(field: str, commands: Commands) -> Callable[[Any, Any], Cell]:
    return lambda key, entry: of_entry(entry, commands, jq.equals(field, key))


def outcomes(counts: Counts, commands: Commands) -> str:
    def cell(value: Optional[str]) -> Cell:
        if value is None:
            return words(None, NONE)
        return (
            Cell(f"<code>{text.escaped(value)}</code> {aside(OUTCOMES[value])}")
            if value in OUTCOMES
            else words(value)
        )

    return _of_field(
        "outcomes",
        "Outcome of the handshake",
        "Outcome",
        counts.outcomes,
        cell,
        _having("outcome", commands),
    )


def versions(counts: Counts, commands: Commands) -> str:
    def cell(value: Optional[str]) -> Cell:
        """A version in words, marked if it is old."""
        if value is None or not value:
            return words(value, NONE)
        name = text.escaped(suites.name_of_version(value))
        return Cell(f'{name} <span class="bad">old</span>' if suites.is_old(value) else name)

    return _of_field(
        "versions",
        "Negotiated version",
        "Version",
        counts.versions,
        cell,
        _having("version", commands),
    )


def faults(found: Sequence[suites.Fault]) -> str:
    return " ".join(
        f'<span class="{"bad" if one.is_forbidden else "poor"}">{text.escaped(one.reason)}</span>'
        for one in found
    )


def suite_table(counts: Counts, commands: Commands) -> str:
    def cell(name: Optional[str]) -> Cell:
        if name is None or not name:
            return words(name, NONE)
        number = suites.number_of_suite(name)
        return Cell(
            f"{breakable(name)}{f' {aside(number)}' if number else ''} {faults(suites.faults_of(name))}".rstrip()
        )

    def list_of(name: Optional[str], entry: Entry) -> Cell:
        return of_entry(
            entry,
            commands,
            jq.is_one_of("cipher", spellings([name]))
            if name is not None
            else jq.equals("cipher", None),
        )

    return _of_field(
        "suites", "Negotiated cipher suite", "Suite", counts.suites, cell, list_of
    )


def spellings(names: Sequence[str]) -> list[str]:
    """Each suite by name and by number, since a log may have either."""
    return [
        one for name in names for one in (name, suites.number_of_suite(name)) if one is not None
    ]


def groups(counts: Counts, commands: Commands) -> str:
    return _of_field(
        "groups",
        "Key exchange group",
        "Group",
        counts.groups,
        lambda value: words(value, NONE),
        _having("curve", commands),
    )


def failures(counts: Counts, commands: Commands) -> str:
    columns = (
        Column("Last alert"),
        CONNECTIONS,
        _SHARE,
        Column("Outcome"),
        Column("Ended by"),
        Column("Sender"),
        Column("Host or server"),
        BEHIND,
    )
    ranking = Ranking(
        "failures",
        "Failed handshakes by reason",
        "most frequent",
        "reason",
        counts.failures.total,
        columns,
    )

    def row(key: Way, entry: Failure) -> list[Cell]:
        outcome, alert, message, sender = key
        fields = (
            ("outcome", outcome),
            ("last_alert", alert),
            ("stop.message", message),
            ("stop.sender", sender),
        )
        listed = of_entry(entry, commands, *(jq.equals(name, value) for name, value in fields))
        where = some(sorted(entry.servers))
        return [
            words(alert, "none"),
            *ranking.counts(entry),
            words(outcome),
            words(message),
            words(sender),
            where,
            listed,
        ]

    return ranking.table(counts.failures, row)


def hosts(counts: Counts, commands: Commands) -> str:
    columns = (
        Column("Host (server_name)"),
        CONNECTIONS,
        _SHARE,
        _BROKEN_OFF,
        Column("Clients", True),
        Column("Servers", True),
        Column("Versions"),
        BEHIND,
    )
    ranking = Ranking("hosts", "Hosts", "most requested", "host", counts.connections, columns)

    def row(key: str, entry: Host) -> list[Cell]:
        broken_off = number(entry.broken_off, entry.missed)
        versions = some(suites.in_order(entry.versions), 4)
        return [
            words(key),
            *ranking.counts(entry),
            broken_off,
            *map(how_many, entry.others),
            versions,
            of_entry(entry, commands, jq.equals("server_name", key)),
        ]

    return ranking.table(counts.hosts, row)


def programs(counts: Counts, commands: Commands) -> str:
    columns = (
        Column("Client program (JA4)"),
        CONNECTIONS,
        _SHARE,
        _BROKEN_OFF,
        Column("Addresses", True),
        Column("Requested hosts"),
        BEHIND,
    )
    ranking = Ranking(
        "programs",
        "Client programs",
        "most frequent",
        "client program",
        counts.connections,
        columns,
    )

    def row(key: str, entry: Program) -> list[Cell]:
        # A JA4 is shorter, but a log may have any text.
        code = (
            f'<code class="whole">{text.escaped(key)}</code>'
            if len(key) <= 40
            else f"<code>{breakable(key)}</code>"
        )
        name = Cell(code) if key else words(key)
        broken_off = number(entry.broken_off, entry.missed)
        listed = of_entry(entry, commands, jq.equals("ja4", key))
        return [
            name,
            *ranking.counts(entry),
            broken_off,
            *map(how_many, entry.others),
            some(sorted(entry.hosts)),
            listed,
        ]

    return ranking.table(counts.programs, row)


def _addresses(
    name: str,
    title: str,
    noun: str,
    others: str,
    counts: Counts,
    tally: Tally[Any, Address],
    list_of: Callable[[Any, Address], Cell],
) -> str:
    columns = (
        Column(noun.capitalize()),
        CONNECTIONS,
        _SHARE,
        _BROKEN_OFF,
        Column(others, True),
        Column("Versions"),
        Column("Requested hosts"),
        BEHIND,
    )
    ranking = Ranking(name, title, "with the most connections", noun, counts.connections, columns)

    def row(key: object, entry: Address) -> list[Cell]:
        broken_off = number(entry.broken_off, entry.missed)
        lists = [some(suites.in_order(entry.versions), 4), some(sorted(entry.hosts), 2)]
        return [
            words(str(key)),
            *ranking.counts(entry),
            broken_off,
            *map(how_many, entry.others),
            *lists,
            list_of(key, entry),
        ]

    return ranking.table(tally, row)


def clients(counts: Counts, commands: Commands) -> str:
    def list_of(key: str, entry: Address) -> Cell:
        return of_entry(entry, commands, jq.equals("id.orig_h", key))

    return _addresses(
        "clients", "Clients by address", "client", "Servers", counts, counts.clients, list_of
    )


def servers(counts: Counts, commands: Commands) -> str:
    def list_of(key: Server, entry: Address) -> Cell:
        return of_entry(entry, commands, jq.of_server(key))

    return _addresses(
        "servers",
        "Servers by address and port",
        "server",
        "Clients",
        counts,
        counts.servers,
        list_of,
    )
