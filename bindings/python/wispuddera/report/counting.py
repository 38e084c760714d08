"""Counts the connections of a log, in bounded memory."""

from __future__ import annotations

from collections.abc import Iterable
from functools import lru_cache, partial
from typing import Optional

from . import offers, suites
from .distinct import Distinct, Room
from .reading import Certificate, Connection, Server
from .tallies import UIDS, Entry, Soonest, Tally, Timeline, Values, with_value

# At most so many offered suites of a client are kept; a list of only weak ones is usually shorter.
OFFERED = 64
# At most so many weak suites of a client are kept by name.
WEAK = 256

# The kinds of outcomes (docs/HANDSHAKES.md) in the timeline.
COMPLETED, BROKEN_OFF, OTHER = range(3)
_OUTCOMES = {"full": COMPLETED, "resumed": COMPLETED, "tls13": COMPLETED, "broken_off": BROKEN_OFF}
FAILED = {"broken_off", "unknown", "no_handshake"}
# The kinds of versions in the timeline.
V13, V12, OLD, NO_VERSION = range(4)
_VERSIONS = {"TLSv13": V13, "DTLSv13": V13, "TLSv12": V12, "DTLSv12": V12}


@lru_cache(maxsize=1024)
def kind_of_version(version: Optional[str]) -> int:
    if version is None:
        return NO_VERSION
    return _VERSIONS.get(version, OLD if suites.is_old(version) else NO_VERSION)


@lru_cache(maxsize=1024)
def faults_of(suite: str) -> tuple[suites.Fault, ...]:
    return suites.faults_of(suite)


class Counted(Entry):
    """Counts the connections of a value, and in `others` the distinct values that go with it."""

    __slots__ = ("broken_off", "others")
    # How many counters `others` has.
    kinds = 1

    def __init__(self, room: Room, missed: int) -> None:
        super().__init__(missed)
        self.broken_off = 0
        self.others = tuple(Distinct(room) for _ in range(self.kinds))

    def release(self) -> None:
        for one in self.others:
            one.release()


class Host(Counted):
    """A host; `others` counts its clients and its servers."""

    __slots__ = ("versions",)
    kinds = 2

    def __init__(self, room: Room, missed: int) -> None:
        super().__init__(room, missed)
        self.versions: Values = ()


class Program(Counted):
    """A client program; `others` counts its addresses."""

    __slots__ = ("hosts",)

    def __init__(self, room: Room, missed: int) -> None:
        super().__init__(room, missed)
        self.hosts: Values = ()


class Address(Counted):
    """The address of a client or of a server; `others` counts its servers, or its clients."""

    __slots__ = ("hosts", "versions")

    def __init__(self, room: Room, missed: int) -> None:
        super().__init__(room, missed)
        self.hosts: Values = ()
        self.versions: Values = ()


class Offer(Entry):
    """A client that offered an old version, or only weak suites."""

    __slots__ = ("versions", "suites", "listed", "hosts", "last")

    def __init__(self, missed: int) -> None:
        super().__init__(missed)
        self.versions: Values = ()
        # The names of the weak ones, and everything in these lists.
        self.suites: dict[str, None] = {}
        self.listed: dict[str, None] = {}
        self.hosts: Values = ()
        self.last: Optional[float] = None


class Mismatch(Entry):
    """A host and a server whose certificate lacks the host's name."""

    __slots__ = ("subjects", "names")

    def __init__(self, missed: int) -> None:
        super().__init__(missed)
        self.subjects: Values = ()
        self.names: Values = ()


class Failure(Entry):
    """Handshakes that failed in one way."""

    __slots__ = ("servers",)

    def __init__(self, missed: int) -> None:
        super().__init__(missed)
        self.servers: Values = ()


MUST_NOT, SHOULD_NOT = range(2)


def name_of(server: Optional[Server]) -> Optional[str]:
    return server.name if server is not None else None


class Poor(Entry):
    """A server that chose an old version or a weak suite; `rank` is the worst grade."""

    __slots__ = ("versions", "suites", "hosts", "last", "rank")

    def __init__(self, missed: int) -> None:
        super().__init__(missed)
        self.versions: Values = ()
        self.suites: Values = ()
        self.hosts: Values = ()
        self.last: Optional[float] = None
        self.rank = SHOULD_NOT


class Issued:
    """A certificate, and the connections in which a server sent it."""

    __slots__ = ("certificate", "count", "missed", "servers", "uids")

    def __init__(self, certificate: Certificate) -> None:
        self.certificate, self.count, self.missed = certificate, 0, 0
        self.servers: Values = ()
        self.uids: Values = ()

    def note(self, it: Connection) -> None:
        self.count += 1
        self.servers = with_value(self.servers, name_of(it.server))
        if len(self.uids) < UIDS and it.uid is not None:
            self.uids = (*self.uids, it.uid)


class SelfSigned(Entry):
    """A certificate whose subject is its issuer."""

    __slots__ = ("certificate", "servers", "hosts")

    def __init__(self, missed: int) -> None:
        super().__init__(missed)
        self.certificate: Optional[Certificate] = None
        self.servers: Values = ()
        self.hosts: Values = ()


Way = tuple[Optional[str], Optional[str], Optional[str], Optional[str]]


class Counts:
    """All counts that the page shows."""

    def __init__(self) -> None:
        self.connections = self.completed = self.broken_off = self.resumed = 0
        # The connections with a version, with 1.3, and with an old version.
        self.versioned = self.newest = self.old = 0
        self.first: Optional[float] = None
        self.last: Optional[float] = None
        self.has_uid = False
        self.room = Room()
        self.outcomes: Tally[Optional[str], Entry] = Tally(Entry)
        self.versions: Tally[Optional[str], Entry] = Tally(Entry)
        self.suites: Tally[Optional[str], Entry] = Tally(Entry)
        self.groups: Tally[Optional[str], Entry] = Tally(Entry)
        self.hosts: Tally[str, Host] = Tally(partial(Host, self.room))
        self.programs: Tally[str, Program] = Tally(partial(Program, self.room))
        self.clients: Tally[str, Address] = Tally(partial(Address, self.room))
        self.servers: Tally[Server, Address] = Tally(partial(Address, self.room))
        # By outcome, last alert, the message that ended the handshake, and its sender.
        self.failures: Tally[Way, Failure] = Tally(Failure)
        self.poor: Tally[Optional[Server], Poor] = Tally(Poor)
        self.offers: Tally[Optional[str], Offer] = Tally(Offer)
        self.weak = self.unjudged = self.certified = self.old_offers = self.weak_offers = 0
        # By the host and the server.
        self.mismatches: Tally[tuple[Optional[str], Optional[Server]], Mismatch] = Tally(Mismatch)
        self.self_signed: Tally[str, SelfSigned] = Tally(SelfSigned)
        self.certificates: Soonest[str, Issued] = Soonest()
        self.by_outcome, self.by_version = Timeline(3), Timeline(4)

    def add_all(self, connections: Iterable[Connection]) -> None:
        for it in connections:
            self.add(it)

    def add(self, it: Connection) -> None:
        outcome, version, uid = it.outcome, it.version, it.uid
        self.connections += 1
        kind = _OUTCOMES.get(outcome, OTHER)
        if kind == COMPLETED:
            self.completed += 1
        elif kind == BROKEN_OFF:
            self.broken_off += 1
        if it.is_resumed is True:
            self.resumed += 1
        if uid is not None:
            self.has_uid = True
        self.outcomes.add(outcome, uid)
        self.versions.add(version, uid)
        self.suites.add(it.suite, uid)
        self.groups.add(it.group, uid)
        if it.time is not None:
            self._add_time(it.time, kind, version)
        self._add_ends(it)
        if it.stop is not None or outcome in FAILED:
            self._add_failure(it)
        self._judge(it)
        self._judge_offer(it)
        if it.has_name is False:
            self._add_mismatch(it)
        if it.certificate is not None:
            self._add_certificate(it, it.certificate)

    def _add_time(self, time: float, kind: int, version: Optional[str]) -> None:
        if self.first is None or time < self.first:
            self.first = time
        if self.last is None or time > self.last:
            self.last = time
        self.by_outcome.add(time, kind)
        self.by_version.add(time, kind_of_version(version))

    def _add_ends(self, it: Connection) -> None:
        uid, host, client, version = it.uid, it.host, it.client, it.version
        server = it.server.name if it.server is not None else None
        is_broken = it.outcome == "broken_off"
        if host is not None:
            to_host = self.hosts.add(host, uid)
            clients, servers = to_host.others
            clients.add(client)
            servers.add(server)
            if is_broken:
                to_host.broken_off += 1
            if version not in to_host.versions:
                to_host.versions = with_value(to_host.versions, version)
        if it.ja4 is not None:
            program = self.programs.add(it.ja4, uid)
            program.others[0].add(client)
            if is_broken:
                program.broken_off += 1
            if host not in program.hosts:
                program.hosts = with_value(program.hosts, host)
        ends = ((self.clients, client, server), (self.servers, it.server, client))
        for tally, key, other in ends:
            if key is not None:
                address = tally.add(key, uid)
                address.others[0].add(other)
                if is_broken:
                    address.broken_off += 1
                if host not in address.hosts:
                    address.hosts = with_value(address.hosts, host)
                if version not in address.versions:
                    address.versions = with_value(address.versions, version)

    def _add_failure(self, it: Connection) -> None:
        message, sender = it.stop if it.stop is not None else (None, None)
        failure = self.failures.add((it.outcome, it.alert, message, sender), it.uid)
        failure.servers = with_value(failure.servers, it.host or name_of(it.server))

    def _judge(self, it: Connection) -> None:
        """Counts old versions and weak suites that the server chose."""
        version, suite = it.version, it.suite
        kind = kind_of_version(version)
        is_old = kind == OLD
        if version is not None:
            self.versioned += 1
        if kind == V13:
            self.newest += 1
        elif is_old:
            self.old += 1
        faults: tuple[suites.Fault, ...] = ()
        if suite is not None:
            faults = faults_of(suite)
            if faults:
                self.weak += 1
            elif not suites.is_judged(suite):
                self.unjudged += 1
        if not is_old and not faults:
            return
        poor = self.poor.add(it.server, it.uid)
        if is_old or any(fault.is_forbidden for fault in faults):
            poor.rank = MUST_NOT
        poor.versions = with_value(poor.versions, version if is_old else None)
        poor.suites = with_value(poor.suites, suite if faults else None)
        poor.hosts = with_value(poor.hosts, it.host)
        poor.last = _later(poor.last, it.time)

    def _judge_offer(self, it: Connection) -> None:
        """Counts old versions and lists of only weak suites that the client offers."""
        old, weak = offers.old_of(it.offered_versions), offers.weak_of(it.offered_suites)
        if not old and not weak:
            return
        self.old_offers += bool(old)
        self.weak_offers += bool(weak)
        offer = self.offers.add(it.client, it.uid)
        for version in old:
            offer.versions = with_value(offer.versions, version)
        if weak and len(offer.listed) <= OFFERED:
            # A hello may offer thousands of suites.
            listed = (offer.listed, OFFERED + 1, it.offered_suites)
            for kept, most, offered in ((offer.suites, WEAK, weak), listed):
                for one in offered:
                    if len(kept) >= most:
                        break
                    kept[one] = None
        offer.hosts = with_value(offer.hosts, it.host)
        offer.last = _later(offer.last, it.time)

    def _add_mismatch(self, it: Connection) -> None:
        mismatch, certificate = self.mismatches.add((it.host, it.server), it.uid), it.certificate
        if certificate is not None:
            mismatch.subjects = with_value(mismatch.subjects, certificate.subject)
            for name in certificate.names:
                mismatch.names = with_value(mismatch.names, name)

    def _add_certificate(self, it: Connection, certificate: Certificate) -> None:
        self.certified += 1
        issued = self.certificates.entry(
            certificate.key, certificate.not_after, lambda: Issued(certificate)
        )
        if issued is not None:
            issued.note(it)
        if certificate.is_self_signed:
            own = self.self_signed.add(certificate.key, it.uid)
            own.certificate = certificate
            own.servers = with_value(own.servers, name_of(it.server))
            own.hosts = with_value(own.hosts, it.host)


def _later(last: Optional[float], time: Optional[float]) -> Optional[float]:
    return time if last is None else last if time is None else max(last, time)
