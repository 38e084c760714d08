"""Counts of values, over time, and of the soonest ones, in bounded memory."""

from __future__ import annotations

from collections.abc import Callable
from typing import Generic, Optional, TypeVar

# A tally keeps counts of at least so many distinct values, and of at most twice as many.
MOST = 5000
# How many distinct values are kept for an entry, such as the hosts of an address.
FEW = 16
# How many connections of an entry are listed.
UIDS = 3


class Entry:
    """How often a value was counted since it was entered (`count`), how often at most before that
    (`missed`), and the `uid` of its first connections."""

    __slots__ = ("count", "missed", "uids")
    # Entries with a lower rank come first in a table.
    rank = 0

    def __init__(self, missed: int) -> None:
        self.count, self.missed = 0, missed
        self.uids: Values = ()

    def release(self) -> None:
        """Gives back the entry's share of common memory. Called once, when the entry is dropped."""


Values = tuple[str, ...]

Key = TypeVar("Key")
E = TypeVar("E", bound=Entry)
Item = TypeVar("Item")


class Tally(Generic[Key, E]):
    """Counts each value. Beyond twice `most` distinct values, the rarest are dropped.

    This is the algorithm Space-Saving, dropping many at once. A value that makes up more than one
    in `most` is present. No count is short by more than `missed`, which is at most that many.
    Values that were never dropped have exact counts.
    """

    def __init__(self, kind: Callable[[int], E], most: int = MOST) -> None:
        self.kind, self.most = kind, most
        self.entries: dict[Key, E] = {}
        self.total = 0
        self.missed = 0

    def add(self, key: Key, uid: Optional[str] = None) -> E:
        """Counts the value once, for the connection with this `uid`, and returns its entry."""
        self.total += 1
        entry = self.entries.get(key)
        if entry is None:
            if len(self.entries) >= 2 * self.most:
                self._forget()
            entry = self.entries[key] = self.kind(self.missed)
        entry.count += 1
        if uid is not None and len(entry.uids) < UIDS:
            entry.uids = (*entry.uids, uid)
        return entry

    def _forget(self) -> None:
        """Drops the entries with the lowest counts; among equals the first ones stay."""
        ranked = sorted(
            self.entries.items(), key=lambda item: item[1].count + item[1].missed, reverse=True
        )
        first_out = ranked[self.most][1]
        self.missed = first_out.count + first_out.missed
        self.entries = dict(ranked[: self.most])
        for _, entry in ranked[self.most :]:
            entry.release()

    def ranked(self) -> list[tuple[Key, E]]:
        """The entries by rank, then the most frequent first, then by name."""
        return sorted(
            self.entries.items(), key=lambda item: (item[1].rank, -item[1].count, str(item[0]))
        )


def with_value(values: Values, value: Optional[str]) -> Values:
    """Adds a value to the first distinct ones; at most one more than `FEW` are kept."""
    if len(values) > FEW or value is None or value in values:
        return values
    return (*values, value)


class Timeline:
    """Counts how many connections of each kind began in each interval. Intervals grow with the time
    that the log spans, so that it has at most `MOST` of them."""

    MOST = 180
    # Lengths in seconds. Each is a multiple of the one before, so that whole intervals are joined.
    # The last ones are 4, 52, 520 and 5200 weeks.
    STEPS = (
        1,
        5,
        15,
        60,
        300,
        900,
        3600,
        10800,
        43200,
        86400,
        604800,
        2419200,
        31449600,
        314496000,
        3144960000,
    )

    def __init__(self, kinds: int) -> None:
        self.kinds = kinds
        self.at, self.step = 0, self.STEPS[0]
        self.intervals: dict[int, list[int]] = {}
        self.first = self.last = 0

    def add(self, seconds: float, kind: int) -> None:
        place = int(seconds) // self.step
        counts = self.intervals.get(place)
        if counts is None:
            if not self.intervals:
                self.first = self.last = place
            first, last = min(self.first, place), max(self.last, place)
            if last - first >= self.MOST:
                self._widen()
                return self.add(seconds, kind)
            self.first, self.last = first, last
            counts = self.intervals[place] = [0] * self.kinds
        counts[kind] += 1
        return None

    def _widen(self) -> None:
        self.at += 1
        narrower, self.step = self.step, self.STEPS[self.at]
        factor = self.step // narrower
        narrow, self.intervals = self.intervals, {}
        for place, counts in narrow.items():
            wide = self.intervals.setdefault(place // factor, [0] * self.kinds)
            for kind, count in enumerate(counts):
                wide[kind] += count
        self.first, self.last = self.first // factor, self.last // factor


class Soonest(Generic[Key, Item]):
    """Keeps the entries with the earliest ends: at least `most` of them, and at most twice as many."""

    def __init__(self, most: int = MOST) -> None:
        self.most = most
        self.entries: dict[Key, Item] = {}
        self.ends: dict[Key, int] = {}
        # Entries that end later are no longer added.
        self.latest: Optional[int] = None

    def entry(self, key: Key, end: int, make: Callable[[], Item]) -> Optional[Item]:
        """The entry of the key, made if it is new. `None` if it ends too late to be kept."""
        found = self.entries.get(key)
        if found is not None:
            return found
        if self.latest is not None and end > self.latest:
            return None
        if len(self.entries) >= 2 * self.most:
            self._forget()
        self.ends[key] = end
        made = self.entries[key] = make()
        return made

    def _forget(self) -> None:
        kept = sorted(self.entries, key=lambda key: self.ends[key])[: self.most]
        self.latest = self.ends[kept[-1]]
        self.entries = {key: self.entries[key] for key in kept}
        self.ends = {key: self.ends[key] for key in kept}

    def ranked(self) -> list[tuple[Key, Item]]:
        return sorted(self.entries.items(), key=lambda item: (self.ends[item[0]], str(item[0])))
