"""Rows of tests/rows/data (docs/TESTING.md, "Rows") as inputs of groups of calls, in Rattle's
source.

An input is the bytes of a row whose call reads the group's layout, or a part of them that does: the
body of a message, the content of an extension.
"""

from __future__ import annotations

import re
from collections.abc import Iterable, Iterator
from pathlib import Path
from typing import NamedTuple

DATA = Path(__file__).resolve().parent.parent.parent / "tests/rows/data"
# Inputs up to this many bytes are cut at every place.
SHORT = 600
# On each side of the ends of a longer one, and of its repeated parts, it is cut at this many places.
NEAR = 2
# From this many bytes on, repeated bytes are written as one part and a count.
REPEATED = 64
# No part that is read in place is longer.
MOST = 1 << 17


class Within(NamedTuple):
    """Bytes from `start` up to `end`, and the places of the last bytes of their length."""

    places: tuple
    start: int
    end: int

    def moved(self, by: int) -> Within:
        return Within(tuple(place + by for place in self.places), self.start + by, self.end + by)


class Input(NamedTuple):
    row: str
    data: bytes
    within: tuple = ()
    # The type of the extension that has this content; of other inputs 0.
    kind: int = 0

    def behind(self, count: int, end: int | None = None) -> Input:
        """The bytes after this many, up to `end`."""
        moved = [w.moved(-count) for w in self.within if end is None or w.end <= end]
        kept = tuple(w for w in moved if min((*w.places, w.start)) >= 0)
        return self._replace(data=self.data[count:end], within=kept)

    def framed(self, head: bytes, width: int) -> Input:
        """The bytes after a head and their length, of this many bytes."""
        front = head + len(self.data).to_bytes(width, "big")
        return self._replace(
            data=front + self.data, within=tuple(w.moved(len(front)) for w in self.within)
        )

    def counted(self, width: int, start: int = 0) -> Input:
        """Adds cuts within the length of this many bytes at `start`, if it is a length."""
        behind = start + width
        end = behind + number(self.data, start, width)
        if not behind < end <= len(self.data):
            return self
        return self._replace(within=(*self.within, Within((behind - 1,), behind, end)))


def number(data: bytes, start: int, width: int) -> int:
    return int.from_bytes(data[start : start + width], "big")


def bytes_of(words: list[str], names: dict[str, bytes]) -> bytes:
    """The bytes before the first mark that begins a piece."""
    data, group = bytearray(), 0
    for word in words:
        if word[0] in "/<>+-?=":
            break
        if word == "|":
            continue
        if word[0] == "$":
            data += names[word[1:]]
            continue
        word, _, times = word.partition("*")
        if word[0] == "(":
            group, word = len(data), word[1:]
        is_group = word.endswith(")")
        data += bytes.fromhex(word.rstrip(")"))
        if times:
            start = group if is_group else len(data) - 1
            data[start:] = bytes(data[start:]) * min(int(times), MOST)
    return bytes(data)


def rows() -> Iterator[tuple[list[str], Input]]:
    """The calls of each row, and its bytes as an input."""
    for file in sorted(DATA.glob("*.rows")):
        names = {}
        for number_of_line, words in rows_of(file.read_text()):
            if words[0] == "let":
                names[words[1]] = bytes_of(words[3:], names)
            else:
                yield row(f"{file.name}:{number_of_line}", words, names)


def rows_of(text: str) -> list[tuple[int, list[str]]]:
    """The words of each row, and the line on which it begins."""
    found = []
    for number_of_line, line in enumerate(text.split("\n"), 1):
        if not line.startswith((" ", "#")) and line:
            found.append((number_of_line, []))
        if not line.startswith("#") and line:
            found[-1][1].extend(line.split())
    return found


def row(name: str, words: list[str], names: dict[str, bytes]) -> tuple[list[str], Input]:
    count = next((k + 1 for k, word in enumerate(words) if not word.endswith(",")), len(words))
    calls = [call for word in words[:count] for call in word.split(",") if call]
    clause = re.compile(r"=>$|(written|cut|within|inside):")
    ends = [k for k, word in enumerate(words) if k >= count and clause.match(word)] + [len(words)]
    data = bytes_of(words[count : ends[0]], names)
    within = []
    for begin, end in zip(ends, ends[1:]):
        if words[begin].startswith(("within:", "inside:")):
            places = tuple(int(place) for place in words[begin].split(":")[1].split(","))
            size = sum(int(re.search(r"\d+", part)[0]) for part in words[begin + 1 : end])
            within.append(Within(places, len(data) - size, len(data)))
    return calls, Input(name, data, tuple(within))


def parts(data: bytes) -> list[tuple[bytes, int]]:
    """Bytes, and how often they are repeated."""
    found, plain, k = [], 0, 0
    while k < len(data):
        period, times = repeated(data, k)
        if not period:
            k += 1
            continue
        if plain < k:
            found.append((data[plain:k], 1))
        found.append((data[k : k + period], times))
        k += period * times
        plain = k
    if plain < k:
        found.append((data[plain:k], 1))
    return found


def repeated(data: bytes, start: int) -> tuple[int, int]:
    """How many bytes at `start` are repeated, and how often; 0 if they are few."""
    for period in (1, 2, 4):
        end = start + period
        while end < len(data) and data[end] == data[end - period]:
            end += 1
        times = (end - start) // period
        if period * times >= REPEATED:
            return period, times
    return 0, 0


def places(data: bytes) -> list[int]:
    """Where a long input is cut: near its ends, and near those of its parts."""
    ends, end = {0, len(data)}, 0
    for part, times in parts(data):
        end += len(part) * times
        ends.add(end)
    near = {end + k for end in ends for k in range(-NEAR, NEAR + 1)}
    return sorted(place for place in near if 0 <= place < len(data))


def is_long(one: Input) -> bool:
    return len(one.data) > SHORT


def count_of(inputs: list[Input]) -> int:
    """How many inputs are compared: each whole, its fronts, and those with a length that is cut,
    with and without what is after."""
    count = 0
    for one in inputs:
        count += 1 + (len(places(one.data)) if is_long(one) else len(one.data))
        count += 0 if is_long(one) else sum(2 * (w.end - w.start) for w in one.within)
    return count


def source(name: str, inputs: list[Input]) -> str:
    """The source of the inputs, a line of each."""
    lines = "\\n".join(map(written, inputs))
    return f"""//! Inputs of {name}, off the rows of the calls.

/// How many comparisons they make.
pub const COUNT: usize = {count_of(inputs)};

/// A line of each.
pub static INPUTS: &str = "{lines}";
"""


def written(one: Input) -> str:
    """A line: the row, the kind, the parts, where it is cut, and what is cut with its length; `-`
    is none."""
    told = ",".join(f"{marked(part, '.')}*{times}" for part, times in parts(one.data))
    fronts = marked(places(one.data), ",") if is_long(one) else ""
    within = (
        ""
        if is_long(one)
        else ",".join(f"{marked(w.places, '.')}/{w.start}/{w.end}" for w in one.within)
    )
    return " ".join([one.row, str(one.kind), told or "-", fronts or "-", within or "-"])


def marked(numbers: Iterable[int], mark: str) -> str:
    return mark.join(map(str, numbers))
