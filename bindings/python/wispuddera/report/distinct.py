"""Counts distinct values: exactly up to a limit, and beyond it by HyperLogLog."""

from __future__ import annotations

import hashlib
import math
from functools import lru_cache
from typing import Optional

# Up to so many distinct values the count is exact.
EXACT = 10000
# All counters together hold so many values, about 80 MB of addresses. When these are used up, a
# counter becomes a sketch before it reaches its limit.
ROOM = 500000
# HyperLogLog (Flajolet, Fusy, Gandouet, Meunier, 2007) with 4,096 registers: the standard error is
# 1.04 / 64, or 1.6 percent.
BITS = 12
REGISTERS = 1 << BITS
ERROR = 1.04 / math.sqrt(REGISTERS)
_ALPHA = 0.7213 / (1 + 1.079 / REGISTERS)


@lru_cache(maxsize=65536)
def _hash(value: str) -> int:
    """A 64-bit hash, the same in each run."""
    return int.from_bytes(
        hashlib.blake2b(value.encode(errors="surrogatepass"), digest_size=8).digest(), "big"
    )


@lru_cache(maxsize=65536)
def _same(value: str) -> str:
    """The first of equal strings, so that sets share one object."""
    return value


class Room:
    """How many values a group of counters may still hold."""

    def __init__(self, most: int = ROOM) -> None:
        self.free = most


class Distinct:
    """Counts distinct values."""

    __slots__ = ("_room", "_values", "_registers")

    def __init__(self, room: Room) -> None:
        self._room = room
        self._values: set[str] = set()
        self._registers: Optional[bytearray] = None

    def add(self, value: Optional[str]) -> None:
        if value is None or value in self._values:
            return
        if self._registers is not None:
            self._sketch(value)
        elif len(self._values) < EXACT and self._room.free:
            self._room.free -= 1
            self._values.add(_same(value))
        else:
            self._registers = bytearray(REGISTERS)
            for one in (*self._values, value):
                self._sketch(one)
            self.release()

    def release(self) -> None:
        self._room.free += len(self._values)
        self._values = set()

    def _sketch(self, value: str) -> None:
        assert self._registers is not None
        bits = _hash(value)
        register, rest = bits >> (64 - BITS), bits & ((1 << (64 - BITS)) - 1)
        # The position of the first 1 bit of the rest.
        rank = 64 - BITS - rest.bit_length() + 1
        if rank > self._registers[register]:
            self._registers[register] = rank

    @property
    def is_exact(self) -> bool:
        return self._registers is None

    def __len__(self) -> int:
        if self._registers is None:
            return len(self._values)
        empty = self._registers.count(0)
        estimate = _ALPHA * REGISTERS**2 / math.fsum(2.0**-rank for rank in self._registers)
        if estimate <= 2.5 * REGISTERS and empty:
            # Linear counting, which HyperLogLog uses for few values.
            estimate = REGISTERS * math.log(REGISTERS / empty)
        return round(estimate)
