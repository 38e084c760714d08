"""Text for the page: escapes for what a peer sent, numbers, and times in UTC."""

from __future__ import annotations

import html
import re
import unicodedata
from datetime import datetime, timedelta, timezone
from functools import lru_cache
from typing import Optional

# Longer text is cut. A DNS name has at most 253 characters.
LONGEST = 256
# Times range from 1970 to the end of 9999.
END_OF_TIME = 253402300800
_START = datetime(1970, 1, 1, tzinfo=timezone.utc)
DAY = 86400


def cut(value: str) -> str:
    """The text, cut at `LONGEST` characters with an ellipsis."""
    return value if len(value) <= LONGEST else value[: LONGEST - 1] + "…"


def _shown(character: str) -> str:
    if character.isprintable() and not unicodedata.category(character).startswith("M"):
        return character
    number = ord(character)
    return f"\\x{number:02x}" if number < 0x100 else f"\\u{{{number:x}}}"


def plain(value: str) -> str:
    """The text with escapes for characters that are invisible, that reorder text, or that combine
    with their neighbours, and for blanks at its ends."""
    inner = value.strip(" ")
    shown = inner if inner.isascii() and inner.isprintable() else "".join(map(_shown, inner))
    if len(inner) == len(value):
        return shown
    front = len(value) - len(value.lstrip(" ")) if inner else len(value)
    return "\\x20" * front + shown + "\\x20" * (len(value) - len(inner) - front)


def escaped(value: str) -> str:
    """The text as HTML, for an element or a quoted attribute."""
    return html.escape(plain(value), quote=True)


def escaped_line(value: str) -> str:
    """A command, a line of ASCII, as HTML."""
    return html.escape(value, quote=True)


def number(value: int) -> str:
    return f"{value:,}"


def counted(value: int, one: str, more: Optional[str] = None) -> str:
    """A count with its noun: `1 line`, `2 lines`."""
    return f"{number(value)} {one if value == 1 else more or one + 's'}"


def share(part: int, whole: int) -> str:
    """A part in percent, with one decimal. A small part isn't shown as 0, nor a large one as 100."""
    if not whole:
        return "–"
    percent = 100 * part / whole
    if 0 < percent < 0.1:
        return "<0.1%"
    if 99.9 < percent < 100:
        return ">99.9%"
    return f"{percent:.1f}%"


def moment(seconds: float) -> datetime:
    return _START + timedelta(seconds=int(seconds))


def day(seconds: float) -> str:
    return moment(seconds).strftime("%Y-%m-%d")


def time(seconds: float) -> str:
    return moment(seconds).strftime("%Y-%m-%d %H:%M:%S")


def duration(seconds: float) -> str:
    """The duration in its two largest units: `2 d 3 h`."""
    parts: list[str] = []
    left = int(seconds)
    for name, size in (("d", DAY), ("h", 3600), ("min", 60), ("s", 1)):
        count, left = divmod(left, size)
        if count or (name == "s" and not parts):
            parts.append(f"{count:,} {name}")
    return " ".join(parts[:2])


_ISO = re.compile(r"(\d{4})-(\d\d)-(\d\d)T(\d\d):(\d\d):(\d\d)Z", re.ASCII)


def seconds_of(iso: str) -> Optional[int]:
    """Seconds since 1970 of a time written as `2026-11-25T12:00:00Z`, below 0 if it is earlier.
    `None` for any other text."""
    return _seconds_of(iso) if len(iso) == len("2026-11-25T12:00:00Z") else None


@lru_cache(maxsize=4096)
def _seconds_of(iso: str) -> Optional[int]:
    found = _ISO.fullmatch(iso)
    try:
        return (
            int((datetime.fromisoformat(f"{iso[:-1]}+00:00") - _START).total_seconds())
            if found
            else None
        )
    except ValueError:
        return None
