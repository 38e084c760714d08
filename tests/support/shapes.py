"""Types that several scripts share."""

from __future__ import annotations

from collections.abc import Callable
from typing import Any

# A line of a log, or another object of JSON, by its fields.
Line = dict[str, Any]
# Runs a program with these arguments, and returns its status, its output and its messages.
Ask = Callable[..., tuple[int, str, str]]
# The fields of tshark of a packet, each with its values.
Row = dict[str, list[str]]
