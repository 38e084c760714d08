"""Names of cipher suites by tshark, from the file cipher_suites: not from the log's own table."""

from __future__ import annotations

from pathlib import Path

ROWS = [
    line.split()
    for line in (Path(__file__).parent / "cipher_suites").read_text().splitlines()
    if not line.startswith("#")
]
NAMES = {int(number, 16): name for number, name in ROWS}


def suite_name(number: int) -> str:
    """The name of a suite, or else its number, as a line has it."""
    return NAMES.get(number, f"0x{number:04x}")


def named(text: str) -> str:
    """The name of a suite whose number is written as `0x1301`; any other text stays."""
    return (
        NAMES.get(int(text, 16), text)
        if len(text) == len("0x1301") and text.startswith("0x")
        else text
    )


def numbered(text: str) -> str:
    """The number of a suite by its name, as `0x1301`; any other text stays."""
    return NUMBERS.get(text, text)


NUMBERS = {name: f"0x{number:04x}" for number, name in NAMES.items()}
