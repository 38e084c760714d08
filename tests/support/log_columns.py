"""The fields of the log, with their types and texts, from fields.rt and columns.rt of
crates/log_fields.
"""

from __future__ import annotations

import re
from collections.abc import Iterator
from pathlib import Path
from typing import NamedTuple

CRATES = Path(__file__).resolve().parents[2] / "crates"
FIELDS, COLUMNS = CRATES / "log_fields/src/fields.rt", CRATES / "log_fields/src/columns.rt"
TYPES, ZEEK = CRATES / "log_formats/src/column.rt", CRATES / "log_formats/src/zeek.rt"
# The first words of a row's lines that aren't the field's description.
LABELS = ("RFC", "Zeek", "absent")
ABOVE = "as above"
TABLE = re.compile(r"^pub static (\w+): &\[Column<\w+>\] = columns! \{\n(.*?)^\};\n", re.M | re.S)
ROW = re.compile(r'"([^"]+)": (\w+) = .+;')
# Of the fields of a connection: the blocks of rows, and a row, which has two names where each side
# has the field.
BLOCKS = re.compile(r"^macro_rules! rows \{\n.*?^ {12}\$\(\$words\)\*\n(.*?)^ {8}\}\n", re.M | re.S)
BLOCK = re.compile(r"^ {12}\w+ \{\n(.*?)^ {12}\}\n", re.M | re.S)
FIELD = re.compile(r'"([^"]+)"(?:, "([^"]+)")?: (\w+) = \w+(?: => \|\w+\| .+)?;')


class Wrong(Exception):
    """What is no row."""


class Column(NamedTuple):
    name: str
    kind: str  # the variant of Type
    said: dict[str, str]  # "is", and its LABELS; empty if the comment is above an earlier row


def said(name: str, lines: list[str]) -> dict[str, str]:
    """Returns the texts of the comment before a row."""
    if lines == [ABOVE]:
        return {}
    told, label = {"is": []}, "is"
    for line in lines:
        begin, colon, rest = line.partition(": ")
        if colon and begin in LABELS:
            if begin in told:
                raise Wrong(f"{name} has two lines {begin}")
            label, line = begin, rest
            told[label] = []
        told[label].append(line)
    told = {label: " ".join(some) for label, some in told.items()}
    if not told["is"] or "|" in "".join(told.values()):
        raise Wrong(f"{name} has no text, or one with a |")
    return told


def texts_and_rows(table: str) -> Iterator[tuple[list[str], str]]:
    """The rows of a table, each with the lines of its text in front."""
    lines, row = [], ""
    for line in map(str.strip, table.splitlines()):
        if line.startswith("/// ") and not row:
            lines.append(line[4:])
        else:
            row = f"{row} {line}".strip()
        if row.endswith(";"):
            yield lines, row
            lines, row = [], ""
    if lines or row:
        raise Wrong(f"neither a row nor its text: {row or lines}")


def matched(pattern: re.Pattern[str], row: str) -> re.Match[str]:
    found = pattern.fullmatch(row)
    if not found:
        raise Wrong(f"no row: {row}")
    return found


def columns(table: str) -> list[Column]:
    """The rows of a table."""
    found = []
    for lines, row in texts_and_rows(table):
        name, kind = matched(ROW, row).groups()
        found.append(Column(name, kind, said(name, lines)))
    return found


def fields(blocks: str) -> list[Column]:
    """The rows of all blocks. A row of what each side has makes two columns."""
    if BLOCK.sub("", blocks):
        raise Wrong(f"no block of rows: {BLOCK.sub('', blocks)}")
    found = []
    for block in BLOCK.findall(blocks):
        for lines, row in texts_and_rows(block):
            name, responders, kind = matched(FIELD, row).groups()
            found.append(Column(name, kind, said(name, lines)))
            if responders:
                found.append(Column(responders, kind, {}))
    return found


def tables() -> dict[str, list[Column]]:
    """The tables by name: FIELDS of a connection, MESSAGE_FIELDS of a message, and
    CERTIFICATE_FIELDS of a certificate."""
    found = {"FIELDS": fields(BLOCKS.findall(FIELDS.read_text())[0])}
    found |= {name: columns(body) for name, body in TABLE.findall(COLUMNS.read_text())}
    for table in found.values():
        if not table[0].said:
            raise Wrong(f"nothing is above {table[0].name}")
    return found


def groups(table: list[Column]) -> list[list[Column]]:
    """Groups the rows that share one text."""
    found = []
    for column in table:
        if column.said:
            found.append([column])
        else:
            found[-1].append(column)
    return found


def kinds() -> dict[str, tuple[str, str]]:
    """The variants of Type: each one's description, and Zeek's name for it."""
    body = TYPES.read_text().split("pub enum Type {\n")[1].split("\n}")[0]
    found = re.findall(r"((?:^    /// .*\n)+)    (\w+),$", body, re.M)
    texts = {
        name: " ".join(line.strip().removeprefix("/// ") for line in text.splitlines())
        for text, name in found
    }
    names = {}
    for variants, name in re.findall(r'^ +(Type::.*) => "(.*)",$', ZEEK.read_text(), re.M):
        names |= dict.fromkeys(re.findall(r"Type::(\w+)", variants), name)
    if {*texts} != {*names}:
        raise Wrong(
            f"types without a text, or without a name of Zeek's: {', '.join({*texts} ^ {*names})}"
        )
    return {kind: (text, names[kind]) for kind, text in texts.items()}


def names(table: str = "FIELDS") -> list[str]:
    """The names of a table's fields, in the order of a line."""
    return [column.name for column in tables()[table]]
