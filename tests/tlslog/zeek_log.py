"""A reader of Zeek's logs in tab-separated values, written from its documentation.

docs.zeek.org, "Zeek Log Formats and Inspection".
"""

from __future__ import annotations

import re
from typing import Any

from tests.support.shapes import Line

ESCAPED = re.compile(r"\\(?:x([0-9a-f]{2})|(\\))")
TIME = re.compile(r"\d{4}(-\d\d){5}")
NUMBER = re.compile(r"-?\d+[.]\d{6}")


class Wrong(Exception):
    """What breaks the format."""


def unescaped(text: str) -> str:
    if not text.isascii() or not text.isprintable() or "\\" in ESCAPED.sub("", text):
        raise Wrong(f"a value isn't escaped: {text!r}")
    return ESCAPED.sub(lambda found: chr(int(found[1], 16)) if found[1] else "\\", text)


def number(text: str) -> int:
    if not text.isdigit():
        raise Wrong(f"no count: {text!r}")
    return int(text)


def seconds(text: str) -> float:
    if not NUMBER.fullmatch(text):
        raise Wrong(f"no time: {text!r}")
    return float(text)


def mark(text: str) -> bool:
    return {"T": True, "F": False}[text]


KINDS = {
    "time": seconds,
    "interval": seconds,
    "addr": str,
    "port": number,
    "enum": str,
    "string": unescaped,
    "bool": mark,
    "count": number,
}


class Log:
    """A log: its name, the fields by name and type, and the rows, each with the fields that it
    has."""

    def __init__(self, text: str) -> None:
        if not text.endswith("\n"):
            raise Wrong("the last line isn't whole")
        lines = text.split("\n")[:-1]
        meta = [line for line in lines if line.startswith("#")]
        if lines[: len(meta) - 1] != meta[:-1] or lines[-1] != meta[-1]:
            raise Wrong("lines with # are among others")
        if meta[0] != r"#separator \x09":
            raise Wrong(f"another separator: {meta[0]}")
        told = [line[1:].split("\t") for line in meta[1:]]
        names = [line[0] for line in told]
        if names != [
            "set_separator",
            "empty_field",
            "unset_field",
            "path",
            "open",
            "fields",
            "types",
            "close",
        ]:
            raise Wrong(f"other lines with #: {names}")
        (
            (self.between,),
            (self.empty,),
            (self.unset,),
            (self.path,),
            (self.opened,),
            self.fields,
            self.types,
            (self.closed,),
        ) = (line[1:] for line in told)
        if (
            not TIME.fullmatch(self.opened)
            or not TIME.fullmatch(self.closed)
            or self.opened > self.closed
        ):
            raise Wrong(f"open {self.opened}, close {self.closed}")
        if len(self.fields) != len(self.types):
            raise Wrong("fields and types aren't as many")
        self.rows = [self.row(line) for line in lines[len(meta) - 1 : -1]]

    def row(self, line: str) -> Line:
        values = line.split("\t")
        if len(values) != len(self.fields):
            raise Wrong(f"{len(values)} values of {len(self.fields)} fields: {line}")
        return {
            field: self.value(kind, value)
            for field, kind, value in zip(self.fields, self.types, values)
            if value != self.unset
        }

    def value(self, kind: str, value: str) -> Any:
        listed = re.fullmatch(r"vector\[(\w+)\]", kind)
        if listed:
            return (
                []
                if value == self.empty
                else [KINDS[listed[1]](one) for one in value.split(self.between)]
            )
        return "" if value == self.empty else KINDS[kind](value)
