"""The command tlslog-report, also python3 -m wispuddera.report."""

from __future__ import annotations

import argparse
import os
import sys
from contextlib import ExitStack
from pathlib import Path
from typing import BinaryIO, NoReturn

from . import OtherFormat, report

NAME = "tlslog-report"
# Exit statuses: a log can't be read, the page can't be written.
NOT_READ, NOT_WRITTEN = 2, 3
# Bytes that are read at once.
_BUFFER = 1 << 16
EPILOG = """\
examples:
  tlslog capture.pcap > log
  tlslog-report log > report.html
  tlslog capture.pcap | tlslog-report --capture capture.pcap - > report.html
  tlslog-report monday tuesday > report.html

exit status:
  0  the page was written
  2  the arguments are wrong, or a log can't be read or isn't the JSON of tlslog
  3  the page can't be written

docs/REPORT.md describes the page.
"""


class _Reading:
    """A log that notes its name when it is read, for the message about a failure."""

    def __init__(self, name: str, log: BinaryIO, at: list[str]) -> None:
        self.name, self._log, self._at = name, log, at

    def readline(self, most: int) -> bytes:
        self._at[0] = self.name
        return self._log.readline(most)


def _fail(status: int, message: str) -> NoReturn:
    print(f"{NAME}: {message}", file=sys.stderr)
    sys.exit(status)


def _reason(fault: OSError) -> str:
    return (fault.strerror or str(fault)).lower()


def _shown(name: str) -> str:
    return "standard input" if name == "-" else name


def _page_of(names: list[str], capture: str) -> str:
    at = [names[0]]
    try:
        with ExitStack() as opened:
            logs = []
            for name in names:
                at[0] = name
                source = sys.stdin.fileno() if name == "-" else name
                log = open(source, "rb", buffering=_BUFFER, closefd=name != "-")
                logs.append(_Reading(name, opened.enter_context(log), at))
            return report(*logs, names=names, capture=capture)
    except OSError as fault:
        _fail(NOT_READ, f"{_shown(at[0])}: cannot read: {_reason(fault)}")
    except OtherFormat as fault:
        _fail(NOT_READ, f"{_shown(at[0])}: {fault}")


def _write(page: str) -> None:
    """Writes the page. It is no failure if the reader of a pipe ends first."""
    try:
        sys.stdout.buffer.write(page.encode())
        sys.stdout.buffer.flush()
    except OSError as fault:
        # Python flushes standard output once more when it exits.
        os.dup2(os.open(os.devnull, os.O_WRONLY), sys.stdout.fileno())
        if not isinstance(fault, BrokenPipeError):
            _fail(NOT_WRITTEN, f"standard output: cannot write: {_reason(fault)}")


def main() -> None:
    parser = argparse.ArgumentParser(
        prog=NAME,
        description="Writes an HTML page of logs of tlslog to standard output.",
        epilog=EPILOG,
        formatter_class=argparse.RawDescriptionHelpFormatter,
    )
    logs = "JSON lines of tlslog; - is standard input"
    capture = "the name in the page's title (default: that of the log)"
    parser.add_argument("logs", metavar="LOG", nargs="+", help=logs)
    parser.add_argument("--capture", metavar="NAME", default="", help=capture)
    options = parser.parse_args()
    if options.logs.count("-") > 1:
        parser.error("standard input is named twice")
    if sys.stdin.isatty() and "-" in options.logs:
        print(f"{NAME}: reading the log from the terminal; Ctrl-D ends it", file=sys.stderr)
    try:
        _write(_page_of(options.logs, Path(options.capture).name))
    except KeyboardInterrupt:
        sys.exit(130)


if __name__ == "__main__":
    main()
