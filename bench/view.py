"""Measures tlsview on 50 MB of lines of several kinds: CPU time and peak memory of five runs each.

    view.py PROGRAM CORE
"""
import os
import random
import subprocess
import sys
import tempfile
from pathlib import Path

sys.path.insert(0, str(Path(__file__).resolve().parents[1]))
from tests.support import script  # noqa: E402

script.answer_help(__doc__)

TOTAL = 50_000_000
RUNS = 5


def record(kind, fragment):
    return bytes([kind, 3, 3]) + len(fragment).to_bytes(2, "big") + fragment


def hello(length):
    """A record of this many bytes with a ClientHello: 16 suites and padding."""

    def padded(padding):
        extension = (21).to_bytes(2, "big") + padding.to_bytes(2, "big") + bytes(padding)
        body = (
            b"\3\3"
            + bytes(range(32))
            + b"\0"
            + (32).to_bytes(2, "big")
            + b"\xc0\x2f" * 16
            + b"\1\0"
        )
        body += len(extension).to_bytes(2, "big") + extension
        return record(22, b"\1" + len(body).to_bytes(3, "big") + body)

    return padded(length - len(padded(0)))


def line(sign, taken):
    return sign + b" " + taken.hex().encode() + b"\n"


def repeated(taken):
    return line(b">", taken) * (TOTAL // len(line(b">", taken)))


def encrypted(fragment):
    return line(b">", hello(517)) + line(b">", record(20, b"\1")) + repeated(record(23, fragment))


def cut():
    """A hundred hellos in lines of 100 bytes, repeated."""
    stream = hello(517) * 100
    part = b"".join(line(b">", stream[at : at + 100]) for at in range(0, len(stream), 100))
    return part * (TOTAL // len(part))


def one_line():
    return line(b">", hello(517) * (TOTAL // 2 // 517))


INPUTS = {
    "ClientHellos of 517 bytes, one a line": lambda: repeated(hello(517)),
    "alerts of 7 bytes, one a line": lambda: repeated(record(21, b"\1\0")),
    "records of 16,005 bytes behind a ChangeCipherSpec": lambda: encrypted(bytes(16000)),
    "the same, of random bytes": lambda: encrypted(random.Random(1).randbytes(16000)),
    "ClientHellos of 517 bytes, cut after each 100": cut,
    "ClientHellos of 517 bytes, all in one line": one_line,
}


def write(path, make):
    """Writes the result of `make` in a separate process, since a child's peak memory begins with its
    parent's."""
    child = os.fork()
    if child == 0:
        with open(path, "wb") as out:
            out.write(make())
        os._exit(0)
    os.waitpid(child, 0)


def run(program, path, shown):
    """Returns CPU seconds, peak bytes and the status."""
    with open(path, "rb") as source, open(shown, "wb") as sink:
        child = subprocess.Popen([program], stdin=source, stdout=sink)
        _, status, usage = os.wait4(child.pid, 0)
    return (
        usage.ru_utime + usage.ru_stime,
        usage.ru_maxrss * 1024,
        os.waitstatus_to_exitcode(status),
    )


def main():
    program, core = sys.argv[1:]
    os.sched_setaffinity(0, {int(core)})
    print(
        "| input | MB | seconds: least, median | peak MB | output MB | status |\n|---|---|---|---|---|---|"
    )
    with tempfile.TemporaryDirectory() as folder:
        path, shown = os.path.join(folder, "lines"), os.path.join(folder, "shown")
        for name, make in INPUTS.items():
            write(path, make)
            runs = sorted(run(program, path, shown) for _ in range(RUNS))
            size, written = os.path.getsize(path) / 1e6, os.path.getsize(shown) / 1e6
            peak = max(it[1] for it in runs) / 1e6
            print(
                f"| {name} | {size:.1f} | {runs[0][0]:.2f}, {runs[RUNS // 2][0]:.2f} | {peak:.0f} | {written:.1f} | {runs[0][2]} |"
            )


main()
