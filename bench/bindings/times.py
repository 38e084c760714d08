"""Times extracting the host name of a record, by the Python module beside dpkt.

`times.py FILE..` prints rows of Markdown.
"""

import statistics
import sys
import time
from pathlib import Path

sys.path.insert(0, str(Path(__file__).resolve().parents[2]))
from tests.support import script  # noqa: E402

script.answer_help(__doc__)
import dpkt  # noqa: E402
import wispuddera  # noqa: E402

BATCHES = 40


def ours(record):
    return wispuddera.server_name_of_record(record)


def by_dpkt(record):
    """The host name as dpkt's documentation reads it: records, handshake, extensions as pairs, and
    the name in the first server_name."""
    records, _ = dpkt.ssl.tls_multi_factory(record)
    hello = dpkt.ssl.TLSHandshake(records[0].data).data
    for kind, content in hello.extensions:
        if kind == 0:
            return content[5 : 5 + int.from_bytes(content[3:5], "big")]
    return None


def time_of(call, record, rounds):
    begin = time.process_time_ns()
    for _ in range(rounds):
        call(record)
    return (time.process_time_ns() - begin) / rounds


def show(path):
    record = path.read_bytes()
    if ours(record) is None or ours(record) != by_dpkt(record):
        sys.exit(f"times: {path}: the names differ, or there is none")
    rounds = {call: int(5e6 / time_of(call, record, 200)) + 1 for call in (ours, by_dpkt)}
    times = {ours: [], by_dpkt: []}
    for batch in range(BATCHES):
        for call in (ours, by_dpkt) if batch % 2 else (by_dpkt, ours):
            times[call].append(time_of(call, record, rounds[call]))
    ratios = sorted(theirs / mine for mine, theirs in zip(times[ours], times[by_dpkt]))
    first, middle, third = statistics.quantiles(ratios, n=4)
    mine, theirs = (statistics.median(times[call]) / 1000 for call in (ours, by_dpkt))
    print(
        f"| {path.name}, {len(record)} bytes | {mine:.2f} | {theirs:.1f} | {middle:.1f} | {first:.1f} to {third:.1f} |"
    )


for name in sys.argv[1:]:
    show(Path(name))
