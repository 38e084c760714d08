"""Times reading a certificate by Python's cryptography: `times.py FILE..` prints rows of Markdown."""

import statistics
import sys
import time
import warnings
from pathlib import Path

sys.path.insert(0, str(Path(__file__).resolve().parents[2]))
from tests.support import script  # noqa: E402

script.answer_help(__doc__)
from cryptography import x509  # noqa: E402

BATCHES = 40


def read(der):
    """Reads the fields that `rounds.rt.in` reads."""
    one = x509.load_der_x509_certificate(der)
    fields = [
        one.version,
        one.serial_number,
        one.issuer,
        one.not_valid_before_utc,
        one.not_valid_after_utc,
        one.subject,
        one.signature,
    ]
    return fields, [extension.value for extension in one.extensions]


def load(der):
    """Only parses; no field is read."""
    return x509.load_der_x509_certificate(der)


def time_of(call, der, rounds):
    begin = time.process_time_ns()
    for _ in range(rounds):
        call(der)
    return (time.process_time_ns() - begin) / rounds


def median(call, der):
    rounds = int(5e6 / time_of(call, der, 100)) + 1
    return statistics.median(time_of(call, der, rounds) for _ in range(BATCHES))


def told(call, der):
    try:
        return f"{median(call, der):.0f}"
    except Exception:
        # It rejects some certificates: of version 1, or with other kinds of strings.
        return "refused"


warnings.simplefilter("ignore")
for name in sys.argv[1:]:
    der = Path(name).read_bytes()
    print(f"| {Path(name).name}, {len(der)} bytes | {told(load, der)} | {told(read, der)} |")
