#!/usr/bin/env -S python3 -B
"""Lines of logs for the tests of the report: stored, made and hostile ones.

    tests/report/report_lines.py COUNT            prints COUNT made lines: three days of a
                                                  fictional network
    tests/report/report_lines.py COUNT distinct   with another name, address and certificate in
                                                  each second line

docs/report.png is made by these commands, with the options of `Browser` in tests/report/run:

    tests/report/report_lines.py 20000 | ./tlslog-report --capture office.pcap - > page.html
    chromium --headless --window-size=1280,2200 --screenshot=page.png page.html
    pngquant --speed 1 --strip --nofs --output docs/report.png 256 page.png
"""

from __future__ import annotations

import json
import math
import random
import sys
from collections.abc import Iterable, Iterator
from datetime import datetime, timezone
from pathlib import Path

sys.path.insert(0, str(Path(__file__).resolve().parents[2]))
from tests.support import script, suite_names  # noqa: E402
from tests.support.shapes import Line

TOP = Path(__file__).resolve().parents[2]
SEED = 2
DAY = 86400
# 2026-11-23 00:00:00 UTC
START = 1795392000
DAYS = 3
HOSTS = [
    f"{name}.{domain}"
    for domain in ("example.com", "example.net", "example.org")
    for name in "www api mail cdn login static img docs git shop".split()
]
HOSTS += [f"node-{number}.cluster.example" for number in range(170)]
# Servers that were never looked after: name, version, suite, last alert.
FORGOTTEN = [
    ("printer-2.office.example", "TLSv10", "0x0005"),
    ("printer-3.office.example", "TLSv10", "0x0005"),
    ("camera.gate.example", "TLSv10", "0x000a"),
    ("console.rack-7.example", "SSLv3", "0x0004"),
    ("intranet.office.example", "TLSv11", "0x002f"),
    ("ftp.archive.example", "TLSv12", "0x0035"),
    ("meter-11.plant.example", "TLSv12", "0x009c"),
    ("old-api.example.net", "TLSv12", "0xc014"),
    ("lab.example.org", "TLSv12", "0x0018"),
]
ISSUERS = [
    "CN=Example Issuing CA 1, O=Example Trust",
    "CN=Example Issuing CA 2, O=Example Trust",
    "CN=Office CA, O=Example",
]


# Fields that each line of tlslog has.
ALWAYS = {"ts", "id.orig_h", "id.orig_p", "id.resp_h", "id.resp_p", "established", "outcome"}


def stored() -> list[Line]:
    """The lines of the stored captures, as far as they are stored whole."""
    found = []
    for file in ("crates/tlslog/stdout", "captures/dtls/lines"):
        found += [json.loads(line) for line in (TOP / file).read_text().splitlines()]
    for one in json.loads((TOP / "captures/fronts/wanted.json").read_text()).values():
        found += [row["line"] for row in one["lines"] if ALWAYS <= set(row["line"])]
    return found


def moment(seconds: float) -> str:
    return datetime.fromtimestamp(seconds, timezone.utc).strftime("%Y-%m-%dT%H:%M:%SZ")


def _time(chance: random.Random) -> float:
    """More by day than by night."""
    while True:
        seconds = chance.random() * DAYS * DAY
        if chance.random() < 0.55 - 0.45 * math.cos(2 * math.pi * seconds / DAY):
            return round(START + seconds, 6)


def _certificate(name: str, number: int) -> Line:
    """A server's certificate, for 90 days. Some expire soon, some are self-signed, and some have
    another name."""
    left = 5 + number * 37 % 85 if number % 29 else -3
    print_of = f"{random.Random(name).getrandbits(256):064x}"
    names = [name, f"www.{name}", *(f"alias-{place}.{name}" for place in range(number % 7))]
    if number % 23 == 5:
        names = [f"other.{name}"]
    issuer = f"CN={name}" if number % 31 == 7 else ISSUERS[number % len(ISSUERS)]
    return {
        "subject": f"CN={name}", "issuer": issuer, "self_issued": issuer == f"CN={name}",
        "not_after": moment(START + DAYS * DAY + left * DAY + number % DAY), "san_dns": names,
        "cert_chain_fps": [print_of],
    }


def _spoken(lines: list[Line]) -> list[list[Line]]:
    """Which of the lines each host has: a few, those of other versions seldom."""
    usual = [
        line
        for line in lines
        if line.get("version") in ("TLSv12", "TLSv13")
        and line["outcome"] in ("full", "resumed", "tls13")
    ]
    return [
        [*random.Random(at).sample(usual, 6), *random.Random(-at - 1).sample(lines, 1)]
        for at in range(len(HOSTS))
    ]


def made(count: int, is_distinct: bool = False) -> Iterator[Line]:
    """This many lines, made of the stored ones. They are the same at each run."""
    chance = random.Random(SEED)
    spoken = _spoken(stored())
    weights = [1 / (place + 1) for place in range(len(HOSTS))]
    for number in range(count):
        at = chance.choices(range(len(HOSTS)), weights)[0]
        line = dict(chance.choice(spoken[at]))
        line["uid"] = f"Cmade{number:013d}"
        line["ts"] = _time(chance)
        is_own = is_distinct and number % 2
        name = f"h{number}.distinct.example" if is_own else HOSTS[at]
        line["id.orig_h"] = f"198.51.100.{chance.randrange(1, 60)}"
        line["id.resp_h"] = f"2001:db8::{number:x}" if is_own else f"203.0.113.{at % 200 + 1}"
        line["id.resp_p"] = 443
        if not is_own and chance.random() < 0.02:
            at = chance.randrange(len(FORGOTTEN))
            name, line["version"], line["cipher"] = FORGOTTEN[at]
            line["id.resp_h"] = f"192.0.2.{at + 1}"
        if "server_name" in line:
            line["server_name"] = name
        if "cert_chain_fps" in line:
            line.update(_certificate(name, number if is_own else at))
            line.pop("sni_matches_cert", None)
            if "server_name" in line:
                line["sni_matches_cert"] = name in line["san_dns"]
        yield line


def numbered(lines: Iterable[Line]) -> Iterator[Line]:
    """The lines with the numbers of suites in place of their names, as `--numbers` has them."""
    for line in lines:
        line = dict(line)
        if "cipher" in line:
            line["cipher"] = suite_names.numbered(line["cipher"])
        if "client_ciphers" in line:
            line["client_ciphers"] = list(map(suite_names.numbered, line["client_ciphers"]))
        yield line


def text_of(lines: Iterable[Line]) -> bytes:
    return b"".join(json.dumps(line).encode() + b"\n" for line in lines)


# Names that no page may take for anything but text.
NAMES = [
    "<script>document.title='owned'</script>",
    "</td></tr></table><script>document.title='owned'</script>",
    '"><img src=x onerror="document.title=\'owned\'">',
    "' onmouseover='document.title=1",
    "&lt;b&gt;&amp;&#x3c;",
    "<!-- ",
    "]]>",
    "</title><b>title",
    "javascript:document.title=1",
    "a\0b",
    "\x1b[31m",
    "\x7f\x85\x9f",
    "\u202egpj.exe",
    "\u200b\ufeff",
    "\ud800",
    "\udfff\ud800",
    "e\u0301\u0489\u0489",
    "x" * 100000,
    "\\xff\\x00\\'",
    "\u2028\u2029\t\r\n",
    "",
    " ",
    "\U000e0001\U0010ffff\ufffe",
    "example.test",
]


def hostile_fields() -> Iterator[Line]:
    """Objects with values of any type in each field that is read, and names that do harm where they
    aren't escaped."""
    names = [
        "ts", "uid", "client_version", "client_supported_versions", "client_ciphers",
        "sni_matches_cert", "self_issued", "id.orig_h", "id.orig_p", "id.resp_h", "id.resp_p",
        "version", "cipher", "curve", "server_name", "outcome", "resumed", "last_alert", "stop",
        "ja4", "subject", "issuer", "not_after", "san_dns", "cert_chain_fps",
    ]
    values = [None, True, False, 0, -1, 1 << 70, 1.5, 1e300, -1e300, [], ["a"], [1], [[]], {}]
    values += [{"message": 1, "sender": []}, {"message": "<b>", "sender": "\0"}]
    values += [
        "9999-12-31T23:59:59Z", "0000-00-00T00:00:00Z", "0001-01-01T00:00:00Z",
        "2026-11-25T12:00:00+01:00", "2026-02-30T12:00:00Z",
    ]
    whole = next(made(1))
    for name in names:
        for value in [*values, *NAMES]:
            yield {**whole, name: value}
        yield {key: value for key, value in whole.items() if key != name}
        yield {name: whole.get(name)}
    for seconds in (0, 1, 253402300799, 253402300800, 4294967296, 0.000001, 1795392000):
        yield {**whole, "ts": seconds}


# Lines that are none of a connection, each by itself.
NO_LINES = [
    b"{",
    b"}",
    b"null",
    b"1",
    b'"text"',
    b"[]",
    b"[{}]",
    b"{}",
    b'{"other":1}',
    b"{'ts':1}",
    b'{"ts":NaN}',
    b'{"ts":-Infinity}',
    b'{"ts":1}{"ts":1}',
    b"\xff\xfe",
    b'{"server_name":"\xff"}',
    b'{"server_name":"\xed\xa0\x80"}',
    b'{"server_name":"a\0b"}',
    b"\xef\xbb\xbf{}",
    b"\0",
    b'{"ts":' + b"1" * 5000 + b"}",
    b"[" * 100000,
    b'{"ts":' * 50000,
    b'{"ts":1,"side":"client","place":0,"content_type":22,"name":"client_hello"}',
    b"ts,version,cipher",
    b"#separator \\x09",
    b'{"server_name":"' + b"y" * (5 << 20) + b'"}',
    b"z" * (13 << 20),
]


def main() -> None:
    script.answer_help(__doc__)
    if len(sys.argv) not in (2, 3):
        sys.exit(__doc__)
    for line in made(int(sys.argv[1]), sys.argv[2:] == ["distinct"]):
        sys.stdout.write(json.dumps(line) + "\n")


if __name__ == "__main__":
    main()
