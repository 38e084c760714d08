"""The parts of wispuddera.report, each by itself: what is read of a line, tallies that forget,
intervals that grow, the rule for suites, text.

It needs no library. `tests/report/run` compares whole pages with their logs.
"""

import io
import json
import random
import sys
from collections import Counter
from pathlib import Path

sys.path.insert(0, str(Path(__file__).resolve().parents[2]))
from tests.support import script  # noqa: E402

script.answer_help(__doc__)
from wispuddera.report import (
    commands, distinct, drawing, offers, suites, tallies, text,
)  # noqa: E402
from wispuddera.report.reading import (
    LONGEST_LINE, OtherFormat, Reader, Unread, other_format,
)  # noqa: E402

START = 1795392000


def read(*lines):
    reader = Reader(
        io.BytesIO(
            b"\n".join(
                line if isinstance(line, bytes) else json.dumps(line).encode() for line in lines
            )
        )
    )
    return reader, list(reader)


def test_fields():
    line = {
        "uid": "C1", "client_version": "TLSv12", "client_supported_versions": ["TLSv13", "TLSv10"],
        "client_ciphers": ["0x1301"], "sni_matches_cert": False, "ts": 1.5,
        "id.orig_h": "192.0.2.1", "id.resp_h": "2001:db8::1", "id.resp_p": 443, "version": "TLSv12",
        "cipher": "0xc02f", "curve": "x25519", "server_name": "a.example", "outcome": "full",
        "resumed": True, "last_alert": "unknown_ca",
        "stop": {"message": "alert", "sender": "client"}, "ja4": "t", "subject": "CN=a",
        "issuer": "CN=b", "not_after": "2026-11-25T12:00:00Z", "san_dns": list("abcdef"),
        "cert_chain_fps": ["00", "11"],
    }
    reader, (it,) = read(line)
    assert (it.uid, it.time, it.client, it.server) == (
        "C1", 1.5, "192.0.2.1", ("2001:db8::1", 443, "[2001:db8::1]:443"),
    )
    assert (it.offered_versions, it.offered_suites, it.has_name) == (
        ("TLSv13", "TLSv10"),
        ("0x1301",),
        False,
    )
    assert (it.version, it.suite, it.group, it.host, it.outcome) == (
        "TLSv12", "TLS_ECDHE_RSA_WITH_AES_128_GCM_SHA256", "x25519", "a.example", "full",
    )
    assert (it.is_resumed, it.alert, it.stop, it.ja4) == (
        True, "unknown_ca", ("alert", "client"), "t",
    )
    assert it.certificate == (
        "00", "00", "CN=a", "CN=b", "2026-11-25T12:00:00Z", 1795608000, False, tuple("abcd"), 6,
    )
    assert not reader.misfits and not reader.unread and reader.cut == 0
    # A suite that a log has by its name is the same, and one that has no name stays as it is.
    for suite in (it.suite, "0x0a0a", "private"):
        assert read({**line, "cipher": suite})[1][0].suite == suite
    reader, (it,) = read({"ts": 0})
    assert it == (None, 0, *[None] * 11, (), (), None, None)
    assert read({"client_version": "TLSv11"})[1][0].offered_versions == ("TLSv11",)
    for fields, is_self_signed in (
        ({"issuer": "CN=a"}, True), ({"issuer": "CN=a", "self_issued": False}, False),
        ({"self_issued": True}, True), ({}, False),
    ):
        it = read({"subject": "CN=a", "not_after": "2026-11-25T12:00:00Z", **fields})[1][0]
        assert (
            it.certificate.is_self_signed == is_self_signed and it.certificate.fingerprint is None
        )


def test_misfits():
    wrong = {
        "ts": "now", "id.orig_h": 1, "id.resp_h": "::1", "id.resp_p": 1.5, "version": [],
        "cipher": {}, "stop": "alert", "resumed": 0, "not_after": "soon",
    }
    reader, (it,) = read(wrong)
    assert it.server == ("::1", None, "::1") and it._replace(server=None) == (
        *[None] * 13, (), (), None, None,
    )
    assert reader.misfits == Counter({name: 1 for name in wrong if name != "id.resp_h"})
    for seconds in (True, -1, text.END_OF_TIME, float("1e300")):
        assert read({"ts": seconds})[1][0].time is None
    assert read({"ts": text.END_OF_TIME - 1})[1][0].time == text.END_OF_TIME - 1
    reader, (it,) = read({"stop": {"message": 1}, "outcome": None})
    assert it.stop == (None, None) and reader.misfits == {"stop.message": 1}
    reader, (it,) = read({"server_name": "x" * 300})
    assert it.host == "x" * 255 + "…" and reader.cut == 1


def test_unread():
    for line, reason in (
        (b"{", Unread.NO_JSON), (b'{"ts":NaN}', Unread.NO_JSON),
        (b'{"server_name":"\xff"}', Unread.NO_JSON), (b"[" * 100000, Unread.NO_JSON),
        (b'{"ts":1', Unread.NO_JSON), (b"[1]", Unread.NO_OBJECT), ({}, Unread.NO_FIELD),
        ({"ts": 1, "side": "client"}, Unread.MESSAGE), (b"x" * (LONGEST_LINE + 1), Unread.TOO_LONG),
        (b"x" * (3 * LONGEST_LINE), Unread.TOO_LONG),
    ):
        reader, found = read({"ts": 1}, line, b"", b" \t", {"ts": 2})
        assert (
            [it.time for it in found] == [1, 2]
            and reader.unread == {reason: 1}
            and reader.lines == 3
        ), (line[:20], reader.unread)
    # A line of exactly the most bytes is read, with its end or without it.
    whole = json.dumps({"ts": 3, "server_name": ""}).encode()
    whole = whole.replace(b'""', b'"' + b"y" * (LONGEST_LINE - len(whole)) + b'"')
    assert (
        len(whole) == LONGEST_LINE
        and [it.time for it in read(whole, {"ts": 4})[1]] == [3, 4]
        and len(read(whole)[1]) == 1
    )
    assert [
        it.time for it in Reader(io.BytesIO(b'{"ts":1}'), io.BytesIO(b""), io.BytesIO(b'{"ts":2}'))
    ] == [1, 2]


def test_other_formats():
    for line, told in (
        (b"ts,uid,version", "comma-separated"),
        (b"#separator \\x09", "Zeek"),
        (b'{"timestamp":"x","event_type":"tls"}', "Suricata"),
        (b'{"@timestamp":"x"}', "Elastic"),
        (b'{"content_type":22,"side":"client"}', "--messages"),
        (b'{"fingerprint":"00","side":"client"}', "--certificates"),
        (b"\xd4\xc3\xb2\xa1\x02\0", "capture"),
        (b"\n\r\r\n", "capture"),
    ):
        assert told in other_format(line), line
        try:
            read(line)
            raise AssertionError(line)
        except OtherFormat as fault:
            assert told in str(fault) and "run tlslog" in str(fault), fault
    for line in (b"{", b'{"ts":1,"side":"client"}', b"x,y", b"", b"[1]", b'{"ts":1}'):
        assert other_format(line) is None, line
    # No line of it is read.
    for line in (b"{", b"x y", b"[]"):
        try:
            read(line)
            raise AssertionError(line)
        except OtherFormat as fault:
            assert "no line" in str(fault)
    assert read()[1] == []


def test_distinct():
    """Beside an exact count: right up to the limit, close beyond it. The room is returned."""
    room = distinct.Room(30000)
    for count in (0, 1, 5000, distinct.EXACT, distinct.EXACT + 1, 30000, 300000):
        counter = distinct.Distinct(room)
        for number in range(count):
            counter.add(f"192.0.{number}")
            counter.add(f"192.0.{number // 2}")
        counter.add(None)
        assert counter.is_exact == (count <= distinct.EXACT)
        assert (
            len(counter) == count
            if counter.is_exact
            else abs(len(counter) - count) < 4 * distinct.ERROR * count
        ), (count, len(counter))
        counter.release()
        assert room.free == 30000
    full = distinct.Distinct(distinct.Room(2))
    for number in range(100):
        full.add(str(number))
    assert not full.is_exact and abs(len(full) - 100) <= 4, len(full)


def test_offers():
    assert offers.old_of(("TLSv13", "TLSv12", "TLSv11", "0x0a0a", "0x0002")) == ("TLSv11", "0x0002")
    weak = (
        "0x0a0a", "0x002f", "TLS_RSA_WITH_RC4_128_SHA", "0x00ff", "TLS_FALLBACK_SCSV", "0x010080",
    )
    assert offers.weak_of(weak) == (
        "TLS_RSA_WITH_AES_128_CBC_SHA",
        "TLS_RSA_WITH_RC4_128_SHA",
        "0x010080",
    )
    for other in ("0xc02f", "TLS_AES_128_GCM_SHA256", "0xfefe", "private"):
        assert offers.weak_of((*weak, other)) == ()
    assert offers.weak_of(()) == offers.weak_of(("0x0a0a", "0x00ff")) == ()


def test_commands():
    of = commands.Commands(["a log", "-x", "-"], True).of
    assert (
        of(commands.equals("server_name", "it's"))
        == "jq -r 'select(.server_name == \"it\\u0027s\") | .uid' 'a log' ./-x LOG"
    )
    assert commands.Commands(["l"], False).of("true") == "jq -c 'select(true)' l"
    assert (
        commands.equals("id.orig_h", None) == '.["id.orig_h"] == null'
        and commands.equals("stop.message", "alert") == '.stop.message == "alert"'
    )
    assert (
        commands.equals("ja4", text.cut("x" * 300)) == f'(.ja4 // "" | startswith("{"x" * 255}"))'
    )
    assert commands.is_one_of("cipher", ["a", "b"]) == '(.cipher | IN("a", "b"))'


def test_tally():
    tally = tallies.Tally(tallies.Entry, 3)
    for value in "aaabbcdefaag":
        tally.add(value)
    # The seventh value has the three that came least often forgotten.
    assert tally.total == 12 and tally.missed == 1
    assert [(key, entry.count, entry.missed) for key, entry in tally.ranked()] == [
        ("a", 5, 0), ("b", 2, 0), ("c", 1, 0), ("g", 1, 1),
    ]


def test_tally_is_near():
    """Compares with exact counts: none is too high, none is too low by more than its error, and no
    frequent value is missing."""
    chance = random.Random(2)
    for most in (1, 2, 7, 50):
        tally, exact = tallies.Tally(tallies.Entry, most), Counter()
        for number in range(5000):
            value = chance.choice([chance.randrange(5), chance.randrange(60), number])
            exact[value] += 1
            tally.add(value)
        assert (
            len(tally.entries) <= 2 * most and tally.total == 5000 and tally.missed <= 5000 / most
        )
        for value, count in exact.items():
            entry = tally.entries.get(value)
            assert (
                count <= tally.missed
                if entry is None
                else entry.count <= count <= entry.count + entry.missed
            ), (most, value)


def test_values():
    values = ()
    for number in range(40):
        values = tallies.with_value(tallies.with_value(values, str(number // 2)), None)
    assert values == tuple(map(str, range(tallies.FEW + 1)))


def test_soonest():
    soonest = tallies.Soonest(2)
    for end in (5, 9, 3, 8, 1, 7, 2, 9):
        soonest.entry(f"ends {end}", end, lambda: end)
    # The fifth had those two forgotten that end last; what ends later than the rest then isn't
    # taken.
    assert [item for _, item in soonest.ranked()] == [1, 2, 3, 5] and soonest.latest == 5


def test_timeline():
    chance = random.Random(2)
    for span in (1, 100, 1000, 10**5, 10**7, text.END_OF_TIME - 1):
        line, times = tallies.Timeline(2), [chance.random() * span for _ in range(500)]
        for place, seconds in enumerate(times):
            line.add(seconds, place % 2)
        wanted = Counter(
            (int(seconds) // line.step, place % 2) for place, seconds in enumerate(times)
        )
        assert {
            (at, kind): count
            for at, counts in line.intervals.items()
            for kind, count in enumerate(counts)
            if count
        } == wanted
        assert line.last - line.first < line.MOST and (line.first, line.last) == (
            min(line.intervals),
            max(line.intervals),
        )
        drawing.timeline("x", "x", line, (drawing.Series("a", "a"), drawing.Series("b", "b")))
    assert (
        all(large % small == 0 for small, large in zip(line.STEPS, line.STEPS[1:]))
        and text.END_OF_TIME // line.STEPS[-1] < line.MOST
    )


def test_scale():
    for highest in (*range(0, 2000), 10**6, 10**6 + 1, 10**12):
        top, marks = drawing.scale(highest)
        assert (
            highest <= top <= max(2.5 * highest, 1)
            and marks[0] == 0
            and marks[-1] == top
            and len(marks) <= 7
        )


def test_suites():
    reasons = lambda name: [fault.reason for fault in suites.faults_of(name)]  # noqa: E731
    for number, name, wanted in (
        ("0x1301", "TLS_AES_128_GCM_SHA256", []),
        ("0xc02f", "TLS_ECDHE_RSA_WITH_AES_128_GCM_SHA256", []),
        ("0xcca8", "TLS_ECDHE_RSA_WITH_CHACHA20_POLY1305_SHA256", []),
        ("0xc0b4", "TLS_SHA256_SHA256", ["no encryption"]),
        ("0x0000", "TLS_NULL_WITH_NULL_NULL", ["no encryption"]),
        ("0x003b", "TLS_RSA_WITH_NULL_SHA256", ["no encryption", "no forward secrecy"]),
        ("0x0018", "TLS_DH_anon_WITH_RC4_128_MD5", ["no authentication", "RC4", "MD5"]),
        (
            "0x0003",
            "TLS_RSA_EXPORT_WITH_RC4_40_MD5",
            ["export key length", "RC4", "MD5", "no forward secrecy"],
        ),
        (
            "0x0014",
            "TLS_DHE_RSA_EXPORT_WITH_DES40_CBC_SHA",
            ["export key length", "DES", "CBC with SHA-1"],
        ),
        ("0x0015", "TLS_DHE_RSA_WITH_DES_CBC_SHA", ["DES", "CBC with SHA-1"]),
        ("0xc012", "TLS_ECDHE_RSA_WITH_3DES_EDE_CBC_SHA", ["3DES", "CBC with SHA-1"]),
        ("0x0007", "TLS_RSA_WITH_IDEA_CBC_SHA", ["IDEA", "CBC with SHA-1", "no forward secrecy"]),
        ("0xc014", "TLS_ECDHE_RSA_WITH_AES_256_CBC_SHA", ["CBC with SHA-1"]),
        ("0xc027", "TLS_ECDHE_RSA_WITH_AES_128_CBC_SHA256", []),
        ("0xc031", "TLS_ECDH_RSA_WITH_AES_128_GCM_SHA256", ["no forward secrecy"]),
        ("0x00a8", "TLS_PSK_WITH_AES_128_GCM_SHA256", ["no forward secrecy"]),
        ("0xd001", "TLS_ECDHE_PSK_WITH_AES_128_GCM_SHA256", []),
        (
            "0x0062",
            "TLS_RSA_EXPORT1024_WITH_DES_CBC_SHA",
            ["export key length", "DES", "CBC with SHA-1", "no forward secrecy"],
        ),
    ):
        assert (
            suites.name_of(number) == name
            and suites.number_of_suite(name) == number
            and reasons(name) == wanted
        ), (name, reasons(name))
    forbidden = {fault.reason for fault in suites.FAULTS if fault.is_forbidden}
    assert forbidden == {"no encryption", "no authentication", "export key length", "RC4", "DES"}
    assert (
        suites.name_of("0x0a0a") == "0x0a0a"
        and not suites.is_judged("0x0a0a")
        and reasons("AES128-SHA") == []
    )


def test_versions():
    old = ("SSLv3", "TLSv10", "TLSv11", "DTLSv10", "0x0002", "0x0100")
    new = ("TLSv12", "TLSv13", "DTLSv12", "DTLSv13", "0x7f1c", "0x0305", "0xfefc", "0x03", "other")
    assert all(map(suites.is_old, old)) and not any(map(suites.is_old, new))
    assert suites.in_order(("0x7f1c", "DTLSv12", "TLSv10", "TLSv13")) == [
        "TLS 1.3", "TLS 1.0", "DTLS 1.2", "0x7f1c",
    ]


def test_text():
    assert text.escaped("<a href='x'>&\"") == "&lt;a href=&#x27;x&#x27;&gt;&amp;&quot;"
    assert (
        text.plain("a\0\x1b\x85\u202e\ud800\u0301é€")
        == "a\\x00\\x1b\\x85\\u{202e}\\u{d800}\\u{301}é€"
    )
    assert [text.plain(value) for value in ("", " ", "  a b ", "\0 ")] == [
        "", "\\x20", "\\x20\\x20a b\\x20", "\\x00\\x20",
    ]
    assert text.cut("x" * 256) == "x" * 256 and text.cut("x" * 257) == "x" * 255 + "…"
    shares = [text.share(part, 10000) for part in (0, 1, 9, 10, 1234, 9990, 9991, 9999, 10000)]
    assert (
        shares == ["0.0%", "<0.1%", "<0.1%", "0.1%", "12.3%", "99.9%", ">99.9%", ">99.9%", "100.0%"]
        and text.share(0, 0) == "–"
    )
    assert [text.duration(seconds) for seconds in (0, 59.9, 60, 3600, 90061, 10**9)] == [
        "0 s", "59 s", "1 min", "1 h", "1 d 1 h", "11,574 d 1 h",
    ]
    assert (
        text.time(START) == "2026-11-23 00:00:00" and text.day(text.END_OF_TIME - 1) == "9999-12-31"
    )
    assert text.counted(1, "line") == "1 line" and text.counted(1234, "line") == "1,234 lines"
    assert (
        text.seconds_of("1970-01-01T00:00:01Z") == 1
        and text.seconds_of("0001-01-01T00:00:00Z") == -62135596800
    )
    for wrong in (
        "", "2026-02-30T00:00:00Z", "2026-01-01T24:00:00Z", "2026-01-01",
        "2026-01-01T00:00:00+01:00", "2026-01-01T00:00:00Z\n",
    ):
        assert text.seconds_of(wrong) is None and text.seconds_of(f"２{wrong[1:]}") is None, wrong


def main():
    tests = [test for name, test in globals().items() if name.startswith("test_")]
    for test in tests:
        test()
    print(f"report: {len(tests)} tests of its parts pass")


if __name__ == "__main__":
    main()
