"""`wispuddera.log`: its objects have the fields of docs/TLSLOG.md and the values of the stored
lines, and its errors have the program's message.

A short script replaces tlslog and prints the stored lines. If `rt ci` has built tlslog, it is run
on the stored captures too.
"""

import dataclasses
import io
import itertools
import json
import os
import pathlib
import re
import signal
import subprocess
import sys
import tempfile
import threading
import time
import typing
from pathlib import Path

sys.path.insert(0, str(Path(__file__).resolve().parents[2]))
from tests.support import script  # noqa: E402

script.answer_help(__doc__)
import wispuddera as w  # noqa: E402

TOP = pathlib.Path(__file__).resolve().parents[2]
LINES = (TOP / "crates/tlslog/stdout").read_bytes().splitlines()
FIELDS = {f.name: f for f in dataclasses.fields(w.Connection)}
TYPES = typing.get_type_hints(w.Connection) if sys.version_info >= (3, 9) else {}


def stand_in(folder, body, name="tlslog"):
    path = pathlib.Path(folder) / name
    path.write_text(f"#!{sys.executable}\nimport sys\n{body}\n")
    path.chmod(0o755)
    return path


def fits(value, wanted):
    """Whether a value has the type that is declared for its field."""
    kinds = typing.get_args(wanted) if typing.get_origin(wanted) is typing.Union else (wanted,)
    for kind in kinds:
        if typing.get_origin(kind) is list:
            if isinstance(value, list) and all(type(x) is typing.get_args(kind)[0] for x in value):
                return True
        elif type(value) is kind or (kind is float and type(value) is int):
            return True
    return False


def is_line(connection, line):
    values = json.loads(line)
    assert connection.more == {}, connection.more
    for name, value in values.items():
        found = getattr(connection, name.replace(".", "_"))
        assert (dataclasses.asdict(found) if name == "stop" else found) == value, name
        assert fits(found, TYPES[name.replace(".", "_")]), (name, value)
    absent = FIELDS.keys() - {name.replace(".", "_") for name in values} - {"more"}
    assert all(getattr(connection, name) is None for name in absent)


def test_fields_of_the_page():
    page = (TOP / "docs/TLSLOG.md").read_text()
    table = page[page.index("<!-- made by docs/fields: connections -->") :].split("<!-- end -->")[0]
    named = [
        name
        for row in re.findall(r"^\| (`.*?) \|", table, re.M)
        for name in re.findall(r"`([^`]+)`", row)
    ]
    assert [name.replace(".", "_") for name in named] == [name for name in FIELDS if name != "more"]


def test_stored_lines():
    for line in LINES:
        is_line(w.Connection.of_line(line), line)
    assert sum(w.Connection.of_line(line).stop is not None for line in LINES) > 0
    line = (
        b'{"ts":1.5,"uid":"C","id.orig_h":"a","id.orig_p":1,"id.resp_h":"b","id.resp_p":2,'
        b'"proto":"tcp","new.field":[3]}'
    )
    assert w.Connection.of_line(line).more == {"new.field": [3]}
    for wrong in (b"[]", b'{"ts":1.5}', b"{"):
        try:
            w.Connection.of_line(wrong)
        except ValueError:
            continue
        raise AssertionError(wrong)


def test_program():
    with tempfile.TemporaryDirectory() as folder:
        stored = TOP / "crates/tlslog/stdout"
        program = stand_in(folder, f"sys.stdout.write(open({str(stored)!r}).read())")
        connections = list(w.log("a.pcap", program=program))
        assert len(connections) == len(LINES)
        for connection, line in zip(connections, LINES):
            is_line(connection, line)
        # It is found in PATH and gets its arguments.
        stand_in(
            folder,
            "import json\nprint(json.dumps({'ts': 1, 'uid': 'C', 'id.orig_h': '', 'id.orig_p': 1, "
            "'id.resp_h': '', 'id.resp_p': 1, 'proto': 'tcp', 'words': sys.argv[1:]}))",
        )
        before = os.environ["PATH"]
        os.environ["PATH"] = folder
        try:
            (told,) = w.log(
                "-a.pcap", pathlib.Path("b.pcap"), ciphers="suites.txt", checksums="ignore"
            )
        finally:
            os.environ["PATH"] = before
        assert told.more["words"] == [
            "--format", "json", "--ciphers", "suites.txt", "--checksums", "ignore", "--", "-a.pcap",
            "b.pcap",
        ]


WORDS = """import json
print(json.dumps({'ts': 1, 'uid': 'C', 'id.orig_h': '', 'id.orig_p': 1, 'id.resp_h': '',
                  'id.resp_p': 1, 'proto': 'tcp', 'words': sys.argv[1:]}))"""


def test_options():
    with tempfile.TemporaryDirectory() as folder:
        program = stand_in(folder, WORDS)
        front = ["--format", "json"]
        for options, words in (
            ({"memory": "64M", "join": True}, ["--memory", "64M", "--join"]),
            ({"memory": 1 << 26}, ["--memory", "67108864"]),
            ({"fields": ["ts", "uid"]}, ["--fields", "ts,uid"]),
            ({"fields": "ts"}, ["--fields", "ts"]),
        ):
            (told,) = w.log("a.pcap", program=program, **options)
            assert type(told) is w.Connection and told.more["words"] == [
                *front, *words, "--", "a.pcap",
            ], told
        for options, words in (
            ({"messages": True}, ["--messages"]),
            ({"certificates": True, "fields": "ts"}, ["--fields", "ts", "--certificates"]),
        ):
            (told,) = w.log("a.pcap", program=program, **options)
            assert type(told) is dict and told["words"] == [*front, *words, "--", "a.pcap"], told
        (told,) = w.log(
            "a.pcap",
            program=stand_in(folder, """print('{"version":"TLSv12","id.resp_p":443}')"""),
            fields="version,id.resp_p",
        )
        assert (told.version, told.id_resp_p, told.ts, told.uid, told.more) == (
            "TLSv12", 443, None, None, {},
        )
        for wrong in ({"messages": True, "certificates": True},):
            try:
                w.log("a.pcap", program=program, **wrong)
                raise AssertionError(wrong)
            except ValueError:
                pass
        try:
            w.log(io.BytesIO(b""), "b.pcap", program=program)
            raise AssertionError("an open capture beside another")
        except ValueError:
            pass


def test_streams():
    """The program reads an open file on its standard input, whatever its size, from the file's
    current position."""
    with tempfile.TemporaryDirectory() as folder:
        program = stand_in(folder, "print('{\"bytes\":%d}' % len(sys.stdin.buffer.read()))")
        capture = pathlib.Path(folder) / "capture"
        capture.write_bytes(bytes(3_000_001))

        def count(source):
            (told,) = w.log(source, program=program, fields="bytes")
            return told.more["bytes"]

        assert count(io.BytesIO(bytes(1_000_000))) == 1_000_000
        with capture.open("rb") as opened:
            opened.read(1)
            assert count(opened) == 3_000_000
        with subprocess.Popen(["cat", capture], stdout=subprocess.PIPE) as writer:
            assert count(writer.stdout) == 3_000_001
        # A program that ends before its input does.
        assert list(w.log(io.BytesIO(bytes(1_000_000)), program=stand_in(folder, ""))) == []


def test_interrupts():
    """Ctrl-C ends a stream: what is open then comes, and the loop ends. Where a file is read it is
    raised."""
    with tempfile.TemporaryDirectory() as folder:
        line = LINES[0].decode()
        program = stand_in(
            folder,
            f"print({line!r}, flush=True)\nsys.stdin.buffer.read()\nprint({line!r})\nsys.exit(1)",
        )
        with subprocess.Popen(["sleep", "60"], stdout=subprocess.PIPE) as writer:
            found, timer = [], threading.Timer(1, os.kill, [os.getpid(), signal.SIGINT])
            for connection in w.log(writer.stdout, program=program):
                found.append(connection)
                if len(found) == 1:
                    timer.start()
            writer.kill()
        assert len(found) == 2
        for connection in found:
            is_line(connection, line)
        threading.Timer(1, os.kill, [os.getpid(), signal.SIGINT]).start()
        begun = time.monotonic()
        try:
            list(w.log("a.pcap", program=stand_in(folder, "import time\ntime.sleep(60)")))
            raise AssertionError("no Ctrl-C")
        except KeyboardInterrupt:
            assert time.monotonic() - begun < 30


def test_errors():
    with tempfile.TemporaryDirectory() as folder:
        line = LINES[0].decode()
        program = stand_in(
            folder,
            f"print({line!r})\nsys.stderr.write('tlslog: a.pcap: no capture\\n' * 20000)\n"
            "sys.exit(2)",
        )
        connections = w.log("a.pcap", program=program)
        is_line(next(connections), line)
        try:
            next(connections)
            raise AssertionError("no error")
        except w.LogError as e:
            assert (
                e.status == 2
                and e.message.startswith("tlslog: a.pcap: no capture\n")
                and "status 2" in str(e)
            )
        try:
            list(
                w.log(
                    "a.pcap",
                    program=stand_in(
                        folder, "import os, signal\nos.kill(os.getpid(), signal.SIGKILL)"
                    ),
                )
            )
            raise AssertionError("no error")
        except w.LogError as e:
            assert e.status == -9 and "SIGKILL" in str(e)
        # Closed early it is ended, and a program without an end too.
        endless = w.log("a.pcap", program=stand_in(folder, f"while True:\n    print({line!r})"))
        assert len(list(itertools.islice(endless, 3))) == 3
        endless.close()
        for missing in ({"program": pathlib.Path(folder) / "none"}, {}):
            before = os.environ["PATH"]
            os.environ["PATH"] = str(pathlib.Path(folder) / "nowhere")
            try:
                list(w.log("a.pcap", **missing))
                raise AssertionError("no error")
            except FileNotFoundError:
                pass
            finally:
                os.environ["PATH"] = before


def test_built_program():
    program = TOP / "crates/tlslog/out/tlslog"
    if not program.exists():
        print("log: tlslog isn't built, so only a stand-in was run")
        return
    captures = [
        TOP / "crates/tlslog" / word for word in (TOP / "crates/tlslog/args").read_text().split()
    ]
    captures = [
        path if path.exists() else TOP / "crates/tlslog/data" / path.name for path in captures
    ]
    connections = list(w.log(*captures, program=program))
    assert len(connections) == len(LINES)
    for connection, line in zip(connections, LINES):
        is_line(connection, line)
    try:
        list(w.log(TOP / "README.md", program=program))
        raise AssertionError("no error")
    except w.LogError as e:
        assert e.status != 0 and e.message


# (a job that a shell has put into the background ignores it)
signal.signal(signal.SIGINT, signal.default_int_handler)
tests = [test for name, test in sorted(globals().items()) if name.startswith("test_")]
for test in tests:
    test()
print(f"log: {len(tests)} tests passed")
