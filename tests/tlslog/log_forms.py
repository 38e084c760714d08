"""Compares tlslog's options, and the commands of docs/REPORT.md and SCALE.md, with the stored
lines.
"""

from __future__ import annotations

import csv
import io
import json
import re
import shlex
import shutil
import subprocess
from collections import Counter
from collections.abc import Callable, Iterable
from dataclasses import replace
from pathlib import Path
from typing import Any

from tests.oracle import exchange_fields
from tests.support import identifiers, packets, suite_names
from tests.tlslog import other_formats
from tests.support.shapes import Ask, Line

TOP = Path(__file__).resolve().parents[2]
# Some suites by names of our own, and one by the registry's.
SUITES = """
# A list of suites.
009c:RSA-with-AES:RSA:RSA:AES
1302:our AES:TLS13

c02f:TLS_ECDHE_RSA_WITH_AES_128_GCM_SHA256
00ff:SCSV:
"""
OF_MESSAGES = "ts uid id.orig_h id.orig_p id.resp_h id.resp_p proto side place content_type name message".split()
CHANGE, ALERT, HANDSHAKE, HEARTBEAT = 20, 21, 22, 24
# More than are kept of a kind.
MANY = 100
# What begins a formula in a spreadsheet.
FORMULA = ("=", "+", "-", "@", "\t", "\r")
NAMES = [b"=1+1", b"+1", b"-1", b"--", b"@SUM(A1)", b"1=2", b"a-b", b"[=1]"]
# What another suite, and what another serial number, changes in a line.
OF_SUITES = "client_ciphers ja3 ja3_string ja4".split()
OF_SERIAL = "serial cert_chain_fps".split()


class Wrong(Exception):
    """What a check found."""


def want(is_so: object, *words: object) -> None:
    if not is_so:
        raise Wrong(" ".join(map(str, words)))


def with_suites(lines: list[Line], text: Callable[[str], str]) -> list[Line]:
    """The lines with another text for each suite."""
    fields = {"cipher": text, "client_ciphers": lambda suites: list(map(text, suites))}
    return [
        {field: fields.get(field, lambda v: v)(value) for field, value in line.items()}
        for line in lines
    ]


def with_numbers(message: Line) -> Line:
    """A message's line with the number of each suite of its hello, which is a name of tshark's, or a number already."""
    body = message.get("message", {}).get("body")
    if not isinstance(body, dict):
        return message
    if "cipher_suites" in body:
        body["cipher_suites"] = list(map(suite_names.numbered, body["cipher_suites"]))
    if "cipher_suite" in body:
        body["cipher_suite"] = suite_names.numbered(body["cipher_suite"])
    return message


def own_name(suite: str) -> str:
    """The name that the list has for a suite, or else what it is called without one."""
    names = dict(line.split(":")[:2] for line in SUITES.splitlines() if line and line[0] != "#")
    return names.get(suite_names.numbered(suite)[2:], suite)


def as_text(value: Any, is_raw: bool = False) -> str:
    """A value as comma-separated values have it: a text that a spreadsheet takes for a formula has
    a mark in front, if it isn't asked for as it is."""
    if not isinstance(value, str):
        return json.dumps(value, separators=(",", ":"))
    return f"'{value}" if value.startswith(FORMULA) and not is_raw else value


def records(text: str) -> list[list[str]]:
    return list(csv.reader(io.StringIO(text, newline=""), strict=True))


def fields(ask: Ask, files: list[Path], lines: list[Line]) -> int:
    """Each field alone, all in another order, and all as comma-separated values: the values are
    those of the lines. Each is in docs/TLSLOG.md."""
    status, text, _ = ask(["--format", "csv", *files])
    names, *rows = records(text)
    want(status == 0 and len(rows) == len(lines), "csv:", status, len(rows))
    for line, row in zip(lines, rows):
        want(
            row == [as_text(line[name]) if name in line else "" for name in names],
            "csv:",
            line,
            row,
        )
    want(
        {name for line in lines for name in line} <= {*names},
        "csv has no column for a field of a line",
    )
    page = (TOP / "docs" / "TLSLOG.md").read_text()
    lacking = [name for name in names if f"`{name}`" not in page]
    want(not lacking, "docs/TLSLOG.md doesn't have", lacking)
    for name in names:
        status, text, _ = ask(["--fields", name, *files])
        wanted = [{name: line[name]} if name in line else {} for line in lines]
        want(
            status == 0 and [json.loads(row) for row in text.splitlines()] == wanted,
            "the field",
            name,
            status,
            text[-300:],
        )
    status, text, _ = ask(["--fields", ",".join(reversed(names)), *files])
    for line, row in zip(lines, text.splitlines()):
        want(
            list(json.loads(row).items())
            == [(name, line[name]) for name in reversed(names) if name in line],
            "another order:",
            row,
        )
    return len(names)


def suites(ask: Ask, files: list[Path], lines: list[Line], room: Path) -> None:
    """A list of suites, with numbers and with names for the others, numbers alone, also of messages,
    which no list names, and what is no list."""
    good, bad = room / "suites", room / "no-suites"
    good.write_text(SUITES)
    bad.write_text("TLS_AES_128_GCM_SHA256\n")
    for words, other in (
        (["--ciphers", good], own_name),
        (["--numbers"], suite_names.numbered),
        (["--ciphers", good, "--numbers"], lambda suite: own_name(suite_names.numbered(suite))),
    ):
        status, text, _ = ask([*words, *files])
        want(
            status == 0
            and [json.loads(row) for row in text.splitlines()] == with_suites(lines, other),
            *words,
            status,
            text[-300:],
        )
    _, named, _ = ask(["--messages", *files])
    numbered = [with_numbers(json.loads(row)) for row in named.splitlines()]
    for words, wanted_messages in (
        (["--numbers"], numbered),
        (["--numbers", "--ciphers", good], numbered),
        (["--ciphers", good], list(map(json.loads, named.splitlines()))),
    ):
        status, text, _ = ask(["--messages", *words, *files])
        want(
            status == 0 and [json.loads(row) for row in text.splitlines()] == wanted_messages,
            "--messages",
            *words,
            status,
            text[-300:],
        )
    for words, wanted in [
        (["--ciphers", bad], 2),
        (["--ciphers", room / "none"], 3),
        (["--fields", "no_such_field"], 2),
        (["--fields", "ts,ts"], 2),
        (["--fields", ""], 2),
        (["--messages", "--fields", "version"], 2),
        (["--format", "xml"], 2),
        (["--format"], 2),
    ]:
        status, text, told = ask([*words, *files])
        want((status, text) == (wanted, "") and told, *words, "status", status, text, told)


def formulas(ask: Ask, file: Path, room: Path) -> int:
    """Names that a spreadsheet takes for formulas have a mark in front as comma-separated values,
    but with --csv-raw; no other name has one, nor a number."""
    files = []
    for number, name in enumerate(NAMES):
        files.append(room / f"formula-{number}.pcap")
        files[-1].write_bytes(
            other_formats.with_hello(file, other_formats.hello(name, [b"=h2", name]))
        )
    status, text, _ = ask(files)
    lines = [json.loads(row) for row in text.splitlines()]
    want(
        status == 0
        and [line["server_name"] for line in lines] == [name.decode() for name in NAMES],
        "names as formulas:",
        status,
        text[-300:],
    )
    for is_raw in (False, True):
        status, text, _ = ask(["--format", "csv", *["--csv-raw"][: int(is_raw)], *files])
        names, *rows = records(text)
        wanted = [
            [as_text(line[name], is_raw) if name in line else "" for name in names]
            for line in lines
        ]
        want(status == 0 and rows == wanted, "formulas as csv:", is_raw, text[-300:])
    marked = [name for name in NAMES if as_text(name.decode()) != name.decode()]
    want(len(marked) == 5, "names with a mark:", marked)
    return len(NAMES)


def key(message: Line) -> tuple[int, str]:
    return message["id.orig_p"], message["side"]


def messages(ask: Ask, files: list[Path]) -> tuple[int, int]:
    """Compares the messages and their times with those of tshark, in `captures/messages`. Each has
    its place, and all have their fields as comma-separated values too. The fields of key
    exchanges, signatures and pre-shared keys are tshark's, in `captures/exchanges`."""
    wanted = Counter((TOP / "captures" / "messages").read_text().splitlines())
    fields_wanted = Counter((TOP / "captures" / "exchanges").read_text().splitlines())
    found, fields_found, places, rows = Counter(), Counter(), Counter(), []
    for file in files:
        status, text, _ = ask(["--messages", file])
        want(status == 0, "--messages", file, status)
        said = [json.loads(row) for row in text.splitlines()]
        fields_found.update(exchange_fields.lines(Path(file).stem, said))
        rows += said
        for message in said:
            want(
                list(message) == [field for field in OF_MESSAGES if field in message],
                "fields of a message:",
                *message,
            )
            want(message["place"] == places[file, *key(message)], "the place of", message)
            places[file, *key(message)] += 1
            told, kind = message.get("message"), message["content_type"]
            front = (
                f"{Path(file).stem} {message['id.orig_p']} {message['side']} {message['ts']:.6f}"
            )
            if kind == HANDSHAKE:
                found[f"{front} {told['msg_type']} {told['length']}"] += 1
            elif kind == ALERT:
                found[f"{front} alert {told['level']} {told['description']}"] += 1
            else:
                want(kind in (CHANGE, HEARTBEAT), "a message of the type", kind)
    want(
        found == wanted,
        "messages that tshark hasn't:",
        found - wanted,
        "messages that it has:",
        wanted - found,
    )
    want(
        fields_found == fields_wanted,
        "fields that tshark hasn't:",
        fields_found - fields_wanted,
        "that it has:",
        fields_wanted - fields_found,
    )
    status, text, _ = ask(["--messages", "--format", "csv", *files])
    names, *others = records(text)
    want(
        status == 0 and names == OF_MESSAGES and len(others) == len(rows),
        "messages as csv:",
        status,
        names,
    )
    for message, row in zip(rows, others):
        want(
            row == [as_text(message[name]) if name in message else "" for name in names],
            "csv:",
            message,
            row,
        )
    return len(rows), fields_found.total()


def ends(line: Line) -> tuple[Any, ...]:
    return tuple(line[f"id.{end}"] for end in ("orig_h", "orig_p", "resp_h", "resp_p"))


def identified(ask: Ask, files: list[Path], lines: list[Line]) -> int:
    """Each stored line has the identifiers that hashlib makes, and those of messages and
    certificates have the uid of their connection."""
    for line in lines:
        want(
            list(line.items()) == list(identifiers.of_connection(line).items()),
            "identifiers:",
            line,
            "wanted are",
            identifiers.of_connection(line),
        )
    uids = Counter((*ends(line), line["uid"]) for line in lines)
    want(len({uid for *_, uid in uids}) == len(lines), "two connections have the same uid")
    count = 0
    for kind in ("--messages", "--certificates"):
        status, text, _ = ask(
            [kind, "--fields", "uid,id.orig_h,id.orig_p,id.resp_h,id.resp_p", *files]
        )
        found = [json.loads(row) for row in text.splitlines()]
        want(
            status == 0 and found and all((*ends(line), line["uid"]) in uids for line in found),
            kind,
            "uid",
            status,
        )
        count += len(found)
    return count


def counted(values: Iterable[Any]) -> list[str]:
    return sorted(f"{count} {value}" for value, count in Counter(values).items())


def wanted_of_uses(lines: list[Line]) -> dict[str, list[str] | None]:
    """What each use prints, in any order, from the lines."""
    plain = lambda line: json.dumps(line, separators=(",", ":"))  # noqa: E731
    only = lambda line, *names: plain(
        {name: line[name] for name in names if name in line}
    )  # noqa: E731
    chains = {
        (line["id.resp_h"], str(line["id.resp_p"]), line["cert_chain_fps"][0])
        for line in lines
        if "cert_chain_fps" in line
    }
    servers = Counter(chain[:2] for chain in chains)
    said = [line.split() for line in (TOP / "captures" / "messages").read_text().splitlines()]
    return {
        "hosts": counted(line["server_name"] for line in lines if "server_name" in line),
        "changed their certificate": sorted(
            "\t".join(server) for server, count in servers.items() if count > 1
        ),
        "cipher suites": counted(line["cipher"] for line in lines if "cipher" in line),
        "client programs": counted(only(line, "ja4", "ja3") for line in lines),
        "resumed": counted(only(line, "version", "resumed") for line in lines),
        "asked for a certificate": sorted(
            plain([line["id.orig_h"], line["id.resp_h"], line.get("client_cert_count")])
            for line in lines
            if "client_cert_requested" in line
        ),
        "in a retry": counted(
            line["server_key_share_group"] for line in lines if "retried" in line
        ),
        "which messages": sorted(f"{row[2]}\t{row[4]}" for row in said if row[1] == "54368"),
        "spreadsheet": None,
    }


# The names of handshake messages and their numbers, as far as the uses show them.
NUMBERS = {
    "client_hello": 1,
    "server_hello": 2,
    "new_session_ticket": 4,
    "certificate": 11,
    "server_key_exchange": 12,
    "certificate_request": 13,
    "server_hello_done": 14,
    "certificate_verify": 15,
    "client_key_exchange": 16,
}


def printed(what: str, text: str) -> list[str]:
    rows = [re.sub(r"^ +(\d+) ", r"\1 ", row) for row in text.splitlines()]
    if what != "which messages":
        return sorted(rows)
    rows = [row.split("\t") for row in rows]
    return sorted(f"{side}\t{NUMBERS[name]}" for side, name in rows if name in NUMBERS)


def uses(program: Path, files: list[Path], lines: list[Line], room: Path) -> int:
    """Runs the commands of docs/REPORT.md."""
    if not shutil.which("jq"):
        print("tlslog: there is no jq: the commands of docs/REPORT.md weren't run")
        return 0
    rows = re.findall(
        r"^\| (.*?) \| `(\./tlslog .*)` \|$", (TOP / "docs" / "REPORT.md").read_text(), re.M
    )
    wanted = wanted_of_uses(lines)
    want(len(rows) == len(wanted), len(rows), "commands in docs/REPORT.md")
    for what, command in rows:
        shell = command.replace("\\|", "|").replace("./tlslog", shlex.quote(str(program)))
        shell = shell.replace("capture.pcap", " ".join(shlex.quote(str(file)) for file in files))
        ran = subprocess.run(
            ["bash", "-c", "set -o pipefail\n" + shell],
            stdout=subprocess.PIPE,
            stderr=subprocess.PIPE,
            text=True,
        )
        [(short, rows_wanted)] = [(short, rows) for short, rows in wanted.items() if short in what]
        want(ran.returncode == 0, what, ran.returncode, ran.stderr[-300:])
        if rows_wanted is None:
            want(len(records(ran.stdout)) == len(lines) + 1, what, ran.stdout[-300:])
        else:
            want(
                rows_wanted and printed(short, ran.stdout) == rows_wanted,
                what,
                ran.stdout[-500:],
                rows_wanted,
            )
    return len(rows)


def many_captures(program: Path, ask: Ask, files: list[Path], room: Path) -> int:
    """Runs the command of docs/SCALE.md on many captures."""
    [command] = re.findall(r"^    (printf .*)$", (TOP / "docs" / "SCALE.md").read_text(), re.M)
    folder = room / "many"
    folder.mkdir()
    for file in files:
        shutil.copy(file, folder / f"a {file.name}")
    shell = command.replace("./tlslog", shlex.quote(str(program)))
    ran = subprocess.run(
        ["bash", "-c", "set -o pipefail\n" + shell],
        cwd=folder,
        stderr=subprocess.PIPE,
        text=True,
        check=False,
    )
    want(ran.returncode == 0, command, ran.returncode, ran.stderr[-300:])
    for file in files:
        text = (folder / f"a {file.name}.json").read_text()
        want(text == ask([file])[1], command, file.name, text[-300:])
    shutil.rmtree(folder)
    return len(files)


def begins_with_hello(s: packets.Segment) -> bool:
    return s.payload[:1] == b"\x16" and s.payload[5:6] == b"\x01"


def suites_of(payload: bytes) -> int:
    """The place of the first cipher suite of a ClientHello (RFC 8446, section 4.1.2)."""
    at = 5 + 4 + 2 + 32
    return at + 1 + payload[at] + 2


def with_suite(s: packets.Segment, number: int) -> packets.Segment:
    """The segment, where it begins with a ClientHello with another suite in the place of the
    first."""
    if not begins_with_hello(s):
        return s
    at = suites_of(s.payload)
    return replace(s, payload=s.payload[:at] + number.to_bytes(2, "big") + s.payload[at + 2 :])


def with_compression(s: packets.Segment, number: int) -> packets.Segment:
    """Returns the hello with another compression method."""
    if not begins_with_hello(s):
        return s
    at = suites_of(s.payload)
    at += int.from_bytes(s.payload[at - 2 : at], "big") + 1
    return replace(s, payload=s.payload[:at] + bytes([number]) + s.payload[at + 1 :])


def others(
    ask: Ask, file: Path, room: Path, change: Callable[[packets.Segment, int], packets.Segment]
) -> list[Line]:
    """The lines of a capture of one connection that is changed by each of this many numbers, twice in
    one run."""
    made = []
    for number in range(MANY):
        made.append(room / f"{number}.pcap")
        made[-1].write_bytes(
            packets.pcap(
                [(s.time, change(s, number).frame()) for s in packets.read(file.read_bytes())]
            )
        )
    status, text, _ = ask([*made, *made])
    rows = [json.loads(row) for row in text.splitlines()]
    want(status == 0 and len(rows) == 2 * MANY, "changed", file, status, len(rows))
    want(rows[:MANY] == rows[MANY:], "changed", file, "not the same when it comes again")
    return rows[:MANY]


def told_again(ask: Ask, files: list[Path], lines: list[Line], room: Path) -> int:
    """Lines with a list or a certificate that an earlier line had: all captures twice in one run,
    fields of certificates one by one, and more suites, compression methods and certificates than
    are cached."""
    status, text, _ = ask([*files, *files])
    want(
        status == 0 and [json.loads(row) for row in text.splitlines()] == [*lines, *lines],
        "twice in one run:",
        status,
        text[-300:],
    )
    for names in (
        "subject ts issuer serial client_issuer",
        "client_subject subject client_issuer",
        "client_ciphers sigalgs",
        "ts ssl_client_exts",
        "client_comp_methods point_formats psk_key_exchange_modes",
        "client_curves client_key_share_groups id.orig_h client_comp_methods",
    ):
        status, text, _ = ask(["--fields", names.replace(" ", ","), *files])
        wanted = [[(name, line[name]) for name in names.split() if name in line] for line in lines]
        want(
            status == 0 and [list(json.loads(row).items()) for row in text.splitlines()] == wanted,
            names,
            status,
            text[-300:],
        )
    [(file, line)] = [
        (file, line)
        for file in files
        if file.stem == "openssl_rsa"
        for line in lines_of(ask, file)[:1]
    ]
    for number, row in enumerate(others(ask, file, room, with_suite)):
        want(
            row["client_ciphers"] == [suite_names.suite_name(number), *line["client_ciphers"][1:]],
            "suites:",
            row,
        )
        want(without(OF_SUITES, row) == without(OF_SUITES, line), "another suite:", row)
    for number, row in enumerate(others(ask, file, room, with_compression)):
        want(row["client_comp_methods"] == [number], "compression methods:", number, row)
        want(
            without(["client_comp_methods"], row) == without(["client_comp_methods"], line),
            "another compression method:",
            row,
        )
    serial = bytes.fromhex(line["serial"])
    digits = lambda number: serial[:-2] + number.to_bytes(2, "big")  # noqa: E731
    rows = others(
        ask,
        file,
        room,
        lambda s, number: replace(s, payload=s.payload.replace(serial, digits(number))),
    )
    for number, row in enumerate(rows):
        want(row["serial"].lower() == digits(number).hex(), "serial number:", number, row)
        want(without(OF_SERIAL, row) == without(OF_SERIAL, line), "another serial number:", row)
    return 3 * MANY


def without(names: list[str], line: Line) -> Line:
    return {name: value for name, value in line.items() if name not in names}


def lines_of(ask: Ask, file: Path) -> list[Line]:
    return [json.loads(row) for row in ask([file])[1].splitlines()]


def check(program: Path, ask: Ask, files: list[Path], lines: list[Line], room: Path) -> None:
    """All of them. `ask` runs the program on arguments: its status, output and error output."""
    count = fields(ask, files, lines)
    suites(ask, files, lines, room)
    print(
        f"tlslog: {count} fields alone, in another order and as comma-separated values, and names of suites, are as they are stored"
    )
    [plain] = [file for file in files if file.stem == "openssl_rsa"]
    print(
        f"tlslog: of {formulas(ask, plain, room)} names those that begin as formulas do are marked as comma-separated values, unless --csv-raw is given"
    )
    print(
        f"tlslog: {told_again(ask, files, lines, room)} hellos and certificates that differ in a number, and all captures, have the same lines when they are repeated"
    )
    print(
        f"tlslog: {len(lines)} lines have the identifiers that hashlib makes, and {identified(ask, files, lines)} of messages and certificates their connection's"
    )
    count, with_fields = messages(ask, files)
    print(
        f"tlslog: {count} messages are those that tshark has, with their places, also as comma-separated values; {with_fields} of them have the "
        "fields of key exchanges, signatures and keys known before that tshark has"
    )
    print(
        f"tlslog: {uses(program, files, lines, room)} commands of docs/REPORT.md print what the stored lines want"
    )
    print(
        f"tlslog: the command of docs/SCALE.md on {many_captures(program, ask, files, room)} captures prints the lines of each"
    )
