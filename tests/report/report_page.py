"""The numbers of a page of wispuddera.report, from its HTML, and those that follow from the log's
lines.
"""

from __future__ import annotations

import json
import re
import subprocess
import xml.etree.ElementTree as ElementTree
from collections import Counter
from collections.abc import Callable
from datetime import datetime, timezone
from html.parser import HTMLParser
from pathlib import Path
from typing import Any

from tests.support import suite_names
from tests.support.shapes import Line

ROWS, SOON, DAY = 100, 30, 86400
VOID = {"meta", "wbr", "br", "input"}
COMPLETED = ("full", "resumed", "tls13")
VERSIONS = {
    "SSLv3": "SSL 3.0", "TLSv10": "TLS 1.0", "TLSv11": "TLS 1.1", "TLSv12": "TLS 1.2",
    "TLSv13": "TLS 1.3",
}
VERSIONS |= {"DTLSv10": "DTLS 1.0", "DTLSv12": "DTLS 1.2", "DTLSv13": "DTLS 1.3"}
OLD = {"SSLv3", "TLSv10", "TLSv11", "DTLSv10", "0x0100"}
# The suites of the logs that are tried, judged by hand: a log with another one has it added to
# either.
WEAK = {
    "0x0000", "0x0004", "0x0005", "0x000a", "0x0018", "0x002f", "0x0035", "0x009c", "0xc00a",
    "0xc014",
}
FORBIDDEN = {"0x0000", "0x0004", "0x0005", "0x0018"}
STRONG = {
    "0x1301", "0x1302", "0x1303", "0x1304", "0x009e", "0x009f", "0x00a3", "0xc02b", "0xc02c",
    "0xc02f", "0xc030", "0xcca8", "0xcca9",
}
# The lists of suites of the stored lines with nothing but weak ones, judged by hand: of SSL 2.0, of
# RSA key transport, of CBC with SHA-1. Each other list has a suite of TLS 1.3, or one with forward
# secrecy and GCM, CCM or CBC with SHA-256.
WEAK_LISTS = (
    {"0x002f"}, {"0x010080", "0x0700c0"}, {"0x009c", "0x00ff"},
    {"0x002f", "0x0035", "0x003c", "0x00ff", "0x010080", "0x0700c0"},
    {"0xc00a", "0xc014", "0x0039", "0xc009", "0xc013", "0x0033", "0x0035", "0x002f", "0x00ff"},
)
NONE = "absent"
# The counts in the title of a bar.
PARTS = r"([\d,]+) (?:completed|broken off|other|1\.3|1\.2|older|none or unknown)"


class Wrong(Exception):
    """What a check found."""


def want(is_so: object, *words: object) -> None:
    if not is_so:
        raise Wrong(" ".join(str(word)[:600] for word in words))


class Page(HTMLParser):
    """The tables of a page, by their ids, the texts with an id, the titles of pictures, and which
    elements and attributes there are."""

    def __init__(self, text: str) -> None:
        super().__init__()
        self.open, self.rows, self.ids, self.titles = [], {}, {}, []
        self.tags, self.attributes, self.order = Counter(), Counter(), {}
        # The commands of each row, by the table, and its rows that are hidden.
        self.commands, self.hidden = {}, Counter()
        self.is_command = False
        self.table = self.part = None
        self.feed(text)
        self.close()
        want(not self.open, "elements that don't end:", self.open)

    def handle_startendtag(self, tag: str, attributes: list[tuple[str, str | None]]) -> None:
        self.tags[tag] += 1
        self.attributes.update(name for name, _ in attributes)

    def handle_starttag(self, tag: str, attributes: list[tuple[str, str | None]]) -> None:
        given = dict(attributes)
        want(len(given) == len(attributes), "an attribute is there twice:", attributes)
        self.handle_startendtag(tag, attributes)
        if tag not in VOID:
            self.open.append((tag, given.get("id")))
        if "id" in given:
            want(given["id"] not in self.ids, "an id is there twice:", given["id"])
            self.ids[given["id"]] = ""
        if tag == "table":
            self.table = given["id"]
            self.rows[self.table] = {"thead": [], "tbody": [], "tfoot": []}
            self.commands[self.table] = []
        elif tag in ("thead", "tbody", "tfoot"):
            self.part = self.rows[self.table][tag]
        elif tag == "tr":
            self.part.append([])
            self.hidden[self.table] += "hidden" in given
        elif given.get("class") == "command":
            self.is_command = True
            self.commands[self.table].append("")
        elif tag in ("td", "th"):
            want(tag == "td" or given.get("scope") in ("row", "col"), "a head without a scope")
            self.part[-1].append("")
            if "aria-sort" in given:
                self.order[self.table] = (len(self.part[-1]) - 1, given["aria-sort"])
        elif tag == "title":
            self.titles.append("")

    def handle_endtag(self, tag: str) -> None:
        want(self.open and self.open[-1][0] == tag, f"</{tag}> ends", self.open[-1:])
        self.open.pop()
        self.is_command = self.is_command and tag != "code"
        if tag == "table":
            self.table = self.part = None

    def handle_data(self, data: str) -> None:
        tags = [tag for tag, _ in self.open]
        if "title" in tags:
            self.titles[-1] += data
        elif "svg" not in tags and {"td", "th"} & set(tags):
            self.part[-1][-1] += data
            if self.is_command:
                self.commands[self.table][-1] += data
        for _, name in self.open:
            if name is not None:
                self.ids[name] += data

    def column(self, table: str, at: int = 0) -> list[str]:
        return [row[at].strip() for row in self.rows[table]["tbody"]]

    def number(self, name: str) -> int:
        return number_of(self.ids[name])


def number_of(text: str) -> int:
    want(re.fullmatch(r"(≥ )?-?\d{1,3}(,\d{3})*", text.strip()), "no number:", repr(text))
    return int(text.strip().removeprefix("≥ ").replace(",", ""))


def static(text: str) -> Page:
    """A page as it was written: well formed as XML too, it loads nothing, and runs one script."""
    front, rest = text.split("\n", 1)
    want(front == "<!DOCTYPE html>", front)
    try:
        ElementTree.fromstring(rest)
    except ElementTree.ParseError as reason:
        row, column = reason.position
        place = rest.splitlines()[row - 1][max(column - 80, 0) :][:160]
        raise Wrong(f"the page isn't well formed: {reason}: {place}")
    page = Page(text)
    want(page.tags["script"] == page.tags["style"] == 1, "scripts:", page.tags["script"])
    safe(page)
    return page


def safe(page: Page) -> None:
    others = [
        name
        for name in page.attributes
        if name.startswith("on") or name in ("src", "srcset", "style", "action", "data")
    ]
    tags = [
        tag
        for tag in (
            "img", "iframe", "object", "embed", "link", "form", "base", "foreignObject", "image",
            "use",
        )
        if page.tags[tag]
    ]
    want(not others and not tags, "attributes and elements of others:", others, tags)
    want(page.titles[0].startswith("TLS connections"), "its title:", page.titles[0])


def ranked(counter: dict[Any, int]) -> list[tuple[Any, int]]:
    return sorted(counter.items(), key=lambda item: (-item[1], str(item[0])))


def same_table(
    page: Page, name: str, counter: dict[Any, int], at: int = 1,
    key: Callable[[str], Any] = lambda text: text, whole: int | None = None,
) -> None:
    """The rows have the counts of the most frequent values, and the foot has the others."""
    wanted = ranked(counter)
    rows = page.rows[name]
    found = [(key(row[0].strip()), number_of(row[at])) for row in rows["tbody"]]
    # Equal counts may be in another order if the page has other names for them.
    want(
        sorted(found, key=str) == sorted(wanted[:ROWS], key=str) or cut_equals(found, wanted), name,
        "has", found, "where this is wanted:", wanted[:ROWS],
    )
    want(
        [count for _, count in found] == [count for _, count in wanted[:ROWS]],
        name,
        "isn't in order",
    )
    rest = sum(count for _, count in wanted[ROWS:])
    want(bool(rows["tfoot"]) == bool(rest), name, "has a last row:", rows["tfoot"])
    want(
        (number_of(rows["tfoot"][0][at]) if rows["tfoot"] else 0) == rest, name, "has",
        rows["tfoot"], "for the others:", rest,
    )


def same_shares(page: Page, name: str, whole: int) -> None:
    """Checks that each share is its count in percent."""
    for row in [*page.rows[name]["tbody"], *page.rows[name]["tfoot"]]:
        percent = 100 * number_of(row[1]) / whole
        if 0 < percent < 0.1:
            wanted = "<0.1%"
        elif 99.9 < percent < 100:
            wanted = ">99.9%"
        else:
            wanted = f"{percent:.1f}%"
        want(row[2] == wanted, name, "has the share", row, "where this is wanted:", wanted)


def cut_equals(found: list[tuple[Any, int]], wanted: list[tuple[Any, int]]) -> bool:
    """Where the last rows are some of many with the same count, these are any of them."""
    return (
        len(found) == ROWS < len(wanted) and set(found) <= set(wanted) and len(set(found)) == ROWS
    )


def server_of(line: Line) -> str:
    address, port = line["id.resp_h"], line["id.resp_p"]
    return f"[{address}]:{port}" if ":" in address else f"{address}:{port}"


def at(seconds: float) -> str:
    return datetime.fromtimestamp(int(seconds), timezone.utc).strftime("%Y-%m-%d %H:%M:%S")


def number_of_suite(line: Line) -> str | None:
    """The number of the suite in a line, which has that or the name."""
    return suite_names.numbered(line["cipher"]) if "cipher" in line else None


def is_weak(line: Line) -> bool:
    suite = number_of_suite(line)
    want(suite is None or suite in WEAK | STRONG, "a suite that wasn't judged by hand:", suite)
    return suite in WEAK


def check_figures(page: Page, lines: list[Line]) -> None:
    of = Counter(line["outcome"] for line in lines)
    wanted = {
        "connections": len(lines),
        "completed": sum(of[name] for name in COMPLETED),
        "broken-off": of["broken_off"],
        "resumed": sum(line.get("resumed", False) for line in lines),
        "tls13": sum(line.get("version") in ("TLSv13", "DTLSv13") for line in lines),
        "old": sum(line.get("version") in OLD for line in lines),
        "weak": sum(map(is_weak, lines)),
    }
    found = {name: page.number(name) for name in wanted}
    want(found == wanted, "figures", found, "where these are wanted:", wanted)
    times = [line["ts"] for line in lines]
    want(
        (page.ids["first"], page.ids["last"]) == (at(min(times)), at(max(times))), "times:",
        page.ids["first"], page.ids["last"],
    )


def check_fields(page: Page, lines: list[Line]) -> None:
    field = lambda name: Counter(line.get(name) for line in lines)  # noqa: E731
    none = lambda absent: lambda text: None if text == absent else text  # noqa: E731
    same_table(page, "outcomes", field("outcome"), key=lambda text: text.split(" ")[0])
    same_table(page, "groups", field("curve"), key=none(NONE))
    versions = Counter(
        {VERSIONS.get(name, name): count for name, count in field("version").items()}
    )
    same_table(
        page, "versions", versions,
        key=lambda text: None if text == NONE else text.removesuffix(" old"),
    )
    marked = {
        text.removesuffix(" old") for text in page.column("versions") if text.endswith(" old")
    }
    want(
        marked
        == {
            VERSIONS.get(line["version"], line["version"])
            for line in lines
            if line.get("version") in OLD
        },
        "old versions:",
        marked,
    )
    for name in ("outcomes", "groups", "versions", "suites"):
        same_shares(page, name, len(lines))

    def suite(text: str) -> str | None:
        return None if text == NONE else re.search(r"0x[0-9a-f]{4}", text)[0]

    same_table(page, "suites", Counter(map(number_of_suite, lines)), key=suite)
    marked = {
        suite(text)
        for text in page.column("suites")
        if not re.search(r"0x[0-9a-f]{4}$|^absent", text)
    }
    want(
        marked == {number_of_suite(line) for line in lines if is_weak(line)}, "weak suites:", marked
    )


def check_names(page: Page, lines: list[Line]) -> None:
    for table, field in (("hosts", "server_name"), ("programs", "ja4")):
        some = [line for line in lines if field in line]
        same_shares(page, table, len(lines))
        same_table(page, table, Counter(line[field] for line in some))
        check_others(page, table, some, lambda line: line[field], lambda line: line["id.orig_h"], 4)


def check_others(
    page: Page, table: str, lines: list[Line], key: Callable[[Line], str],
    other: Callable[[Line], str], at: int,
) -> None:
    """How many were broken off, and how many different ones there are of another kind."""
    broken, others = Counter(), {}
    for line in lines:
        broken[key(line)] += line["outcome"] == "broken_off"
        others.setdefault(key(line), set()).add(other(line))
    for row in page.rows[table]["tbody"]:
        want(number_of(row[3]) == broken[row[0]], table, row, "broken off:", broken[row[0]])
        want(
            number_of(row[at]) == len(others[row[0]]), table, row, "different ones:",
            len(others[row[0]]),
        )


def check_addresses(page: Page, lines: list[Line]) -> None:
    for table, key, other in (
        ("clients", lambda line: line["id.orig_h"], server_of),
        ("servers", server_of, lambda line: line["id.orig_h"]),
    ):
        same_shares(page, table, len(lines))
        same_table(page, table, Counter(map(key, lines)))
        check_others(page, table, lines, key, other, 4)
    some = [line for line in lines if "server_name" in line]
    check_others(page, "hosts", some, lambda line: line["server_name"], server_of, 5)


def is_weak_offer(line: Line) -> bool:
    offered = set(map(suite_names.numbered, line.get("client_ciphers", [])))
    return offered in WEAK_LISTS


def old_offers(line: Line) -> set[str]:
    return (OLD | {"0x0002"}) & set(
        line.get("client_supported_versions") or [line.get("client_version")]
    )


def check_offers(page: Page, lines: list[Line]) -> None:
    some = [line for line in lines if old_offers(line) or is_weak_offer(line)]
    want(("offers" in page.rows) == bool(some), "offers:", len(some))
    if some:
        same_table(page, "offers", Counter(line["id.orig_h"] for line in some))
    for row in page.rows["offers"]["tbody"] if some else []:
        own = [line for line in some if line["id.orig_h"] == row[0]]
        versions = {VERSIONS.get(name, name) for line in own for name in old_offers(line)}
        want(
            row[2] == "–"
            if not versions
            else set(row[2].split(" and ")[0].split(", ")) <= versions,
            "offers",
            row,
            versions,
        )
        want((row[3] != "–") == any(map(is_weak_offer, own)), "offers of suites", row)


def check_trust(page: Page, lines: list[Line]) -> None:
    """Certificates without the host's name, and those whose subject is their issuer."""
    some = [line for line in lines if line.get("sni_matches_cert") is False]
    want(("mismatches" in page.rows) == bool(some), "wrong names:", len(some))
    wanted = Counter((line["server_name"], server_of(line)) for line in some)
    rows = page.rows["mismatches"]["tbody"] if some else []
    found = [((row[0], row[2]), number_of(row[1])) for row in rows]
    want(
        found == ranked(wanted)[:ROWS]
        or cut_equals(found, ranked(wanted))
        or sorted(found) == sorted(wanted.items()),
        "wrong names",
        found,
        ranked(wanted),
    )
    some = [line for line in lines if "subject" in line and line["subject"] == line["issuer"]]
    want(("self-signed" in page.rows) == bool(some), "self-signed:", len(some))
    wanted = Counter(line["cert_chain_fps"][0] for line in some)
    found = (
        [(row[6], number_of(row[1])) for row in page.rows["self-signed"]["tbody"]] if some else []
    )
    want(sorted(found) == sorted(ranked(wanted)[:ROWS]), "self-signed", found, wanted)


def check_failures(page: Page, lines: list[Line]) -> None:
    told = lambda line, name: line.get("stop", {}).get(name, "–")  # noqa: E731
    some = [
        line
        for line in lines
        if "stop" in line or line["outcome"] in ("broken_off", "unknown", "no_handshake")
    ]
    wanted = Counter(
        (
            line.get("last_alert", "none"), line["outcome"], told(line, "message"),
            told(line, "sender"),
        )
        for line in some
    )
    found = (
        {(row[0], *row[3:6]): number_of(row[1]) for row in page.rows["failures"]["tbody"]}
        if some
        else {}
    )
    want(found == wanted, "failures", found, "where these are wanted:", wanted)
    same_shares(page, "failures", len(some))


def check_servers(page: Page, lines: list[Line]) -> None:
    some = [line for line in lines if line.get("version") in OLD or is_weak(line)]
    wanted = Counter(map(server_of, some))
    worst = {
        server_of(line)
        for line in some
        if line.get("version") in OLD or number_of_suite(line) in FORBIDDEN
    }
    found = (
        [(row[0], number_of(row[1]), row[2]) for row in page.rows["poor"]["tbody"]] if some else []
    )
    rows = sorted(wanted.items(), key=lambda item: (item[0] not in worst, -item[1], item[0]))
    rows = [
        (server, count, "must not" if server in worst else "should not") for server, count in rows
    ]
    want(found == rows[:ROWS], "servers", found, "where these are wanted:", rows[:ROWS])


def check_certificates(page: Page, lines: list[Line]) -> None:
    """Those that end until the log's last time and some days."""
    some = [line for line in lines if "not_after" in line]
    want(
        ("certificates" in page.rows) <= bool(some), "there are certificates where the log has none"
    )
    if not some:
        want(page.ids["expiring"] == "–", "certificates:", page.ids["expiring"])
        return
    end = {
        line["cert_chain_fps"][0]: datetime.fromisoformat(
            line["not_after"].replace("Z", "+00:00")
        ).timestamp()
        for line in some
    }
    last = max(line["ts"] for line in lines)
    soon = {print_of: ends for print_of, ends in end.items() if ends <= last + SOON * DAY}
    want(
        page.number("expiring") == len(soon), "certificates:", page.ids["expiring"],
        "where this is wanted:", len(soon),
    )
    subjects = {line["cert_chain_fps"][0]: line.get("subject", NONE) for line in some}
    counts = Counter(line["cert_chain_fps"][0] for line in some)
    servers = {}
    for line in some:
        servers.setdefault(line["cert_chain_fps"][0], set()).add(server_of(line))
    wanted = sorted(
        (ends, subjects[print_of], counts[print_of], int((ends - last) // DAY), print_of)
        for print_of, ends in soon.items()
    )
    rows = page.rows["certificates"]["tbody"] if soon else []
    found = [
        (row[2], row[0], number_of(row[1]), number_of(row[3].removeprefix("expired ")), row[7])
        for row in rows
    ]
    for row in rows:
        want(
            set(row[6].split(" and ")[0].split(", ")) <= servers[row[7]], "certificates: servers",
            row, servers[row[7]],
        )
    want(
        sorted(found) == sorted((at(ends), *row) for ends, *row in wanted[:ROWS]), "certificates",
        found, "where these are wanted:", wanted[:ROWS],
    )


def kind_of_outcome(line: Line) -> int:
    """The place of a line's outcome in a bar: completed, broken off, other."""
    if line["outcome"] in COMPLETED:
        return 0
    return 1 if line["outcome"] == "broken_off" else 2


def kind_of_version(line: Line) -> int:
    """The place of a line's version in a bar: 1.3, 1.2, older, none or unknown."""
    number = line.get("version", "")[-2:]
    if number in ("13", "12"):
        return 0 if number == "13" else 1
    return 2 if line.get("version") in OLD else 3


def check_times(page: Page, lines: list[Line]) -> None:
    """The bars of both pictures have the connections of their intervals."""
    units = {"s": 1, "min": 60, "h": 3600, "d": DAY}
    for count, kind in ((3, kind_of_outcome), (4, kind_of_version)):
        found, step = {}, 0
        for title in page.titles:
            told = re.fullmatch(r"(\S+ \S+), ([\d,]+) (s|min|h|d): (.*)", title)
            parts = re.findall(PARTS, told[4]) if told else []
            if told and len(parts) == count:
                step = number_of(told[2]) * units[told[3]]
                start = datetime.fromisoformat(f"{told[1]}+00:00").timestamp()
                found |= {
                    (start, place): number_of(part)
                    for place, part in enumerate(parts)
                    if part != "0"
                }
        wanted = Counter((line["ts"] // step * step, kind(line)) for line in lines)
        want(found == wanted, "bars", found, "where these are wanted:", wanted)


def check_commands(page: Page, log: Path, step: int = 1) -> int:
    """The command of each row, or of each so many, prints the `uid`s of as many connections as the
    row counts, and those that the row shows. All are asked at once, since a command reads the whole
    log; the first of each table is run as it is written, too."""
    rows = []
    for name, commands in page.commands.items():
        body = page.rows[name]["tbody"]
        want(
            len(commands) in (0, len(body)), name, "has", len(commands), "commands for", len(body),
            "rows",
        )
        rows += [(name, row, command) for row, command in list(zip(body, commands))[::step]]
    parts = [
        re.fullmatch(r"jq -r 'select\((.*)\) \| \.uid' (\S+)", command) for _, _, command in rows
    ]
    want(
        all(parts),
        "a command of another form:",
        [row[2] for row, part in zip(rows, parts) if not part][:1],
    )
    program = (
        "["
        + ", ".join(f"({part[1]})" for part in parts)
        + "] as $is | [.uid, ($is | to_entries | map(select(.value) | .key))]"
    )
    listed: list[list[str]] = [[] for _ in rows]
    for line in run_jq(["jq", "-c", program, log]).splitlines():
        uid, places = json.loads(line)
        for place in places:
            listed[place].append(uid)
    tried = set()
    for (name, row, command), found in zip(rows, listed):
        count = number_of(row[2 if name == "rule" else 1])
        want(
            len(found) == count, name, row, "has a command that lists", len(found), "connections:",
            command,
        )
        shown = re.findall(r"C\w{17}", row[-1].split("jq -r")[0])
        want(
            shown == found[: len(shown)] and len(shown) == min(count, 3), name, row, "shows", shown,
            "of", found[:4],
        )
        if name not in tried:
            want(
                run_jq(["bash", "-c", command], log.parent).splitlines() == found,
                name,
                "has a command that lists otherwise by the shell:",
                command,
            )
        tried.add(name)
    return len(rows)


def run_jq(words: list[str | Path], folder: Path | None = None) -> str:
    done = subprocess.run(
        words, cwd=folder, stdout=subprocess.PIPE, stderr=subprocess.PIPE, text=True
    )
    want(done.returncode == 0, words, "ends with status", done.returncode, done.stderr[-600:])
    return done.stdout


CHECKS = (
    check_figures, check_fields, check_names, check_addresses, check_failures, check_servers,
    check_offers, check_certificates, check_trust, check_times,
)


def check(page: Page, lines: list[Line]) -> int:
    """Checks a page against its lines. All lines have the fields of tlslog, and few enough
    different values for exact counts."""
    for one in CHECKS:
        one(page, lines)
    want("unread" not in page.ids, "lines weren't read:", page.ids.get("unread"))
    return len(lines)


def objects(log: bytes | str) -> list[Line]:
    return [json.loads(line) for line in log.splitlines()]
