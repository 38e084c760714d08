"""Captures of servers and clients of Debian, which speak another protocol before TLS.

Each needs the packages of its server (`servers.py`) and client. The line has tshark's fields; the
version and cipher are also those that a peer printed.
"""

from __future__ import annotations

import re
import shlex
import subprocess
import sys
import time
from pathlib import Path

from tests.oracle import wanted
from tests.recorders import peers
from tests.recorders.fronts import expected, live_scenes, servers
from tests.support.shapes import Line

# A client prints this when it is ready for the words of a scene.
READY = ["Verify return code", "rror:", "Mode change"]
# What a client of terminals prints between words.
COLORS = re.compile(r"\x1b(\[[0-9;?]*[a-zA-Z]|\([A-Z])")
# What peers print: a version and a suite.
SUITE = r"(?P<cipher>(?:TLS|ECDHE)[-_][-_A-Z0-9]+)"
SHOWN = (
    re.compile(rf"(?P<version>TLSv1[.]\d)\b.*?\b{SUITE}"),
    re.compile(rf"Ssl_cipher\s+{SUITE}\s+Ssl_version\s+(?P<version>TLSv1[.]\d)"),
    re.compile(r"tls_proto=(?P<version>TLS1[.]\d) tls_cipher=(?P<cipher>[-A-Z0-9]+)"),
)
SECONDS = 90
NAMES = list(live_scenes.scenes())


def version_of(package: str) -> str:
    """Returns the upstream version of a package; ends the script if it isn't installed."""
    words = ["dpkg-query", "-W", "-f", "${Version}", package]
    asked = subprocess.run(words, capture_output=True, text=True, check=False)
    if asked.returncode or not asked.stdout:
        sys.exit(f"record: {package} isn't installed: apt-get install {package}")
    return re.sub(r"^\d+:|[-+~].*$", "", asked.stdout)


def listening() -> set[int]:
    """Returns the TCP ports of this network on which programs listen."""
    found = set()
    for name in ("tcp", "tcp6"):
        for row in Path("/proc/net", name).read_text().splitlines()[1:]:
            _, local, _, state, *_ = row.split()
            if state == "0A":
                found.add(int(local.split(":")[1], 16))
    return found


def start(work: Path, server: servers.Server) -> list[peers.Peer]:
    """Starts the server's programs, and waits until they listen."""
    for package in server.packages.split():
        version_of(package)
    work.chmod(0o755)
    for name, text in server.files.items():
        (work / name).parent.mkdir(exist_ok=True)
        (work / name).write_text(text.replace("WORK", str(work)))
    for words in server.before:
        command = shlex.split(words.replace("WORK", str(work)))
        subprocess.run(command, cwd=work, check=True, stdout=subprocess.DEVNULL)
    started = []
    for number, words in enumerate(server.runs):
        started.append(peers.Peer(work, words.replace("WORK", str(work)), f"server{number}"))
    end = time.monotonic() + SECONDS
    while not {*server.ports} <= listening():
        if time.monotonic() > end:
            said = "".join(one.output() for one in started)
            stop(started)
            sys.exit(f"record: no server listens:\n{said}")
        time.sleep(0.1)
    return started


def stop(started: list[peers.Peer]) -> None:
    for one in reversed(started):
        one.process.terminate()
        one.end(10)


def preambles(file: Path, port: int, port_of_tls: int | None) -> dict[str, int]:
    """Counts the bytes of each side in front of its first segment with a record of tshark's."""
    counted, found = {"orig": 0, "resp": 0}, set()
    for row in wanted.rows(file, port_of_tls, udp=False):
        side = "resp" if int(row["tcp.srcport"][0]) == port else "orig"
        if row["record.content_type"]:
            found.add(side)
        if side not in found:
            counted[side] += int(row["tcp.len"][0])
    if len(found) != 2:
        raise ValueError(f"tshark finds TLS of {found} only")
    return {f"{side}_preamble_bytes": count for side, count in counted.items()}


def line_of(file: Path, scene: live_scenes.Scene, version: str, cipher: str) -> Line:
    """Returns the expected line: tshark's fields. Version and cipher must be the peer's, too."""
    # tshark skips text in front of TLS if the port is TLS's. PostgreSQL's single byte it would take
    # for the beginning of a record, but it follows that dialogue.
    port = None if scene.found_by == "postgresql" else scene.port
    [fields] = wanted.lines(file, port)
    by_peer = {"version": expected.NAMES[version], "established": True}
    by_peer |= {"server_name": live_scenes.NAME} if scene.has_name else {}
    by_peer |= {"cipher": cipher} if cipher.startswith("TLS_") else {}
    for field, value in by_peer.items():
        if fields.get(field) != value:
            raise ValueError(f"{field}: tshark {fields.get(field)!r}, the peer {value!r}")
    counted = preambles(file, scene.port, port)
    absent = [name for name, count in counted.items() if not count]
    absent += [name for name in ("server_name", "last_alert", "gap") if name not in fields]
    fields |= {name: count for name, count in counted.items() if count}
    fields |= {**expected.ends(file, scene.port), "found_by": scene.found_by}
    others = [name for name in (*fields, *absent) if name not in (*by_peer, "found_by")]
    sources = {"seen": list(by_peer), "tshark": others, "the dialogue": ["found_by"]}
    return expected.line(fields, sources, absent)


def notes_of(scene: live_scenes.Scene, printed: str) -> dict[str, str]:
    """Returns an entry's members beside its lines. Programs of one version are named once."""
    names = [*scene.server.packages.split(), scene.client_package]
    versions: dict[str, str] = {}
    for name in names:
        versions.setdefault(version_of(name), name)
    # The program, without the settings in front of it and its words, but for the protocol.
    words = re.sub(r"^(env )?(\S+=\S* )*(script \S+ ')?", "", scene.client)
    program = re.split(r" [-'/]", words)[0]
    program += (re.findall(r" -starttls \S+", words) or [""])[0]
    return {
        "is": f"{scene.found_by}, then TLS: {names[0]} and `{program}`",
        "rule": scene.rule,
        "peers": ", ".join(f"{name} {version}" for version, name in versions.items())
        + f": `{printed}`",
    }


def record(work: Path, folder: Path, name: str) -> dict[str, object]:
    """Records a scene; returns its entry."""
    scene, file = live_scenes.scenes()[name], folder / f"{name}.pcap"
    version_of(scene.client_package)
    started = start(work, scene.server)
    with peers.Dump(file, f"tcp port {scene.port}"):
        client = peers.Peer(work, scene.client.replace("WORK", str(work)), "client")
        if scene.words:
            client.waits_for(READY, SECONDS)
            time.sleep(0.3)
            client.tell(scene.words)
            client.waits_for([], 10)
        client.end(SECONDS)
    said = COLORS.sub("", client.output()) + "".join(one.output() for one in started)
    stop(started)
    shown = next((found for one in SHOWN if (found := one.search(said))), None)
    if not shown:
        sys.exit(f"record: {name}: no peer printed a version:\n{said}")
    printed = " ".join(shown[0].split())
    print(name, file.stat().st_size, "bytes", printed, flush=True)
    version = shown["version"].replace("TLS1", "TLSv1")
    notes = notes_of(scene, printed)
    return {**notes, "lines": [line_of(file, scene, version, shown["cipher"])]}
