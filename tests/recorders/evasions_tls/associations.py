"""Captures of DTLS associations that a monitor sees only in part, or that follow each other on the
same ports."""

from __future__ import annotations

import json
import time
from collections.abc import Callable, Collection
from dataclasses import replace
from pathlib import Path

from tests.recorders import peers
from tests.support import packets
from tests.recorders.evasions_tls import datagrams, dtls, outputs
from tests.recorders.evasions_tls.datagrams import GNUTLS, OPENSSL, SERVERS
from tests.recorders.evasions_tls.dtls import CLIENT, SERVER, SERVER_PORT
from tests.support.shapes import Line

CLIENT_PORT = 40001
OWN = "-cert ec.pem -key ec.key"
PLAIN_SERVER = f"openssl s_server -accept {peers.HOST}:{SERVER_PORT} -dtls1_2 {OWN} -state"
FIRST, SECOND = "first.test", "second.test"
VERSIONS = (0xFE00, 0xFE7F, 0xFEFF, 0xFEFE)
CAPTURES = Path(__file__).resolve().parents[3] / "captures"
STORED, FRONTS = CAPTURES / "dtls", CAPTURES / "fronts"
PORT = SERVER_PORT.to_bytes(2, "big")
# CAPWAP's header of 8 bytes, and a control header of a Discovery Response, 2, without elements (RFC
# 5415, sections 4.3 and 4.5.1.1).
DISCOVERY = bytes.fromhex("00 10 02 00 00 00 00 00  00 00 00 02 00 00 03 00")
OTHER_SUITE = bytes.fromhex("c02b")  # TLS_ECDHE_ECDSA_WITH_AES_128_GCM_SHA256.


class Identity:
    """Injects nothing."""

    def __call__(self, sender: str, datagram: bytes) -> list[bytes]:
        return [datagram]


class Version(Identity):
    """Changes the version of the client's first two records, or of the server's records up to its
    ServerHello."""

    def __init__(self, side: str, number: int) -> None:
        self.side, self.number, self.is_over = side, number, False

    def __call__(self, sender: str, datagram: bytes) -> list[bytes]:
        if sender != self.side or self.is_over:
            return [datagram]
        self.is_over = any(message.number == 1 for _, message in dtls.messages(datagram))
        return [datagram[:1] + self.number.to_bytes(2, "big") + datagram[3:]]


def did(server: str, by_server: str, client: str, by_client: str) -> dict[str, str]:
    return {
        "client": "completed"
        if datagrams.IS_DONE[client] in by_client
        else outputs.fault(by_client),
        "server": "completed"
        if "CIPHER is" in by_server or "hello from the client" in by_client + by_server
        else outputs.fault(by_server),
    }


def full(
    segments: list[packets.Segment],
    port: int,
    of: str,
    more: Line | None = None,
    left: Collection[str] = (),
) -> Line:
    """Returns tshark's line of a handshake that both sides completed."""
    found = datagrams.line_of(segments, port)
    fields = {field: value for field, value in found.items() if field not in left} | (more or {})
    certain = {"version": "DTLSv12", "established": True, "outcome": "full"}
    if any(fields[field] != value for field, value in certain.items()):
        raise ValueError(f"tshark has other fields: {fields}")
    others = [field for field in fields if field not in certain and field not in (more or {})]
    absent = ["last_alert"] + ([] if more else ["gap"])
    return outputs.line(fields, absent, {"seen": list(certain), of: [*others, *absent]})


def lost(work: Path, folder: Path, peer: str) -> tuple[Path, list[Line], Line]:
    """Drops the first hello and its HelloVerifyRequest, as if the capture began late."""
    file = folder / f"dtls_first_messages_lost_{peer}.pcap"
    by_server, by_client = datagrams.run(
        work, file, OPENSSL, peer, dtls.Relay(Identity()), SERVER_PORT
    )
    seen = did(OPENSSL, by_server, peer, by_client)
    segments = packets.read(file.read_bytes())[2:]
    file.write_bytes(packets.pcap([(one.time, one.frame()) for one in segments]))
    [(_, hello)] = dtls.messages(segments[0].payload)
    if (hello.kind, hello.number) != (dtls.HELLO, 1) or set(seen.values()) != {"completed"}:
        raise ValueError(f"another beginning: {hello}, {seen}")
    line = full(segments, SERVER_PORT, "tshark", {"gap": "both"})
    line["from"]["RFC 6347, 4.2.2: the first message of each side has the number 0"] = ["gap"]
    return file, [line], seen


def version(work: Path, folder: Path, side: str, number: int) -> tuple[Path, list[Line], Line]:
    """Changes the version in the header of the first records. `peer` receives them."""
    seen = {}
    for peer in (GNUTLS, OPENSSL):
        file = folder / f"dtls_version_{number:04x}_{side}.pcap"
        server, client = (peer, OPENSSL) if side == CLIENT else (OPENSSL, peer)
        port = SERVER_PORT if side == CLIENT else dtls.RELAY_PORT
        relay = dtls.Relay(Version(side, number))
        by_server, by_client = datagrams.run(work, file, server, client, relay, port)
        seen[peer] = did(server, by_server, client, by_client)
    segments = packets.read(file.read_bytes())
    if set(seen[OPENSSL].values()) != {"completed"}:
        return file, [], seen
    taken = datagrams.untouched(segments, relay.handed, side)
    return file, [full(taken, port, "tshark, with the usual version")], seen


def one_lost(folder: Path, stored: str, place: int) -> tuple[Path, list[Line], Line]:
    """Leaves one of the first two datagrams out of a stored handshake: the client's first hello or
    the server's HelloVerifyRequest."""
    name, peer = ("first_hello", "question")[place], stored.partition("_")[0]
    file = folder / f"dtls_{name}_lost_{peer}.pcap"
    whole = packets.read((STORED / f"{stored}.pcap").read_bytes())
    kinds = [[message.kind for _, message in dtls.messages(one.payload)] for one in whole[:2]]
    if kinds != [[dtls.HELLO], [dtls.VERIFY]]:
        raise ValueError(f"another beginning: {kinds}")
    segments = whole[:place] + whole[place + 1 :]
    # Without the hello the server is the originator. The other side then lacks its front.
    found = datagrams.line_of(whole, SERVER_PORT)
    return made(file, segments, found, {"gap": "resp"}, ["ssl_history"])


def replayed(folder: Path, stored: str, side: str) -> tuple[Path, list[Line], Line]:
    """Adds a hello with another name or cipher suite in front of a stored handshake's second
    ClientHello or its ServerHello, in a record with the number of its sender's first one."""
    file = folder / f"dtls_{side}_replayed_record_{stored.partition('_')[0]}.pcap"
    whole = packets.read((STORED / f"{stored}.pcap").read_bytes())
    hello = (dtls.HELLO if side == CLIENT else dtls.SERVER_HELLO, 1)
    [(at, record, message)] = [
        (at, record, message)
        for at, one in enumerate(whole)
        for record, message in dtls.messages(one.payload)
        if (message.kind, message.number) == hello
    ]
    body = message.body
    if side == SERVER:
        behind_id = 35 + body[34]
        body = body[:behind_id] + OTHER_SUITE + body[behind_id + 2 :]
    else:
        body = dtls.renamed(body)
    forged = replace(record, number=0).of(replace(message, body=body)).bytes()
    segments = [*whole[:at], in_front_of(whole[at], 1, forged), *whole[at:]]
    return made(file, segments, stored_line(whole), {}, [])


def begun_again(folder: Path, stored: str) -> tuple[Path, list[Line], Line]:
    """Adds the hello of an association that nobody answered in front of a stored handshake, twice:
    its client gave up, and began another one on the same port."""
    file = folder / f"dtls_client_begun_again_{stored.partition('_')[0]}.pcap"
    whole = packets.read((STORED / f"{stored}.pcap").read_bytes())
    [(record, message)] = dtls.messages(whole[0].payload)
    unanswered = replace(message, body=message.body[:2] + bytes(32) + message.body[34:])
    front = [
        in_front_of(whole[0], before, replace(record, number=number).of(unanswered).bytes())
        for number, before in ((0, 3_000_000), (1, 2_000_000))
    ]
    return made(file, [*front, *whole], stored_line(whole), {}, [])


def in_front_of(one: packets.Segment, microseconds: int, payload: bytes) -> packets.Segment:
    """Returns a datagram on the same ports, this long before."""
    udp = one.tcp[:4] + (len(payload) + 8).to_bytes(2, "big") + bytes(2)
    return packets.Segment(one.time - microseconds, one.front, udp, payload)


def stored_line(segments: list[packets.Segment]) -> Line:
    """Returns the line of a handshake in captures/dtls, which has tshark's fields."""
    lines = [json.loads(line) for line in (STORED / "lines").read_text().splitlines()]
    [found] = [line for line in lines if round(line["ts"] * 1_000_000) == segments[0].time]
    return found


def discovery_first(folder: Path) -> tuple[Path, list[Line], Line]:
    """CAPWAP's Discovery Response, in the clear, in front of the handshake on the same ports."""
    file = folder / "dtls_server_first_capwap.pcap"
    whole = packets.read((FRONTS / "capwap_openssl.pcap").read_bytes())
    segments = [reversed_with(whole[0], DISCOVERY), *whole]
    # tshark knows the port of CAPWAP.
    return made(file, segments, datagrams.line_of(whole, None), {}, [])


def alert_first(folder: Path) -> tuple[Path, list[Line], Line]:
    """The second of two associations, and in front the server's alert that ended the first."""
    file = folder / "dtls_server_first_alert.pcap"
    whole = packets.read((folder / "dtls_second_association_broken_off.pcap").read_bytes())
    alert = max(at for at, one in enumerate(whole) if outputs.alerts([one]) and one.tcp[:2] == PORT)
    found = datagrams.line_of(whole[alert + 1 :], SERVER_PORT)
    return made(file, whole[alert:], found, {}, [])


def reversed_with(one: packets.Segment, payload: bytes) -> packets.Segment:
    """Returns a datagram in the other direction, right in front of this one."""
    at = packets.LINK_HEADER + 12
    front = one.front[:at] + one.front[at + 4 : at + 8] + one.front[at : at + 4]
    udp = one.tcp[2:4] + one.tcp[:2] + (len(payload) + 8).to_bytes(2, "big") + bytes(2)
    return packets.Segment(one.time - 1000, front + one.front[at + 8 :], udp, payload)


def counted(segments: list[packets.Segment]) -> Line:
    """Returns the fields that count captured datagrams."""
    first = segments[0].source
    found: Line = {}
    for side, of_side in (
        ("orig", [one for one in segments if one.source == first]),
        ("resp", [one for one in segments if one.source != first]),
    ):
        found[f"{side}_pkts"] = len(of_side)
        found[f"{side}_bytes"] = sum(len(one.payload) for one in of_side)
    found["duration"] = round((segments[-1].time - segments[0].time) / 1_000_000, 6)
    return found


def made(
    file: Path,
    segments: list[packets.Segment],
    found: Line,
    more: Line,
    left: Collection[str],
) -> tuple[Path, list[Line], Line]:
    """Writes these segments, of a handshake that both sides completed. Its fields are tshark's, of
    the handshake's own datagrams."""
    file.write_bytes(packets.pcap([(one.time, one.frame()) for one in segments]))
    if (found["outcome"], found["established"]) != ("full", True):
        raise ValueError(f"tshark has other fields: {found}")
    captured = ends_of(segments[0]) | counted(segments)
    unknown = {"ts", "uid", "community_id", *left, *datagrams.COUNTS, *captured}
    fields = {name: value for name, value in found.items() if name not in unknown}
    certain = list(fields)
    absent = ["last_alert"] + ([] if more else ["gap"])
    sources = {
        "the captured datagrams": list(captured),
        "tshark, of the whole handshake": [*certain, *absent],
    }
    if more:
        sources["RFC 6347, 4.2.2: the first message of each side has the number 0"] = ["gap"]
    return file, [outputs.line(captured | fields | more, absent, sources)], {"made": "not recorded"}


def ends_of(one: packets.Segment) -> Line:
    found: Line = {}
    for side, (address, port) in (("orig", one.source), ("resp", one.destination)):
        found[f"id.{side}_h"] = ".".join(map(str, address))
        found[f"id.{side}_p"] = int.from_bytes(port, "big")
    return found | {"proto": "udp"}


def client_of(name: str, more: str = "") -> str:
    return f"stdbuf -oL openssl s_client -connect {peers.HOST}:{SERVER_PORT} -bind {peers.HOST}:{CLIENT_PORT} -dtls1_2 -servername {name} -state {more}"


def second(work: Path, folder: Path, way: str) -> tuple[Path, list[Line], Line]:
    """Two associations on the same ports. The first ends by close_notify, silently, or by an alert
    during its handshake."""
    file = folder / f"dtls_second_association_{way}.pcap"
    gnutls = SERVERS[GNUTLS].replace("--sni-hostname example.test --sni-hostname-fatal", "")
    command = gnutls if way.endswith("gnutls") else PLAIN_SERVER
    with peers.Dump(file, f"udp port {SERVER_PORT}"):
        server = peers.Peer(work, "stdbuf -oL " + command, "server")
        time.sleep(0.5)
        parts = []
        for turn, name in enumerate((FIRST, SECOND)):
            more = (
                "-cipher ECDHE-RSA-AES128-GCM-SHA256" if way == "broken_off" and turn == 0 else ""
            )
            client = peers.Peer(work, client_of(name, more), f"client{turn}")
            client.waits_for([datagrams.IS_DONE[OPENSSL], ":error:"], 5)
            time.sleep(0.1)
            client.tell(f"hello of {name}\n".encode())
            time.sleep(0.2)
            if turn == 0 and not way.startswith(("closed", "broken_off")):
                client.kill()
            else:
                client.end(1)
            parts.append((time.time(), client.output()))
            if turn == 0 and way == "restarted":
                server.kill()
                server = peers.Peer(work, "stdbuf -oL " + command, "server")
                time.sleep(0.5)
            time.sleep(0.2)
        server.kill()
    is_done = [datagrams.IS_DONE[OPENSSL] in text for _, text in parts]
    seen = {
        "first": "completed" if is_done[0] else outputs.fault(parts[0][1]),
        "second": "completed" if is_done[1] else outputs.fault(parts[1][1]),
    }
    border = parts[0][0] * 1_000_000
    segments = packets.read(file.read_bytes())
    halves = [one for one in segments if one.time <= border], [
        one for one in segments if one.time > border
    ]
    lines = []
    for name, half, done in zip((FIRST, SECOND), halves, is_done):
        if done:
            line = full(half, SERVER_PORT, "tshark, of its datagrams alone")
            if line["line"]["server_name"] != name:
                raise ValueError(f"another name: {line}")
        else:
            found = datagrams.line_of(half, SERVER_PORT)
            kept = "id.orig_h id.orig_p id.resp_h id.resp_p proto server_name established last_alert outcome".split()
            absent = [field for field in ["last_alert"] if field not in found]
            line = outputs.line(
                {field: found[field] for field in kept if field in found},
                absent,
                {"tshark, of its datagrams alone": kept},
            )
        lines.append(line)
    return file, lines, seen


def captures() -> dict[str, Callable[[Path, Path], tuple[Path, list[Line], Line]]]:
    found = {
        f"dtls_first_messages_lost_{peer}": lambda work, folder, peer=peer: lost(work, folder, peer)
        for peer in (OPENSSL, GNUTLS)
    }
    for side in (CLIENT, SERVER):
        for number in VERSIONS:
            found[f"dtls_version_{number:04x}_{side}"] = lambda work, folder, of=(
                side,
                number,
            ): version(work, folder, *of)
    for stored in ("openssl_dtls12_cookie", "gnutls_dtls12"):
        for place, what in enumerate(("first_hello", "question")):
            found[f"dtls_{what}_lost_{stored.partition('_')[0]}"] = (
                lambda work, folder, of=(stored, place): one_lost(folder, *of)
            )
    for side in (CLIENT, SERVER):
        found[f"dtls_{side}_replayed_record_openssl"] = (
            lambda work, folder, side=side: replayed(folder, "openssl_dtls12_cookie", side)
        )
    found["dtls_client_begun_again_openssl"] = lambda work, folder: begun_again(
        folder, "openssl_dtls12_cookie"
    )
    found["dtls_server_first_capwap"] = lambda work, folder: discovery_first(folder)
    found["dtls_server_first_alert"] = lambda work, folder: alert_first(folder)
    for way in ("closed", "broken_off", "silent", "restarted", "closed_gnutls", "silent_gnutls"):
        found[f"dtls_second_association_{way}"] = lambda work, folder, way=way: second(
            work, folder, way
        )
    return found
