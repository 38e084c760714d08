"""Captures of TLS after other bytes, from live peers, with their expected lines in wanted.json.

It needs `openssl`, `gnutls-cli`, `gnutls-serv`, `curl`, `psql`, `tsql`, `chromium`, `tcpdump`,
`tshark`, `unshare`, `stdbuf` and `ip`. Those named `live_` need the packages of their servers and
clients, which they name.
"""

from __future__ import annotations

import socket
import ssl
import tempfile
import time
from collections.abc import Callable
from pathlib import Path

from tests.recorders import peers, wanted_entries
from tests.recorders.fronts import (
    browser,
    drafts,
    expected,
    gaps,
    live,
    misleading,
    offers,
    old_hello,
    plain,
    searched,
    shifted,
    talks,
)
from tests.support.shapes import Line

FOLDER = Path(__file__).resolve().parents[3] / "captures/fronts"
V12, V13 = ssl.TLSVersion.TLSv1_2, ssl.TLSVersion.TLSv1_3
NAME = "example.test"
# `found_by`, by a part of the capture's name.
DIALOGUES = {
    "smtp": "smtp",
    "lmtp": "lmtp",
    "imap": "imap",
    "pop3": "pop3",
    "ftp": "ftp",
    "ldap": "ldap",
    "xmpp": "xmpp",
    "nntp": "nntp",
    "sieve": "sieve",
    "mysql": "mysql",
    "postgres": "postgresql",
    "connect": "http_connect",
    "proxy": "proxy",
    "socks5": "socks5",
    "socks4": "socks4",
    "rdp": "rdp",
    "tds": "tds",
}
# FreeTDS's client, which asks for TLS of all that follows.
FREETDS = f"""[it]
host = {peers.HOST}
port = 1433
tds version = 7.4
encryption = require
"""
# Version 2: a signature, version and command, TCP over IPv4, 12 bytes: addresses and ports (the
# PROXY protocol, section 2.2).
PROXY_2 = bytes.fromhex(
    "0d 0a 0d 0a 00 0d 0a 51 55 49 54 0a 21 11 00 0c c0 00 02 01 c6 33 64 01 d6 d8 01 bb"
)
# Connection Request with the cookie that clients of RDP send, and the negotiation's request for
# PROTOCOL_SSL ([MS-RDPBCGR], section 2.2.1.1).
RDP = (
    bytes.fromhex("03 00 00 2a 25 e0 00 00 00 00 00")
    + b"Cookie: mstshash=user\r\n"
    + bytes.fromhex("01 00 08 00 01 00 00 00")
)


def starttls(protocol: str, port: int, version: str = "-tls1_3", more: str = "") -> str:
    return f"openssl s_client -connect 127.0.0.1:{port} -starttls {protocol} -servername {NAME} {version} {more}"


def curl(port: int, words: str, version: str = "") -> str:
    return f"curl -sk -m 5 {version} {words} https://{NAME}:{port}/"


class ByHand:
    """A client that sends some bytes, reads a given number, and then speaks TLS (Python's ssl)."""

    def __init__(self, port: int, front: bytes, answer: int) -> None:
        self.port, self.front, self.answer = port, front, answer

    def run(self) -> None:
        context = ssl.create_default_context()
        context.check_hostname, context.verify_mode = False, ssl.CERT_NONE
        with socket.create_connection((peers.HOST, self.port), timeout=4) as connection:
            connection.sendall(self.front)
            answer = b""
            while len(answer) < self.answer:
                answer += connection.recv(self.answer - len(answer))
            with context.wrap_socket(connection, server_hostname=NAME) as talk:
                talk.sendall(b"GET / HTTP/1.0\r\n\r\n")
                while talk.recv(4096):
                    pass


def captures() -> (
    dict[str, tuple[int, Callable[[plain.Plain], None], ssl.TLSVersion | None, str | ByHand]]
):
    """Returns the recordings by name: the port, the server's plain text, its highest version, and
    the client."""
    resolve = f"--resolve {NAME}:8443:127.0.0.1"
    psql = f"psql 'host={NAME} hostaddr=127.0.0.1 port=5432 user=me dbname=it sslmode=require gssencmode=disable connect_timeout=4' -c ''"
    gnutls = f"gnutls-cli --insecure --starttls-proto=smtp --sni-hostname {NAME} -p 25 127.0.0.1"
    return {
        "starttls_smtp": (25, talks.smtp, V13, starttls("smtp", 25)),
        "starttls_smtp_tls12": (25, talks.smtp, V12, starttls("smtp", 25, "-tls1_2")),
        "starttls_smtp_gnutls": (25, talks.smtp, V13, gnutls),
        "starttls_lmtp": (24, talks.lmtp, V13, starttls("lmtp", 24)),
        "starttls_imap": (143, talks.imap, V12, starttls("imap", 143, "-tls1_2")),
        "starttls_pop3": (110, talks.pop3, V13, starttls("pop3", 110)),
        "starttls_ftp": (21, talks.ftp, V12, starttls("ftp", 21, "-tls1_2")),
        "starttls_ldap": (389, talks.ldap, V13, starttls("ldap", 389)),
        "starttls_xmpp": (
            5222,
            talks.xmpp,
            V12,
            starttls("xmpp", 5222, "-tls1_2", f"-xmpphost {NAME}"),
        ),
        "starttls_nntp": (119, talks.nntp, V13, starttls("nntp", 119)),
        "starttls_sieve": (4190, talks.sieve, V12, starttls("sieve", 4190, "-tls1_2")),
        "mysql": (3306, talks.mysql, V13, starttls("mysql", 3306)),
        "postgres": (5432, talks.postgres, V12, starttls("postgres", 5432, "-tls1_2")),
        "postgres_psql": (5432, talks.postgres, V13, psql),
        "connect": (8080, talks.connect, V13, curl(8443, "--proxy http://127.0.0.1:8080")),
        "connect_tls12": (
            8080,
            talks.connect,
            V12,
            curl(8443, "--proxy http://127.0.0.1:8080", "--tls-max 1.2"),
        ),
        "proxy_header": (
            8443,
            talks.proxy_header,
            V13,
            curl(8443, f"--haproxy-protocol {resolve}"),
        ),
        "proxy_header_2": (8443, talks.proxy_header_2, V12, ByHand(8443, PROXY_2, 0)),
        "socks5": (1080, talks.socks5, V13, curl(8443, "--socks5-hostname 127.0.0.1:1080")),
        "socks4a": (1080, talks.socks4a, V12, curl(8443, "--socks4a 127.0.0.1:1080")),
        "rdp": (3389, talks.rdp, V12, ByHand(3389, RDP, 19)),
        "tds": (1433, talks.tds, V12, "env FREETDSCONF=freetds.conf tsql -S it -U me -P it"),
        "hello_in_a_body": (
            80,
            talks.upload,
            None,
            "curl -s -m 5 -T hello.record http://127.0.0.1:80/kept",
        ),
    }


def run_client(work: Path, client: str | ByHand) -> str:
    """Runs the client, and returns what it printed."""
    if isinstance(client, ByHand):
        client.run()
        return ""
    peer = peers.Peer(work, client, "client")
    if "openssl" in client or "gnutls" in client:
        peer.waits_for(["Cipher is", "Handshake was completed", "rror"])
        time.sleep(0.2)
        peer.tell(b"GET / HTTP/1.0\r\n\r\n")
        time.sleep(0.3)
    peer.end(4)
    return peer.output()


def record_behind(
    work: Path,
    folder: Path,
    name: str,
    port: int,
    talk: Callable[[plain.Plain], None],
    highest: ssl.TLSVersion | None,
    client: str | ByHand,
) -> list[Line]:
    file = folder / f"{name}.pcap"
    kind = plain.PacketServer if talk is talks.tds else plain.Server
    server = kind(port, talk, work, highest)
    with peers.Dump(file, f"tcp port {port}"):
        server.start()
        run_client(work, client)
        server.join(3)
    shown = {key: value for key, value in server.seen.items() if key not in ("client", "server")}
    print(name, file.stat().st_size, "bytes", shown, flush=True)
    if not highest:
        return expected.of_none(file)
    return expected.of_front(file, port, server.seen, found_by(name))


def found_by(name: str) -> str:
    """Returns the name of the dialogue that a recording has."""
    [found] = [dialogue for part, dialogue in DIALOGUES.items() if part in name]
    return found


def names() -> list[str]:
    of_browser = [browser.NAME, browser.SHORT, *browser.KEPT]
    of_others = [*old_hello.NAMES, *shifted.NAMES, *drafts.NAMES, *offers.NAMES, *misleading.NAMES]
    return [*captures(), *of_others, *searched.NAMES, *gaps.NAMES, *live.NAMES, *of_browser]


def record(folder: Path, chosen: list[str]) -> bool:
    peers.enter_own_network()
    known = captures()
    with tempfile.TemporaryDirectory() as room:
        work = Path(room)
        peers.make_keys(work)
        (work / "hello.record").write_bytes(shifted.stored_hello())
        (work / "freetds.conf").write_text(FREETDS)
        for name in chosen or names():
            if name in live.NAMES:
                wanted_entries.keep(folder, f"{name}.pcap", live.record(work, folder, name))
                continue
            if name in known:
                lines = record_behind(work, folder, name, *known[name])
            elif name in old_hello.NAMES:
                lines = old_hello.record(work, folder, name)
            elif name in browser.KEPT:
                lines = browser.lines(folder / f"{name}.pcap", browser.KEPT[name])
            elif name in drafts.NAMES:
                lines = drafts.record(folder, name)
            elif name in offers.NAMES:
                lines = offers.record(work, folder, name)
            elif name in misleading.NAMES:
                lines = misleading.record(folder, name)
            elif name in searched.NAMES:
                lines = searched.record(work, folder, name)
            elif name in gaps.NAMES:
                lines = gaps.record(folder, name)
            elif name == browser.NAME:
                lines = browser.record(folder)
            elif name == browser.SHORT:
                lines = browser.record_short(folder)
            else:
                lines = shifted.record(work, folder, name)
            wanted_entries.keep(folder, f"{name}.pcap", {"lines": lines})
    return True
