"""Handshakes of this machine's OpenSSL and GnuTLS, captured by tcpdump.

Each conversation of the group `handshakes` becomes a capture with all connections of its clients.
The name of the group alone records those of crates/tlslog/data and captures/dtls. It needs
`openssl`, `gnutls-cli`, `gnutls-serv`, `tcpdump`, `unshare` and `ip`.
"""

from __future__ import annotations

import subprocess
import tempfile
import time
from pathlib import Path
from typing import Any

from tests.recorders import handshakes
from tests.support import script

# They are stored in two folders: TLS in crates/tlslog/data, DTLS in captures/dtls.
FOLDER = None
STORED = """
    openssl_rsa openssl_dhe openssl_ecdhe openssl_tls10 openssl_tls11 openssl_client_certificate_rsa openssl_resumed_id
    openssl_resumed_ticket openssl_tls13 openssl_tls13_resumed openssl_tls13_retry openssl_tls13_client_certificate
    openssl_servers_alert openssl_servers_alert_version openssl_clients_alert openssl_no_certificate_alert openssl_ipv6
    gnutls_dhe gnutls_ecdhe gnutls_client_certificate gnutls_resumed gnutls_resumed_id gnutls_tls13 gnutls_tls13_resumed
    gnutls_tls13_retry gnutls_servers_alert gnutls_clients_alert
""".split()
STORED_DTLS = """
    openssl_dtls12 openssl_dtls12_cookie openssl_dtls12_resumed openssl_dtls12_mtu openssl_dtls12_client_certificate
    gnutls_dtls12 gnutls_dtls12_no_cookie gnutls_dtls12_mtu
""".split()
# Packets on these have at most 576 bytes, so that messages span several.
SMALL = {
    "openssl_rsa",
    "openssl_client_certificate_rsa",
    "openssl_tls13_client_certificate",
    "gnutls_dhe",
}


def with_names(command: str) -> str:
    """The clients ask for a host and for protocols, and the servers have one of these."""
    command = command.replace(
        "openssl s_client", "openssl s_client -servername example.test -alpn h2,http/1.1"
    )
    command = command.replace("openssl s_server", "openssl s_server -alpn http/1.1")
    return command.replace("gnutls-cli", "gnutls-cli --sni-hostname example.test")


def conversations() -> dict[str, Any]:
    found = handshakes.conversations()
    server, clients = found["openssl_tls13"]
    found["openssl_ipv6"] = (
        server.replace("127.0.0.1", "[::1]"),
        [client.replace("127.0.0.1", "[::1]") for client in clients],
    )
    return found


def capture(
    work: Path, folder: Path, name: str, server: str, clients: list[str | None], udp: bool = False
) -> None:
    mtu = 576 if name in SMALL else 65536
    # The device cuts no segment that is longer than a packet, and IPv6 comes back with a new
    # beginning.
    for words in (["down"], ["mtu", str(mtu), "gso_max_segs", "1"], ["up"]):
        subprocess.run(["ip", "link", "set", "dev", "lo", *words], check=True)
    words = [
        "tcpdump",
        "-q",
        "-i",
        "lo",
        "--immediate-mode",
        "-U",
        "-w",
        str(folder / f"{name}.pcap"),
        f"port {handshakes.SERVER}",
    ]
    dump = subprocess.Popen(words, stderr=subprocess.PIPE)
    dump.stderr.readline()

    def start() -> subprocess.Popen[bytes]:
        words = ["bash", "-c", "exec " + with_names(server)]
        process = subprocess.Popen(
            words,
            cwd=work,
            stdin=subprocess.PIPE,
            stdout=subprocess.DEVNULL,
            stderr=subprocess.DEVNULL,
        )
        time.sleep(0.7)
        return process

    process = start()
    for client in clients:
        if client is None:
            process.kill()
            process.wait()
            process = start()
        else:
            handshakes.converse(work, with_names(client), 0.7)
    process.kill()
    process.wait()
    time.sleep(0.3)
    dump.terminate()
    dump.wait()
    print(name, (folder / f"{name}.pcap").stat().st_size, "bytes", flush=True)


def names() -> list[str]:
    others = [name for name in conversations() if name not in STORED + STORED_DTLS]
    return [*STORED, *STORED_DTLS, *others]


def record(folder: Path, chosen: list[str]) -> bool:
    script.enter_own_network()
    # The clients talk to the server itself.
    handshakes.RELAY = handshakes.SERVER
    with tempfile.TemporaryDirectory() as room:
        work = Path(room)
        handshakes.make_keys(work)
        known = conversations()
        for name in chosen or STORED + STORED_DTLS:
            capture(work, folder, name, *known[name])
    return True
