"""Connections of OpenSSL, GnuTLS, curl and Python's ssl to servers of OpenSSL and GnuTLS.

`talks/COUNT` records COUNT connections to FOLDER/talks.pcap. Each has a random version, suites,
groups and protocols, from a seed; a few have none in common with the server. The servers listen on
ports from 14433 on: `tests/oracle/compare lines FOLDER/talks.pcap LINES 14433-14440` compares.
"""

from __future__ import annotations

import random
import ssl
import socket
import subprocess
import sys
import tempfile
import time
from pathlib import Path

from tests.recorders import peers
from tests.support import script

# The repository stores no capture of these.
FOLDER = None
SEED = 2
FIRST = 14433
LOW = "DEFAULT:@SECLEVEL=0"


def servers() -> list[str]:
    s, own = "openssl s_server -quiet -www", "-cert ec.pem -key ec.key"
    rsa = "-cert rsa.pem -key rsa.key"
    g = "gnutls-serv -q --http --disable-client-cert --x509certfile rsa.pem --x509keyfile rsa.key"
    return [
        f"{s} {own} -alpn http/1.1 -accept {FIRST}",
        f"{s} {rsa} -cipher {LOW} -min_protocol TLSv1 -accept {FIRST + 1}",
        f"{s} {rsa} -tls1_2 -no_ticket -accept {FIRST + 2}",
        f"{s} {own} -groups P-384 -accept {FIRST + 3}",
        f"{g} -p {FIRST + 4}",
        f"{g} --priority NORMAL:-VERS-ALL:+VERS-TLS1.2 --noticket -p {FIRST + 5}",
        f"{g} --priority NORMAL:-GROUP-ALL:+GROUP-SECP521R1 -p {FIRST + 6}",
    ]


def by_openssl(chance: random.Random, port: int, name: str) -> str:
    version = chance.choice(
        ["", "-tls1_2", "-tls1_3", "-tls1_1 -cipher " + LOW, "-tls1 -cipher " + LOW]
    )
    more = chance.choice(
        [
            "",
            "-alpn h2,http/1.1",
            "-groups X448:P-256",
            "-groups P-521:P-384",
            "-cipher AES256-SHA",
            "-no_ticket",
        ]
    )
    again = chance.choice(["", "", "-reconnect" if version == "-tls1_2" else ""])
    return f"openssl s_client -connect 127.0.0.1:{port} -servername {name} {version} {more} {again}"


def by_gnutls(chance: random.Random, port: int, name: str) -> str:
    version = chance.choice(
        [
            "NORMAL",
            "NORMAL:-VERS-ALL:+VERS-TLS1.2",
            "NORMAL:-VERS-ALL:+VERS-TLS1.3",
            "NORMAL:-GROUP-ALL:+GROUP-X448",
        ]
    )
    more = chance.choice(["", "-r", "--alpn http/1.1"])
    return f"gnutls-cli --insecure -p {port} --sni-hostname {name} --priority {version} {more} 127.0.0.1"


def by_curl(chance: random.Random, port: int, name: str) -> str:
    version = chance.choice(["", "--tls-max 1.2", "--tlsv1.3", "--http1.1", "--no-alpn"])
    return f"curl -sk -m 4 {version} --resolve {name}:{port}:127.0.0.1 https://{name}:{port}/ https://{name}:{port}/again"


def by_python(chance: random.Random, port: int, name: str) -> None:
    context = ssl.create_default_context()
    context.check_hostname, context.verify_mode = False, ssl.CERT_NONE
    if chance.random() < 0.3:
        context.maximum_version = ssl.TLSVersion.TLSv1_2
    if chance.random() < 0.3:
        context.set_alpn_protocols(["http/1.1"])
    try:
        with socket.create_connection(("127.0.0.1", port), timeout=4) as plain, context.wrap_socket(
            plain, server_hostname=name
        ) as talk:
            talk.sendall(b"GET / HTTP/1.0\r\n\r\n")
            while talk.recv(4096):
                pass
    except OSError:
        pass


def talk(chance: random.Random, number: int) -> None:
    port, name = FIRST + chance.randrange(len(servers())), f"host{number}.example.test"
    kind = chance.choice([by_openssl, by_gnutls, by_curl, by_python])
    command = kind(chance, port, name)
    if not command:
        return
    try:
        subprocess.run(
            command.split(),
            input=b"GET / HTTP/1.0\r\n\r\n",
            timeout=6,
            stdout=subprocess.DEVNULL,
            stderr=subprocess.DEVNULL,
        )
    except subprocess.TimeoutExpired:
        pass


def names() -> list[str]:
    return ["COUNT"]


def record(folder: Path, chosen: list[str]) -> bool:
    if len(chosen) != 1 or not chosen[0].isdigit():
        sys.exit("record: how many? write talks/COUNT")
    script.enter_own_network()
    count, file = int(chosen[0]), str(folder / "talks.pcap")
    subprocess.run("ip link set dev lo up".split(), check=True)
    chance = random.Random(SEED)
    quiet = {"stdin": subprocess.PIPE, "stdout": subprocess.DEVNULL, "stderr": subprocess.DEVNULL}
    running: list[subprocess.Popen[bytes]] = []
    with tempfile.TemporaryDirectory() as room:
        peers.make_keys(Path(room))
        try:
            for words in servers():
                running.append(subprocess.Popen(words.split(), cwd=room, **quiet))
            dumping = ["tcpdump", "-q", "-i", "lo", "--immediate-mode", "-B", "65536", "-U"]
            running.append(subprocess.Popen([*dumping, "-w", file, "tcp"], stderr=subprocess.PIPE))
            running[-1].stderr.readline()
            time.sleep(1)
            for number in range(count):
                talk(chance, number)
            time.sleep(1)
        finally:
            for process in running:
                process.terminate()
                process.wait()
    return True
