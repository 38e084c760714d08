"""An OpenSSL connection for each of its cipher suites up to TLS 1.2.

FOLDER/suites.pcap has them in TLS 1.2, TLS 1.0 and DTLS 1.2.
`tests/oracle/compare exchanges PROGRAM FOLDER/suites.pcap` compares the fields of their messages.
"""

from __future__ import annotations

import subprocess
import tempfile
import time
from pathlib import Path

from tests.support import script

# The repository stores no capture of these.
FOLDER = None
ALL = "ALL:COMPLEMENTOFALL:@SECLEVEL=0"
KEY = "-psk 0a0b0c0d"
SERVER = f"openssl s_server -quiet -cipher {ALL} {KEY} -psk_hint hint"
KINDS = {"rsa": "rsa:2048", "ec": "ec -pkeyopt ec_paramgen_curve:P-256"}
VERSIONS = {"-tls1_2": 14500, "-tls1": 14510, "-dtls1_2": 14520}
QUIET = {"stdin": subprocess.PIPE, "stdout": subprocess.DEVNULL, "stderr": subprocess.DEVNULL}


def make_keys(room: Path) -> None:
    for name, kind in KINDS.items():
        words = f"openssl req -x509 -nodes -days 30 -subj /CN=example.test -newkey {kind} -keyout {name}.key -out {name}.pem"
        subprocess.run(words.split(), cwd=room, check=True, stderr=subprocess.DEVNULL)
    for words in (
        "openssl dsaparam -genkey -out dsa.key 1024",
        "openssl req -x509 -new -days 30 -subj /CN=example.test -key dsa.key -out dsa.pem",
    ):
        subprocess.run(words.split(), cwd=room, check=True, stderr=subprocess.DEVNULL)


def suites() -> list[str]:
    words = ["openssl", "ciphers", ALL]
    names = (
        subprocess.run(words, stdout=subprocess.PIPE, text=True, check=True)
        .stdout.strip()
        .split(":")
    )
    return [name for name in names if not name.startswith("TLS_")]


def talk(room: Path, version: str, port: int, suite: str) -> None:
    identity = f"{KEY} -psk_identity client" if "PSK" in suite else ""
    words = f"openssl s_client -connect 127.0.0.1:{port} {version} -cipher {suite}:@SECLEVEL=0 {identity} -cert ec.pem -key ec.key"
    try:
        subprocess.run(
            words.split(),
            cwd=room,
            input=b"Q\n",
            timeout=2,
            stdout=subprocess.DEVNULL,
            stderr=subprocess.DEVNULL,
        )
    except subprocess.TimeoutExpired:
        pass


def names() -> list[str]:
    return ["all"]


def record(into: Path, _: list[str]) -> bool:
    script.enter_own_network()
    subprocess.run("ip link set dev lo up".split(), check=True)
    with tempfile.TemporaryDirectory() as place:
        room = Path(place)
        make_keys(room)
        running = []
        for version, port in VERSIONS.items():
            # One requests a client certificate.
            one = f"{SERVER} {version} -cert rsa.pem -key rsa.key -dcert ec.pem -dkey ec.key -verify 1 -accept {port}"
            other = f"{SERVER} {version} -cert dsa.pem -key dsa.key -accept {port + 1}"
            running += [
                subprocess.Popen(words.split(), cwd=room, **QUIET) for words in (one, other)
            ]
        words = [
            "tcpdump",
            "-q",
            "-i",
            "lo",
            "--immediate-mode",
            "-B",
            "65536",
            "-U",
            "-w",
            str(into / "suites.pcap"),
        ]
        dump = subprocess.Popen(words, stderr=subprocess.PIPE)
        dump.stderr.readline()
        time.sleep(1)
        for suite in suites():
            for version, port in VERSIONS.items():
                talk(room, version, port + ("DSS" in suite), suite)
        time.sleep(1)
        for process in [*running, dump]:
            process.terminate()
            process.wait()
    return True
