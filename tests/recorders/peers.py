"""Live TLS and DTLS peers in a network namespace, captured by tcpdump."""

from __future__ import annotations

import socket
import subprocess
import time
from collections.abc import Iterable
from pathlib import Path

from tests.support import script

HOST = "127.0.0.1"
# KiB for packets that a busy tcpdump hasn't yet read; on `lo` each takes 64.
BUFFER = "32768"


def enter_own_network() -> None:
    """Restarts the script in a network namespace, where nothing else is captured and all ports are
    free."""
    script.enter_own_network()
    for words in (["gso_max_segs", "1"], ["up"]):
        subprocess.run(["ip", "link", "set", "dev", "lo", *words], check=True)


def make_keys(work: Path) -> None:
    """Makes a certificate for each kind of key: rsa.pem, rsa.key, ec.pem, ec.key."""
    for name, kind in (("rsa", "rsa:2048"), ("ec", "ec -pkeyopt ec_paramgen_curve:P-256")):
        words = f"openssl req -x509 -nodes -days 3650 -subj /CN=example.test -newkey {kind} -keyout {name}.key -out {name}.pem"
        subprocess.run(words.split(), cwd=work, check=True, stderr=subprocess.DEVNULL)


class Dump:
    """Runs tcpdump while the block runs."""

    def __init__(self, file: Path, words: str) -> None:
        self.file, self.words = Path(file), words

    def __enter__(self) -> Dump:
        words = [
            "tcpdump",
            "-q",
            "-i",
            "lo",
            "--immediate-mode",
            "-U",
            "-B",
            BUFFER,
            "-w",
            str(self.file),
            self.words,
        ]
        self.process = subprocess.Popen(words, stderr=subprocess.PIPE)
        self.process.stderr.readline()
        return self

    def __exit__(self, *_: object) -> None:
        time.sleep(0.3)
        self.process.terminate()
        self.process.wait()


class Peer:
    """A running peer and its output."""

    def __init__(self, work: Path, command: str, name: str) -> None:
        self.file = Path(work) / f"{name}.said"
        with self.file.open("wb") as out:
            self.process = subprocess.Popen(
                ["bash", "-c", "exec " + command],
                cwd=work,
                stdin=subprocess.PIPE,
                stdout=out,
                stderr=subprocess.STDOUT,
            )

    def output(self) -> str:
        return self.file.read_text(errors="replace")

    def tell(self, line: bytes) -> None:
        try:
            self.process.stdin.write(line)
            self.process.stdin.flush()
        except OSError:
            pass

    def waits_for(self, words: Iterable[str], seconds: float = 4) -> bool:
        """Returns whether it printed one of the words within that time."""
        end = time.monotonic() + seconds
        while time.monotonic() < end:
            if any(word in self.output() for word in words):
                return True
            if self.process.poll() is not None:
                return any(word in self.output() for word in words)
            time.sleep(0.05)
        return False

    def end(self, seconds: float = 2) -> None:
        """Closes its standard input, and kills it if it doesn't end."""
        try:
            self.process.stdin.close()
        except OSError:
            pass
        try:
            self.process.wait(seconds)
        except subprocess.TimeoutExpired:
            self.process.kill()
            self.process.wait()

    def kill(self) -> None:
        self.process.kill()
        self.process.wait()


def listener(port: int, kind: int = socket.SOCK_STREAM) -> socket.socket:
    found = socket.socket(socket.AF_INET, kind)
    found.setsockopt(socket.SOL_SOCKET, socket.SO_REUSEADDR, 1)
    found.bind((HOST, port))
    if kind == socket.SOCK_STREAM:
        found.listen()
    return found
