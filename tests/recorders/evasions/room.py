"""A network namespace with one host, this machine's kernel: its settings, OpenSSL's server and
client, and the kernel's reasons for dropping packets."""

from __future__ import annotations

import ipaddress
import os
import re
import signal
import subprocess
import time
from pathlib import Path
from typing import Any

from tests.recorders.evasions import wire
from tests.recorders.evasions.end import End

HOST = {4: ipaddress.ip_address("192.0.2.1"), 6: ipaddress.ip_address("2001:db8::1")}
OURS = {4: ipaddress.ip_address("192.0.2.2"), 6: ipaddress.ip_address("2001:db8::2")}
SERVER_PORT, CLIENT_PORT = 14433, 50000
# Our ports are these plus the scene's number; the last is for connections that aren't recorded.
OUR_PORT, OUR_SERVER_PORT, FIRST_PORT = 40000, 44000, 39000
TRACING = Path("/sys/kernel/tracing")
REASON = re.compile(r"kfree_skb: .* reason: (\w+)")
# The name of each of the kernel's reasons in expected lines.
WORDS = {
    "TCP_CSUM": "checksum", "UDP_CSUM": "checksum", "IP_CSUM": "checksum", "TCP_FLAGS": "no_ack", "TCP_ACK_UNSENT_DATA": "ack",
    "TCP_TOO_OLD_ACK": "ack", "TCP_INVALID_ACK_SEQUENCE": "ack", "TCP_INVALID_SEQUENCE": "window", "TCP_OVERWINDOW": "window",
    "TCP_ZEROWINDOW": "window", "TCP_INVALID_END_SEQUENCE": "window", "TCP_OLD_SEQUENCE": "old", "TCP_OLD_DATA": "old",
    "TCP_RFC7323_PAWS": "paws", "TCP_RFC7323_TSECR": "paws", "TCP_INVALID_SYN": "syn", "TCP_RESET": "rst", "TCP_OFOMERGE": "overlap",
    "TCP_MD5UNEXPECTED": "signature", "PKT_TOO_SMALL": "header",
}  # fmt: skip


def run(words: str, **more: Any) -> str:
    return subprocess.run(
        words.split(),
        check=True,
        stdout=subprocess.PIPE,
        stderr=subprocess.STDOUT,
        text=True,
        **more,
    ).stdout


def prepare() -> None:
    """Sets up the wire's device with an IPv4 and an IPv6 address, and without background
    traffic."""
    Path("/proc/sys/net/ipv6/conf/default/accept_dad").write_text("0")
    Path("/proc/sys/net/ipv6/conf/default/router_solicitations").write_text("0")
    run("ip link set dev lo up")
    run(f"ip tuntap add dev {wire.DEVICE} mode tap")
    run(f"ip link set dev {wire.DEVICE} address 02:00:00:00:00:01 addrgenmode none up")
    for kind, length in ((4, 24), (6, 64)):
        run(f"ip -{kind} address add {HOST[kind]}/{length} dev {wire.DEVICE}")
        run(
            f"ip -{kind} neighbour add {OURS[kind]} lladdr 02:00:00:00:00:02 dev {wire.DEVICE} nud permanent"
        )


def setting(name: str, value: object = None) -> str | None:
    """Returns a kernel setting below net/ipv4, or None if there is no such setting. Sets it if a
    value is given."""
    file = Path("/proc/sys/net/ipv4") / name
    if not file.exists():
        return None
    had = file.read_text().strip()
    if value is not None:
        file.write_text(str(value))
    return had


def counters() -> dict[str, int]:
    """Returns the kernel's network counters by name."""
    found = {}
    for file in ("snmp", "netstat"):
        lines = Path("/proc/net", file).read_text().splitlines()
        for names, values in zip(lines[::2], lines[1::2]):
            group = names.split(":")[0]
            found |= {
                f"{group} {name}": int(value)
                for name, value in zip(names.split()[1:], values.split()[1:])
            }
    return found


class Reasons:
    """The kernel's reasons for dropping our packets, from its tracepoint kfree_skb."""

    def __init__(self) -> None:
        self.folder = TRACING / "instances" / f"wire_{os.getpid()}"
        try:
            self.folder.mkdir()
            (self.folder / "set_event_pid").write_text(str(os.getpid()))
            (self.folder / "events/skb/kfree_skb/enable").write_text("1")
            self.pipe = os.open(self.folder / "trace_pipe", os.O_RDONLY | os.O_NONBLOCK)
        except OSError:
            self.pipe = None

    def read(self) -> list[str]:
        if self.pipe is None:
            return []
        text = b""
        while True:
            try:
                part = os.read(self.pipe, 65536)
            except BlockingIOError:
                break
            if not part:
                break
            text += part
        return REASON.findall(text.decode())

    def close(self) -> None:
        if self.pipe is not None:
            os.close(self.pipe)
            (self.folder / "events/skb/kfree_skb/enable").write_text("0")
            self.folder.rmdir()


class Room:
    """One capture: the wire, the host's programs, the packets sent, and the description."""

    def __init__(self, work: Path, reasons: Reasons, number: int, offloads: bool = False) -> None:
        self.work, self.reasons, self.number = work, reasons, number
        self.wire = wire.Wire({FIRST_PORT, OUR_PORT + number, OUR_SERVER_PORT + number}, offloads)
        self.running, self.changed = [], {}
        self.sendings = (
            []
        )  # Each packet that we sent: its number, a description, and the kernel's reasons.
        self.notes = []
        self.lines = []
        self.began = counters()
        reasons.read()

    # The host's settings and programs.

    def set(self, **settings: object) -> None:
        for name, value in settings.items():
            had = setting(name, value)
            if had is not None:
                self.changed.setdefault(name, had)

    def start(self, words: str, name: str) -> subprocess.Popen[bytes]:
        out = (self.work / f"{name}.out").open("w+")
        process = subprocess.Popen(
            words.split(),
            cwd=self.work,
            stdin=subprocess.PIPE,
            stdout=out,
            stderr=subprocess.STDOUT,
        )
        self.running.append((process, out))
        return process

    def server(
        self,
        more: str = "",
        port: int = SERVER_PORT,
        by_name: str = "-servername real.test -cert2 real.pem -key2 real.key",
    ) -> subprocess.Popen[bytes]:
        """Starts OpenSSL's server, which has a separate certificate for real.test."""
        process = self.start(
            f"openssl s_server -accept {port} -cert other.pem -key other.key {by_name} {more}",
            "server",
        )
        self.await_port(port)
        return process

    def await_port(self, port: int) -> None:
        for _ in range(200):
            listening = [
                line.split()
                for file in ("tcp", "tcp6")
                for line in Path("/proc/net", file).read_text().splitlines()[1:]
            ]
            if any(
                words[3] == "0A" and int(words[1].split(":")[1], 16) == port for words in listening
            ):
                return
            time.sleep(0.02)
        raise RuntimeError("no server")

    def state(self, port: int) -> str | None:
        """Returns the TCP state of the host's connection to our port, as a kernel number."""
        for file in ("tcp", "tcp6"):
            for text in Path("/proc/net", file).read_text().splitlines()[1:]:
                words = text.split()
                if int(words[2].split(":")[1], 16) == port:
                    return words[3]
        return None

    def client(
        self, port: int, more: str = "-tls1_2", from_port: int = CLIENT_PORT
    ) -> subprocess.Popen[bytes]:
        """Starts OpenSSL's client, connecting to our endpoint."""
        return self.start(
            f"openssl s_client -connect {OURS[4]}:{port} -bind {HOST[4]}:{from_port} -servername real.test {more}",
            "client",
        )

    def printed(self, name: str) -> str:
        return (self.work / f"{name}.out").read_text()

    def await_text(self, name: str, text: str, wait: float = 3.0) -> bool:
        limit = time.monotonic() + wait
        while time.monotonic() < limit:
            if text in self.printed(name):
                return True
            time.sleep(0.01)
        return False

    # Our endpoints.

    def end(
        self, version: int = 4, port: int | None = None, to_port: int = SERVER_PORT, **more: Any
    ) -> End:
        port = port or OUR_PORT + self.number
        return End(self, OURS[version], port, HOST[version], to_port, **more)

    def sent(
        self, end: object, frame: bytes, flags: int, payload: bytes, number: int, **way: bool
    ) -> None:
        place = self.wire.send(frame, **way)
        found = [reason for reason in self.reasons.read() if reason != "NOT_SPECIFIED"]
        said = f"{wire.flag_names(flags)}, number {number % 2**32}" + (
            f", {len(payload)} bytes" if payload else ""
        )
        is_recorded = way.get("is_recorded", self.wire.records)
        self.sendings.append(
            {
                "end": end,
                "place": place,
                "packet": said,
                "reasons": found,
                "is_recorded": is_recorded,
            }
        )

    def try_packet(self, end: End, what: str, wait: float = 0.08, **more: Any) -> list[wire.Packet]:
        """Sends a packet of the scene, and records the host's response."""
        end.send(**more)
        said = self.sendings[-1]
        found = end.replies(wait)
        said["answers"] = [
            f"{packet.name()} with data" if packet.payload else packet.name() for packet in found
        ]
        answer = "; ".join(packet.words() for packet in found) or "nothing"
        dropped = f" dropped it ({', '.join(said['reasons'])}) and" if said["reasons"] else ""
        self.note(
            f"{what} (packet {said['place']}: {said['packet']}): the kernel{dropped} answered with {answer}"
        )
        return found

    def told(self) -> list[str]:
        """Summarizes the host's responses to the scene's packets: the kernel's reasons and the
        answers."""
        found = []
        for one in self.sendings:
            if "answers" in one:
                did = ", ".join(one["reasons"]) or (
                    "dropped"
                    if one.get("why")
                    else "taken"
                    if one.get("taken")
                    else "no reason told"
                )
                found.append(f"{did}: {' and '.join(one['answers']) or 'no answer'}")
        return list(dict.fromkeys(found))

    def note(self, text: str) -> None:
        self.notes.append(text)

    def counted(self) -> dict[str, int]:
        now = counters()
        return {
            name: now[name] - had for name, had in self.began.items() if now.get(name, had) != had
        }

    def close(self) -> None:
        for process, out in self.running:
            process.send_signal(signal.SIGCONT)
            process.kill()
            process.wait()
            out.close()
        self.wire.close()
        for name, had in self.changed.items():
            setting(name, had)
