"""The handshake messages and alerts in the clear that tshark reads in captures.

tests/oracle/write messages CAPTURE..

It prints a line for each: the capture, the client's port, who sent it, the time of the packet that
completed it, and of a handshake message its type and the length of its body, of an alert its level
and number. captures/messages has these lines.
"""

from __future__ import annotations

import subprocess
import sys
from collections.abc import Iterator
from pathlib import Path


ENDS = ["frame.time_epoch", "tcp.stream", "udp.stream", "tcp.srcport", "udp.srcport"]
SAID = [
    "record.content_type",
    "handshake.type",
    "handshake.length",
    "alert_message.level",
    "alert_message.desc",
]
OF_FRAGMENTS = ["dtls.handshake.message_seq", "dtls.handshake.fragment_length"]
PORTS = "1024-65535"


def rows(capture: str, layer: str, prefix: str) -> Iterator[list[list[str]]]:
    fields = (
        ENDS + [f"{prefix}.{field}" for field in SAID] + (OF_FRAGMENTS if layer == "udp" else [])
    )
    command = [
        "tshark",
        "-r",
        str(capture),
        "-T",
        "fields",
        "-E",
        "separator=|",
        "-E",
        "aggregator=;",
        "-Y",
        prefix,
    ]
    command += ["-o", "tcp.reassemble_out_of_order:TRUE", "-d", f"{layer}.port=={PORTS},{prefix}"]
    for field in fields:
        command += ["-e", field]
    text = subprocess.run(
        command, stdout=subprocess.PIPE, stderr=subprocess.DEVNULL, text=True, check=True
    ).stdout
    for line in text.splitlines():
        yield [[v for v in part.split(";") if v] for part in line.split("|")]


def messages(capture: str, layer: str, prefix: str) -> Iterator[str]:
    clients, changed, parts = {}, set(), {}
    for (
        time,
        tcp,
        udp,
        tcp_port,
        udp_port,
        contents,
        types,
        lengths,
        levels,
        codes,
        *fragments,
    ) in rows(capture, layer, prefix):
        stream, port = (tcp + udp)[0], (tcp_port + udp_port)[0]
        client = clients.setdefault(stream, port)
        front = f"{Path(capture).stem} {client} {'client' if port == client else 'server'} {float(time[0]):.6f}"
        for place, (kind, length) in enumerate(zip(types, lengths)):
            if fragments:
                key = stream, port, fragments[0][place]
                had = parts[key] = parts.get(key, 0) + int(fragments[1][place])
                if had < int(length):
                    continue
            yield f"{front} {kind} {length}"
        # After a ChangeCipherSpec of its side tshark may take what is encrypted for an alert.
        if (stream, port) not in changed and "20" not in contents:
            for level, code in zip(levels, codes):
                yield f"{front} alert {level} {code}"
        if "20" in contents:
            changed.add((stream, port))


def write(words: list[str]) -> None:
    if not words:
        sys.exit(__doc__)
    for capture in words:
        for layer, prefix in (("tcp", "tls"), ("udp", "dtls")):
            for line in messages(capture, layer, prefix):
                print(line)
