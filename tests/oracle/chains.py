"""The certificates that tshark has in captures: tests/oracle/write chains CAPTURE..

It prints a line for each Certificate in the clear that has some: the capture, the client's port, the
sender, and each certificate in base64, in the order of the chain. `captures/chains` was written so,
except for the second certificate of `cut_constraints`: tshark stops at the first.
"""

from __future__ import annotations

import base64
import subprocess
import sys
from collections.abc import Iterator
from pathlib import Path

PORTS = "1024-65535"


def chains(capture: str, layer: str, prefix: str) -> Iterator[str]:
    command = ["tshark", "-r", str(capture), "-T", "fields", "-E", "separator=|", "-Y", prefix]
    command += ["-o", "tcp.reassemble_out_of_order:TRUE", "-d", f"{layer}.port=={PORTS},{prefix}"]
    for field in (f"{layer}.stream", f"{layer}.srcport", f"{prefix}.handshake.certificate"):
        command += ["-e", field]
    text = subprocess.run(
        command, stdout=subprocess.PIPE, stderr=subprocess.DEVNULL, text=True, check=True
    ).stdout
    clients = {}
    for line in text.splitlines():
        stream, port, certificates = line.split("|")
        client = clients.setdefault(stream, port)
        if certificates:
            texts = [
                base64.b64encode(bytes.fromhex(one)).decode() for one in certificates.split(",")
            ]
            yield " ".join(
                [Path(capture).stem, client, "client" if port == client else "server", *texts]
            )


def write(words: list[str]) -> None:
    if not words:
        sys.exit(__doc__)
    for capture in words:
        for layer, prefix in (("tcp", "tls"), ("udp", "dtls")):
            for line in chains(capture, layer, prefix):
                print(line)
