"""Handshakes of this machine's OpenSSL and GnuTLS, through a relay on 127.0.0.1, as lines.

Each conversation becomes NAME.lines, with a line for each piece that the relay saw, in order: '>'
(to the server) or '<', a blank, and the piece in hexadecimal. Of DTLS a line is a datagram.
`tests/flow_rows/make` reads these files. It needs `openssl`, `gnutls-cli` and `gnutls-serv`.
"""

from __future__ import annotations

import tempfile
from pathlib import Path

from tests.recorders import handshakes

# tests/flow_rows/rows has these lines, and no file of their own.
FOLDER = None



def names() -> list[str]:
    return list(handshakes.conversations())


def record(folder: Path, chosen: list[str]) -> bool:
    known = handshakes.conversations()
    with tempfile.TemporaryDirectory() as room:
        work = Path(room)
        handshakes.make_keys(work)
        (work / "psk.txt").write_text("me:1a2b3c4d\n")
        for name in chosen or known:
            handshakes.record(work, folder, name, *known[name])
    return True
