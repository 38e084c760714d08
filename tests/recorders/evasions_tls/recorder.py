"""Captures of live handshakes with injected hellos, records and datagrams.

wanted.json gets what the peers did, and the expected lines. It needs `openssl`, `gnutls-cli`,
`gnutls-serv`, `tcpdump`, `tshark`, `unshare`, `stdbuf` and `ip`.
"""

from __future__ import annotations

import tempfile
from collections.abc import Callable
from pathlib import Path
from typing import Any

from tests.recorders import peers, wanted_entries
from tests.recorders.evasions_tls import associations, datagrams, streams

FOLDER = Path(__file__).resolve().parents[3] / "captures/evasions_tls"



def captures() -> dict[str, Callable[[Path, Path], tuple[Path, list[Any], Any]]]:
    """Returns the scenes by name. Each is a function that records the scene, and returns its
    expected lines and what the peers did."""
    found = {}
    for module in (datagrams, streams, associations):
        for name, make in module.captures().items():
            found[name] = make
    return found


def names() -> list[str]:
    return list(captures())


def record(folder: Path, chosen: list[str]) -> bool:
    peers.enter_own_network()
    known, is_well = captures(), True
    with tempfile.TemporaryDirectory() as room:
        work = Path(room)
        peers.make_keys(work)
        for name in chosen or known:
            try:
                file, lines, seen = known[name](work, folder)
            except (ValueError, KeyError) as fault:
                print(name, "isn't as it was:", repr(fault), flush=True)
                is_well = False
                continue
            wanted_entries.keep(folder, file.name, {"peers": seen, "lines": lines})
            print(file.name, file.stat().st_size, "bytes", seen, flush=True)
    return is_well
