"""Captures of TLS with packets that a host drops or treats specially.

In a network namespace, this machine's kernel is the host, with OpenSSL's s_server or s_client; this
program is the other end of the wire. Each scene becomes a capture and an entry of wanted.json. If
the host behaves otherwise, the scene is printed with the reason.
"""

from __future__ import annotations

import json
import os
import subprocess
import tempfile
from pathlib import Path
from typing import Any

from tests.support import script
from tests.recorders.evasions import (  # noqa: F401
    acceptance,
    clients,
    endings,
    fragments,
    openings,
    overlaps,
    reopenings,
    room as rooms,
    sums,
    windows,
)
from tests.recorders.evasions.common import SCENES, Scene


FOLDER = Path(__file__).resolve().parents[3] / "captures/evasions"
# Names that make a certificate longer than a segment.
NAMES = ",".join(f"DNS:name{number}.of.a.long.certificate.test" for number in range(60))


def make_keys(work: Path) -> None:
    for name in ("real", "other", "large"):
        subject = "real" if name == "large" else name
        words = f"openssl req -x509 -nodes -days 3650 -subj /CN={subject}.test -newkey ec -pkeyopt ec_paramgen_curve:P-256"
        words += f" -addext subjectAltName={NAMES}" if name == "large" else ""
        subprocess.run(
            f"{words} -keyout {name}.key -out {name}.pem".split(),
            cwd=work,
            check=True,
            stderr=subprocess.DEVNULL,
        )


def play(
    one: Scene, number: int, work: Path, reasons: rooms.Reasons
) -> tuple[bytes, dict[str, Any]]:
    """Records a scene. Returns its capture and its entry of wanted.json."""
    room = rooms.Room(work, reasons, number, one.offloads)
    try:
        room.set(**one.settings)
        one.play(room)
        drops = [
            {"packet": sent["place"], "why": sent["why"]}
            for sent in room.sendings
            if sent.get("why") and sent["is_recorded"]
        ]
        told = {
            "capture": f"{one.name}.pcap",
            "is": one.says,
            "rule": one.rule,
            "lines": room.lines,
            "dropped": drops,
        }
        told |= {"host": room.told(), "seen": room.notes}
        return room.wire.pcap(), told
    except (RuntimeError, OSError) as reason:
        raise RuntimeError("\n  ".join([str(reason), *room.notes])) from reason
    finally:
        room.close()


def with_why(told: dict[str, Any], had: dict[str, Any]) -> dict[str, Any]:
    """Returns the entry with the handwritten `why` of the one that it replaces."""
    noted = {"why": had["why"]} if "why" in had else {}
    return {name: told[name] for name in ("capture", "is", "rule")} | noted | told


def names() -> list[str]:
    return [one.name for one in SCENES]


def record(out: Path, chosen: list[str]) -> bool:
    script.enter_own_network("--mount")
    subprocess.run("mount -t sysfs nodev /sys".split(), check=True)
    subprocess.run(
        f"mount -t tracefs nodev {rooms.TRACING}".split(), check=False, stderr=subprocess.DEVNULL
    )
    rooms.prepare()
    reasons, wanted, failed = rooms.Reasons(), [], False
    file = out / "wanted.json"
    had = (
        {one["capture"]: one for one in json.loads(file.read_text())["captures"]}
        if file.exists()
        else {}
    )
    try:
        with tempfile.TemporaryDirectory() as room:
            make_keys(Path(room))
            for number, one in enumerate(SCENES):
                if chosen and one.name not in chosen:
                    wanted += [had[f"{one.name}.pcap"]] if f"{one.name}.pcap" in had else []
                    continue
                try:
                    capture, told = play(one, number, Path(room), reasons)
                except RuntimeError as reason:
                    print(f"{one.name}: {reason}", flush=True)
                    failed = True
                    continue
                (out / told["capture"]).write_bytes(capture)
                wanted.append(with_why(told, had.get(told["capture"], {})))
    finally:
        reasons.close()
    told = {
        "kernel": os.uname().release,
        "openssl": rooms.run("openssl version").strip(),
        "captures": wanted,
    }
    file.write_text(json.dumps(told, indent=1) + "\n")
    return not failed
