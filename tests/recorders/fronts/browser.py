"""A capture of DTLS 1.3 as a browser speaks it: a data channel of WebRTC from headless Chromium to
itself, beside the STUN of ICE."""

from __future__ import annotations

import subprocess
import tempfile
import time
from pathlib import Path

from tests.recorders import peers
from tests.oracle import wanted
from tests.support import packets
from tests.recorders.fronts import expected
from tests.support.shapes import Line

NAME, SHORT = "browser_dtls13", "browser_dtls13_short"
PAGE = """<script>
(async () => {
  const a = new RTCPeerConnection(), b = new RTCPeerConnection();
  a.onicecandidate = e => e.candidate && b.addIceCandidate(e.candidate);
  b.onicecandidate = e => e.candidate && a.addIceCandidate(e.candidate);
  const channel = a.createDataChannel("x");
  channel.onopen = () => channel.send("hello");
  b.ondatachannel = e => e.channel.onmessage = async m => {
    for (const [_, s] of await a.getStats())
      if (s.type == "transport") console.log("SEEN", m.data, s.tlsVersion, s.dtlsCipher, s.dtlsState, s.dtlsRole);
    a.close();
    b.close();
  };
  await a.setLocalDescription(await a.createOffer());
  await b.setRemoteDescription(a.localDescription);
  await b.setLocalDescription(await b.createAnswer());
  await a.setRemoteDescription(b.localDescription);
})();
</script>
"""
BROWSER = "chromium --headless --no-sandbox --disable-gpu --enable-logging=stderr --user-data-dir=room page.html"
BROWSER += " --disable-features=WebRtcHideLocalIpsWithMdns"
# The browser doesn't offer addresses of `lo`, so another device is made. Packets to that device's
# own address still pass `lo`.
DEVICE = [
    "link add d0 type veth peer name d1",
    "addr add 192.0.2.1/24 dev d0",
    "link set d0 up",
    "link set d1 up",
    "route add default dev d0",
]
HANDSHAKES = range(20, 27)


# Recorded by hand (captures/fronts/README.md), and how long the connection ids are.
KEPT = {"dtls13_chromium": 0, "dtls13_wolfssl_connection_ids": 2}


def count(datagram: bytes, connection_id: int) -> int:
    """Counts the records of a datagram (RFC 9147, section 4), with the header of 13 bytes or the
    unified one. `connection_id` is the length of connection IDs."""
    found = 0
    while datagram:
        first = datagram[0]
        if first >> 5 == 1:
            head = 1 + (connection_id if first & 0x10 else 0) + (2 if first & 8 else 1)
            length = (
                int.from_bytes(datagram[head : head + 2], "big") + 2
                if first & 4
                else len(datagram) - head
            )
            datagram = datagram[head + length :]
        elif first in HANDSHAKES and datagram[1:2] == b"\xfe":
            datagram = datagram[13 + int.from_bytes(datagram[11:13], "big") :]
        else:
            return found  # STUN, whose first byte is less than 4 (RFC 9443).
        found += 1
    return found


def record(folder: Path) -> list[Line]:
    file = folder / f"{NAME}.pcap"
    for words in DEVICE:
        subprocess.run(["ip", *words.split()], check=True)
    with tempfile.TemporaryDirectory(ignore_cleanup_errors=True) as room, peers.Dump(file, "udp"):
        (Path(room) / "page.html").write_text(PAGE)
        browser = peers.Peer(room, BROWSER, "browser")
        browser.waits_for(["SEEN"], 15)
        time.sleep(0.5)
        browser.process.terminate()
        browser.process.wait(5)
        said = [line.split('"')[1] for line in browser.output().splitlines() if "SEEN" in line]
    print(NAME, file.stat().st_size, "bytes", said, flush=True)
    if (
        not said
        or said[0].split()[:5] != "SEEN hello FEFC TLS_AES_128_GCM_SHA256 connected".split()
    ):
        raise ValueError("another version")
    return lines(file)


def shortened(datagram: bytes) -> bytes:
    """Returns the datagram with 1-byte sequence numbers in its unified records, and the last one
    without a length. Nobody can decrypt these records any more."""
    found = b""
    while datagram and datagram[0] >> 2 == 0b001011:
        end = 5 + int.from_bytes(datagram[3:5], "big")
        is_last = end >= len(datagram)
        found += (
            bytes([datagram[0] & (0b11110011 if is_last else 0b11110111)])
            + datagram[2 : 3 if is_last else 5]
            + datagram[5:end]
        )
        datagram = datagram[end:]
    return found + datagram


def record_short(folder: Path) -> list[Line]:
    """Derives the other forms of the unified header (RFC 9147, section 4) from the capture."""
    file = folder / f"{SHORT}.pcap"
    made = []
    for one in packets.read((folder / f"{NAME}.pcap").read_bytes()):
        payload = shortened(one.payload)
        made.append(
            packets.replace(
                one,
                tcp=one.tcp[:4] + (len(payload) + 8).to_bytes(2, "big") + bytes(2),
                payload=payload,
            )
        )
    file.write_bytes(packets.pcap([(one.time, one.frame()) for one in made]))
    return lines(file)


def lines(file: Path, connection_id: int = 0) -> list[Line]:
    [found] = wanted.lines(file, udp=True)
    segments = packets.read(file.read_bytes())
    of_orig = segments[0].source
    records = {
        side: sum(
            count(one.payload, connection_id) for one in segments if (one.source == of_orig) == side
        )
        for side in (True, False)
    }
    certain = {
        "version": "DTLSv13",
        "cipher": "TLS_AES_128_GCM_SHA256",
        "established": True,
        "outcome": "tls13",
    }
    by_hand = {"orig_records": records[True], "resp_records": records[False]}
    if found.get("retried"):
        # tshark reports the HelloRetryRequest of DTLS as a ServerHello.
        by_hand["ssl_history"] = "CjCs"
    if any(found[field] != value for field, value in certain.items()):
        raise ValueError(f"tshark has other fields: {found}")
    # JA4 of DTLS 1.3 depends on which version counts as the highest; tshark doesn't count unified
    # records.
    fields = {field: value for field, value in found.items() if field not in ("ja4",)} | by_hand
    others = [field for field in fields if field not in certain and field not in by_hand]
    sources = {
        "seen": list(certain),
        "RFC 9147, 4, by hand": list(by_hand),
        "tshark": [*others, "last_alert"],
    }
    return [expected.line(fields, sources, ["last_alert"])]
