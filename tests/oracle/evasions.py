"""Compares the expected lines of captures/evasions with tshark's fields.

tests/oracle/compare evasions FOLDER [NAME..]

FOLDER has what the recorder of evasions wrote. tshark doesn't drop the packets that a host drops,
so it reads each capture without those that wanted.json has as dropped. Scenes in which tshark reads
other bytes than the host are printed with the reason, and aren't compared.
"""

from __future__ import annotations

import json
import sys
import tempfile
from pathlib import Path

from tests.oracle import wanted
from tests.support import packets

PORTS = "14433-45999"
# Scenes, by the fronts of their names.
LEFT_OUT = {
    "data_in_syn_": "tshark takes data in a SYN",
    "data_in_time_wait": "tshark joins the connections",
    "overlap_": "tshark takes the bytes that came first",
    "servers_overlap_": "tshark takes the bytes that came first",
    "urgent_": "tshark takes urgent bytes",
    "second_syn_within": "tshark joins the openings",
    "rst_next_expected_in_syn_received": "tshark joins the openings",
    "time_wait_": "tshark joins the connections",
    "syn_in_time_wait": "tshark joins the connections",
    "syn_answered": "tshark has the lines in another order",
    "half_open_recovery_captured": "tshark has the lines in another order",
    "split_handshake": "tshark's originator is the sender of the first SYN/ACK",
    "simultaneous_open": "tshark's originator is the sender of the first SYN/ACK",
    "client_of_tls_accepts": "tshark's originator is the client of TLS",
    "keep_alive_": "without the keep-alive tshark's originator is another",
    "data_beyond_the_window_opening_missing": "without the first packet tshark's originator is the server",
}
# Fields that tshark counts by a stale ACK, by a part or a FIN that waits, or up to an RST that the
# peer doesn't take.
FEWER = {
    "half_open_recovery": ["resp_bytes"],
    "stale_ack_to_a_syn": ["orig_bytes", "resp_bytes"],
    "syn_ack_of_wrong_acknowledgement": ["orig_bytes"],
    "ack_wrong_in_syn_received": ["resp_bytes"],
    "fin_ahead": ["orig_bytes"],
    "data_ahead_of_the_fin": ["orig_bytes"],
}
FIELDS = """
    id.orig_h id.orig_p id.resp_h id.resp_p server_name version cipher established outcome ssl_history cert_chain_fps orig_bytes resp_bytes
""".split()


def without(capture: bytes, places: set[int]) -> bytes:
    """The capture without the packets of these numbers, from 1 on."""
    ends = packets.ends_of_packets(capture)
    begins = [packets.FILE_HEADER, *ends]
    kept = [
        capture[begins[number] : ends[number]]
        for number in range(len(ends))
        if number + 1 not in places
    ]
    return capture[: packets.FILE_HEADER] + b"".join(kept)


def compare(words: list[str]) -> int:
    if not words:
        sys.exit(__doc__)
    folder, names = Path(words[0]), words[1:]
    compared = differ = 0
    for one in json.loads((folder / "wanted.json").read_text())["captures"]:
        name = one["capture"].removesuffix(".pcap")
        if names and name not in names:
            continue
        reason = next(
            (reason for front, reason in LEFT_OUT.items() if name.startswith(front)), None
        )
        if reason:
            print(f"{name}: not compared: {reason}")
            continue
        with tempfile.NamedTemporaryFile(suffix=".pcap") as file:
            file.write(
                without(
                    (folder / one["capture"]).read_bytes(),
                    {drop["packet"] for drop in one["dropped"]},
                )
            )
            file.flush()
            lines = wanted.lines(file.name, PORTS, "udp" in name)
        mine = one["lines"]
        if len(lines) != len(mine):
            print(f"{name}: {len(mine)} lines, of tshark {len(lines)}")
            differ += 1
        for my, other in zip(mine, lines):
            for field in FIELDS:
                if field in my and field not in FEWER.get(name, []):
                    compared += 1
                    if my[field] != other.get(field):
                        print(f"{name}: {field}: wanted {my[field]!r}, tshark {other.get(field)!r}")
                        differ += 1
    print(f"{compared} values, {differ} differences")
    return 1 if differ else 0
