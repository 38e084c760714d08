"""Expected lines of captures in which TLS comes after other bytes: tshark's fields if it finds the
TLS, and what the peers saw."""

from __future__ import annotations

from collections.abc import Iterable
from pathlib import Path

from tests.oracle import wanted
from tests.support import packets, suite_names
from tests.support.shapes import Line

NAMES = {"TLSv1.2": "TLSv12", "TLSv1.3": "TLSv13"}
# The source of `search`.
NO_DIALOGUE = "by hand: no dialogue of docs/CAPTURES.md has these bytes"


def line(fields: Line, sources: dict[str, list[str]], absent: Iterable[str] = ()) -> Line:
    """Returns an expected line. `from` lists the fields by source; those in `absent` must be
    missing."""
    given = {
        source: [name for name in names if name in fields or name in absent]
        for source, names in sources.items()
    }
    missing = {*fields, *absent} - {name for names in given.values() for name in names}
    if missing:
        raise ValueError(f"from nowhere: {missing}")
    return {"line": fields, "absent": list(absent), "from": given}


def ends(file: Path, port: int) -> Line:
    """Returns the connection's addresses and ports, by its first packet."""
    first = packets.read(file.read_bytes())[0]
    source, destination = (
        (".".join(map(str, address)), int.from_bytes(number, "big"))
        for address, number in (first.source, first.destination)
    )
    if destination[1] != port:
        raise ValueError("not the client's packet")
    return {
        "id.orig_h": source[0],
        "id.orig_p": source[1],
        "id.resp_h": destination[0],
        "id.resp_p": destination[1],
    }


def of_front(
    file: Path, port: int, seen: Line, found_by: str, decoded: int | None = None
) -> list[Line]:
    """Returns one line. Fields that both tshark and the peer know must agree. tshark takes the port
    `decoded` for TLS."""
    found = wanted.lines(file, decoded)
    source = "the dialogue" if found_by != "search" else NO_DIALOGUE
    known = ends(file, port)
    by_peer = {
        "server_name": seen["server_name"],
        "version": NAMES[seen["version"]],
        "established": True,
        "orig_preamble_bytes": seen["orig_front"],
        "resp_preamble_bytes": seen["resp_front"],
    }
    # A side without a preamble lacks the field, and so does a client that names no server.
    may_lack = ("server_name", "orig_preamble_bytes", "resp_preamble_bytes")
    none = [field for field in may_lack if not by_peer[field]]
    by_peer = {field: value for field, value in by_peer.items() if field not in none}
    if not found:
        fields = {
            **known,
            "proto": "tcp",
            **by_peer,
            "found_by": found_by,
            "outcome": "tls13" if by_peer["version"] == "TLSv13" else "full",
        }
        return [
            line(
                fields,
                {
                    "the first packet": [*known, "proto"],
                    "seen": [*by_peer, "outcome", "last_alert", *none],
                    source: ["found_by"],
                },
                ["last_alert", *none],
            )
        ]
    [fields] = found
    for field, value in {**known, **by_peer}.items():
        if not field.endswith("preamble_bytes") and fields[field] != value:
            raise ValueError(f"{field}: tshark {fields[field]!r}, the peer {value!r}")
    fields |= {**by_peer, "found_by": found_by}
    others = [field for field in fields if field not in (*by_peer, "found_by")]
    return [
        line(
            fields,
            {
                "seen": [*by_peer, *none],
                "tshark": [*others, "last_alert", "gap"],
                source: ["found_by"],
            },
            ["last_alert", "gap", *none],
        )
    ]


def of_none(file: Path) -> list[Line]:
    """Expects no line: tshark finds no TLS, and the peers speak none."""
    if wanted.lines(file):
        raise ValueError("tshark finds TLS")
    return []


def suites_of(hello: bytes) -> list[str]:
    """Returns the suites of a hello in SSL 2.0's form. Those of TLS begin with a byte of 0 (RFC
    5246, appendix E.2)."""
    behind = hello[11 : 11 + int.from_bytes(hello[5:7], "big")]
    parts = [behind[at : at + 3] for at in range(0, len(behind), 3)]
    return [suite_names.named("0x" + (part[1:] if part[0] == 0 else part).hex()) for part in parts]


def of_old_hello(file: Path, hello: bytes, fault: str) -> list[Line]:
    """Returns one line. The client's fields come from the bytes of its hello, which tshark doesn't
    parse, the server's from tshark."""
    [found] = wanted.lines(file)
    session = int.from_bytes(hello[7:9], "big")
    at = 11 + int.from_bytes(hello[5:7], "big")
    version = wanted.VERSIONS.get(int.from_bytes(hello[3:5], "big"), f"0x{hello[3:5].hex()}")
    by_hand = {"client_version": version, "client_ciphers": suites_of(hello)}
    by_hand |= {"client_session_id": hello[at : at + session].hex()} if session else {}
    of_tshark = """
        ts id.orig_h id.orig_p id.resp_h id.resp_p proto duration version cipher established outcome resumed orig_pkts resp_pkts
        orig_bytes resp_bytes resp_records server_version server_session_id comp_method ssl_server_exts cert_count cert_lengths
        cert_chain_fps ja3s ja3s_string
    """.split()
    of_tshark += ["last_alert"] if fault else []
    fields = {field: found[field] for field in of_tshark if field in found} | by_hand
    not_there = [
        "ssl_client_exts",
        "client_supported_versions",
        "server_name",
        "client_comp_methods",
    ]
    unprinted = ["ja3", "ja3_string"] + ([] if fault else ["last_alert"])
    sources = {
        "RFC 5246, appendix E.2, by hand": [*by_hand, *not_there],
        "tshark": [*of_tshark, *unprinted],
    }
    return [line(fields, sources, [*not_there, *unprinted])]
