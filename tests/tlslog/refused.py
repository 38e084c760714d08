"""Parts that refuse memory, reads and writes, and that limit the memory."""

from __future__ import annotations

import collections
import re
import resource
import subprocess
import sys
from collections.abc import Collection
from pathlib import Path

from tests.support import packets
from tests.tlslog.program import FAULTS, HEAP, IO, Program, parsed, sorted_text, stop, without
from tests.tlslog.stored import Stored

# Captures on which each request is refused, and those for --messages, --certificates and formats.
REFUSED = ["mixed", "openssl_tls13_resumed", "openssl_rsa"]
AS_MESSAGES = ["openssl_client_certificate_rsa", "openssl_dtls12_client_certificate"]
# What standard error has of connections that were closed to free memory.
ENDS = re.compile(r"left out: (\d+) connections? that ended early, for lack of memory")
# `tests/faults/many full` makes this many connections with full buffers, more than three times the
# limit.
FULL, LIMIT = 400, 64 * 2**20
# `tests/faults/many chains` makes this many connections with long chains.
CHAINED = 1200


def without_times(text: str) -> str:
    """The text without the lines in which a log of Zeek's has the time of the run."""
    lines = text.splitlines(keepends=True)
    return "".join(line for line in lines if not line.startswith(("#open\t", "#close\t")))


def refuse_each(
    program: Program,
    captures: list[Stored],
    library: Path,
    what: str,
    names: Collection[str] = REFUSED,
    arguments: Collection[str] = (),
) -> None:
    """Refuses each request of a kind in turn. The status is 3, after a prefix of the lines; or the
    program did without, and prints all; or connections ended early, and the others have their
    lines; or events of Suricata's lack certificates."""
    count = early = bare = 0
    is_suricata = "suricata" in arguments
    counter = program.room / "told"
    has_connections = not {"--messages", "--certificates"} & set(arguments)
    for capture in [capture for capture in captures if capture.name in names]:
        whole, number, made = without_times(program.run(arguments, capture.bytes)[1]), 0, 1
        while made >= number:
            number += 1
            preload = {"LD_PRELOAD": str(library), "REFUSED": str(number), "COUNT_FILE": str(counter)}
            status, text, report = program.run(arguments, capture.bytes, env=preload)
            text = without_times(text)
            made = int.from_bytes(counter.read_bytes(), sys.byteorder)
            counter.unlink()
            is_reported = made >= number and status == 3 and whole.startswith(text)
            if not is_reported and (status, text) != (0, whole):
                if is_suricata and status == 0 and lacks_certificates(whole, text):
                    bare += 1
                    continue
                if status or not others_stay(whole, text, report, has_connections):
                    which = f"{number} of {made} {what} refused"
                    stop(f"{capture.name}: {which}: {status}, {text[-500:]}")
                early += 1
        count += number - 1
    if not count:
        stop(f"none of the {what} was refused")
    if is_suricata and not bare:
        stop(f"no event lacks its certificates if {what} are refused")
    ended = f", or, {early} times, connections that end early" if early else ""
    ended += f", or, {bare} times, events without certificates" if bare else ""
    options = f" with {' '.join(arguments)}" if arguments else ""
    answer = f"status 3, with a prefix of the lines{ended}"
    print(f"tlslog: each of {count} {what}{options} refused: {answer}")


def lacks_certificates(whole: str, text: str) -> bool:
    """Whether these are the events of the whole log, except certificates and chains that some
    lack."""
    events, found = parsed(whole), parsed(text)
    for event, other in zip(events, found):
        client, other_client = event["tls"].get("client", {}), other["tls"].get("client", {})
        for was, now in ((event["tls"], other["tls"]), (client, other_client)):
            for name in {"certificate", "chain"} - {*now}:
                was.pop(name, None)
    return events == found


def others_stay(whole: str, text: str, report: str, has_connections: bool) -> bool:
    """Whether at most as many lines of connections are missing as the report has ends of, and each
    of these became two lines at most."""
    ends = ENDS.search(report)
    if ends is None:
        return False
    was, now = collections.Counter(whole.splitlines()), collections.Counter(text.splitlines())
    lost, new = (was - now).total(), (now - was).total()
    return not has_connections or (lost <= int(ends[1]) and new <= 2 * int(ends[1]))


# So many certificates a side has, and a connection at most so many lines of them.
LISTED, MOST_LINES = 42_000, 65_536


def bounded(program: Program, captures: list[Stored]) -> None:
    """Of connections with full buffers, the longest-idle ones end early, and the memory stays below
    the limit. The others, and those of a stored capture after them, have the lines that they have
    without a limit."""
    capture = next(capture for capture in captures if capture.name == "openssl_rsa")
    front, file = program.room / "front.pcap", program.room / "full.pcap"
    subprocess.run([FAULTS / "many", "full", str(FULL), front], check=True)
    file.write_bytes(front.read_bytes() + capture.bytes[packets.FILE_HEADER :])
    status, text, _ = program.run(["--memory", "none", file])
    free, count = parsed(text), FULL + len(capture.lines)
    if status or len(free) != count or any("ended_early" in line for line in free):
        stop(f"{FULL} connections with full buffers have {len(free)} lines")
    status, text, report = program.run(["--memory", str(LIMIT), file])
    # The sanitizers of an unproved build take memory of their own.
    bound = None if is_sanitized(program.file) else limit_memory
    if program.run(["--memory", str(LIMIT), file], preexec_fn=bound) != (status, text, report):
        stop(f"with a limit of {LIMIT} bytes a tenth more isn't enough")
    lines = parsed(text)
    early = [line for line in lines if line.get("ended_early")]
    ends = ENDS.search(report)
    if status or ends is None or int(ends[1]) != len(early) or not 0 < len(early) < FULL:
        stop(f"with a limit: {status}, {len(early)} of {FULL} end early: {report}")
    times = [line["ts"] for line in early]
    if early != lines[: len(early)] or times != sorted(times):
        stop("with a limit: they don't end in the order of their last packets")
    if sorted(map(sorted_text, without({"ended_early"}, lines))) != sorted(map(sorted_text, free)):
        stop("with a limit: other lines")
    size = LIMIT * 11 // 10
    print(f"tlslog: {len(early)} of {FULL} full connections end early, in {size} bytes")


def chains_bounded(program: Program, _: object) -> None:
    """Chains that are kept for eve.json count toward the limit: more connections end early than
    without them, memory stays below it, and each event has its chain."""
    file = program.room / "chains.pcap"
    subprocess.run([FAULTS / "many", "chains", str(CHAINED), file], check=True)
    bound = None if is_sanitized(program.file) else limit_memory
    early = []
    for name in ("json", "suricata"):
        words = ["--format", name, "--memory", str(LIMIT), file]
        status, text, report = program.run(words)
        ends = ENDS.search(report)
        if status or ends is None:
            stop(f"chains with a limit, as {name}: {status}, {report}")
        if program.run(words, preexec_fn=bound) != (status, text, report):
            stop(f"chains with a limit, as {name}: a tenth more isn't enough")
        early.append(int(ends[1]))
    if not early[0] < early[1] < CHAINED:
        stop(f"chains with a limit: {early} of {CHAINED} end early without and with them")
    events = parsed(text)
    if len(events) != CHAINED or any(len(event["tls"].get("chain", ())) != 3 for event in events):
        stop("chains with a limit: an event lacks its chain")
    ended = f"{early[1]} end early if these are kept, {early[0]} if not"
    print(f"tlslog: of {CHAINED} connections with long chains {ended}, in {LIMIT * 11 // 10} bytes")


def lines_bounded(program: Program, _: object) -> None:
    """A connection has at most 65,536 lines of certificates, and standard error counts the others;
    without a limit of memory it has all."""
    file = program.room / "listed.pcap"
    subprocess.run([FAULTS / "many", "listed", str(LISTED), file], check=True)
    for words, count in (([], MOST_LINES), (["--memory", "none"], 2 * LISTED)):
        status, text, report = program.run(["--certificates", "--fields", "ts", *words, file])
        wanted = [f"{file}: 1 connection gave more than 10000 lines, one of them {count}"]
        if count < 2 * LISTED:
            wanted.append(
                f"{file}: left out: {2 * LISTED - count} lines of connections that had reached their limit"
            )
        if status or text.count("\n") != count or report.splitlines()[-len(wanted) :] != wanted:
            stop(f"{text.count(chr(10))} lines of {2 * LISTED} certificates: {status}, {report}")
    print(f"tlslog: of {2 * LISTED} certificates of a connection {MOST_LINES} have lines")


def limit_memory() -> None:
    resource.setrlimit(resource.RLIMIT_AS, (LIMIT * 11 // 10,) * 2)


def is_sanitized(file: Path) -> bool:
    return b"__asan_" in file.read_bytes()


def refused_memory(program: Program, captures: list[Stored]) -> None:
    refuse_each(program, captures, program.library(HEAP), "requests for memory")


def refused_transfers(program: Program, captures: list[Stored]) -> None:
    refuse_each(program, captures, program.library(IO), "reads and writes")


def refused_on(program: Program, captures: list[Stored], *arguments: str) -> None:
    heap = program.library(HEAP)
    refuse_each(program, captures, heap, "requests for memory", AS_MESSAGES, arguments)


def refused_on_messages(program: Program, captures: list[Stored]) -> None:
    refused_on(program, captures, "--messages", "--format", "csv")


def refused_on_certificates(program: Program, captures: list[Stored]) -> None:
    refused_on(program, captures, "--certificates")


def refused_on_formats(program: Program, captures: list[Stored]) -> None:
    for name in ("zeek", "suricata", "text", "ecs"):
        refused_on(program, captures, "--format", name)
    arguments = ["--format", "zeek"]
    refuse_each(program, captures, program.library(IO), "reads and writes", AS_MESSAGES, arguments)
