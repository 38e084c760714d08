"""Parts that divide a capture: into files, parts of a run, networks, workers and single bytes."""

from __future__ import annotations

import json
import subprocess
import sys
import time
from collections.abc import Iterator

from tests.support import fragmenting, packets
from tests.tlslog import shared_runs
from tests.tlslog.program import IO, Program, key, parsed, sorted_text, stop, without
from tests.tlslog.rewritten import has_room
from tests.tlslog.stored import TOP, Stored, of_packets, report_of


def joined(program: Program, captures: list[Stored]) -> None:
    """Each cut into files, which --join reads as one capture."""
    for capture in captures:
        for count in (2, 3, len(capture.segments)):
            files = []
            for number, part in enumerate(shared_runs.rotated(capture.segments, count)):
                files.append(program.room / f"rotated{number}.pcap")
                files[-1].write_bytes(part)
            status, text, report = program.run(["--join", *files])
            wanted = report_of("all captures", capture.lines, len(capture.segments))
            if status or parsed(text) != capture.lines or report != wanted:
                stop(f"{capture.name} in {len(files)} files: {status}, {report}{text}")
    broken = program.room / "broken.pcap"
    broken.write_bytes(captures[0].bytes + b"\0")
    none = program.room / "no such file"
    status, text, report = program.run(["--join", broken, none, "-"], captures[-1].bytes)
    found, wanted = map(key, parsed(text)), map(key, captures[0].lines + captures[-1].lines)
    if status != 3 or sorted(found) != sorted(wanted) or f"{none}: cannot open" not in report:
        stop(f"joined to a truncated capture and a missing one: {status}, {report}{text}")
    print(f"tlslog: {len(captures)} captures in several files, joined: the stored lines")


def parts(program: Program, captures: list[Stored]) -> None:
    """All lines of all parts are those of a run without parts, each in the part that follows from
    its addresses and ports."""
    files = []
    for number, capture in enumerate(captures):
        files.append(program.room / f"shared{number}.pcap")
        files[-1].write_bytes(capture.bytes)
    whole = [line for capture in captures for line in capture.lines]
    for count in (1, 2, 3, 8):
        found = []
        for number in range(1, count + 1):
            status, text, report = program.run(["--part", f"{number}/{count}", *files])
            lines = parsed(text)
            if not len(whole) / 4 <= len(lines) * count <= len(whole) * 4 and count < 8:
                stop(f"part {number} of {count} has {len(lines)} of {len(whole)} lines")
            others = any(shared_runs.part_of(line, count) != number for line in lines)
            if status or others or (count > 1) != ("packets of other parts" in report):
                stop(f"part {number} of {count}: {status}, {report}{text}")
            found += lines
        if sorted(map(json.dumps, found)) != sorted(map(json.dumps, whole)):
            stop(f"{count} parts have {len(found)} lines; without parts they are {len(whole)}")
    print(f"tlslog: {len(whole)} lines in parts are those without parts")


def halves_by_turns(
    segments: list[packets.Segment], both: list[packets.InNetwork]
) -> Iterator[tuple[int, bytes]]:
    """Each datagram in two fragments, in two networks by turns, with the same identification."""
    for number, s in enumerate(segments):
        for half in fragmenting.halves(s.frame(), number):
            for put, _ in both:
                yield s.time, put(half)


def by_network(program: Program, captures: list[Stored]) -> None:
    """Each in two networks at once, whose packets alternate: by --by-network the stored lines for
    each network, also with each datagram in two fragments. Without it the connections of two VLANs
    are one, with each packet twice, and by --merge-networks those of two tunnels."""
    count = 0
    for capture in filter(has_room, captures):
        pairs = list(packets.networks())
        made, cut = [], []
        for _, _, *both in pairs:
            frames = [(s.time, put(s.frame())) for s in capture.segments for put, _ in both]
            made.append(packets.pcap(frames))
            cut.append(packets.pcap(list(halves_by_turns(capture.segments, both))))
        apart = program.each(made, {0}, f"{capture.name}, by network", ["--by-network"])
        mixed = program.each(made, {0}, f"{capture.name}, in two networks")
        merged = program.each(made, {0}, f"{capture.name}, merged", ["--merge-networks"])
        cut_apart = program.each(
            cut, {0}, f"{capture.name}, cut, by network", ["--by-network"]
        )
        cut_mixed = program.each(cut, {0}, f"{capture.name}, cut, in two networks")
        left_out = [*of_packets(capture.lines), "tunnels", "tunnel_ids"]
        for (what, is_apart, *both), lines, by_tunnels, as_one, by_halves, in_halves in zip(
            pairs, apart, mixed, merged, cut_apart, cut_mixed
        ):
            tunnels = [
                {"tunnels": names, "tunnel_ids": numbers} if names else {}
                for _, (names, numbers) in both
            ]
            wanted = [{**line, **more} for line in capture.lines for more in tunnels]
            if sorted(map(sorted_text, lines)) != sorted(map(sorted_text, wanted)):
                stop(f"{capture.name}, in {what}: other lines by network: {lines}")
            wanted_texts = sorted(map(sorted_text, wanted))
            for found in [by_halves, in_halves] if is_apart else [by_halves]:
                if sorted(map(sorted_text, found)) != wanted_texts:
                    stop(f"{capture.name}, cut, in {what}: other lines: {found}")
            if is_apart and sorted(map(sorted_text, by_tunnels)) != wanted_texts:
                stop(f"{capture.name}, in {what}: other lines by tunnels: {by_tunnels}")
            for found in [as_one] if is_apart else [as_one, by_tunnels]:
                if without(left_out, found) != without(left_out, capture.lines):
                    stop(f"{capture.name}, in {what}: other lines: {found}")
        count += len(pairs)
    print(f"tlslog: {count} captures in two networks: the stored lines, twice by network")


def shared(program: Program, captures: list[Stored]) -> None:
    """Captures shared by the workers of a Dask cluster, if a Python has Dask: the stored lines,
    sorted by time."""
    for python in (sys.executable, "/usr/bin/python3"):
        asked = subprocess.run([python, "-c", "import distributed"], stderr=subprocess.DEVNULL)
        if asked.returncode == 0:
            break
    else:
        print("tlslog: SKIPPED: there is no Dask to share captures by")
        return
    files = []
    for number, capture in enumerate(captures[:6]):
        files.append(program.room / f"by_dask{number}.pcap")
        files[-1].write_bytes(capture.bytes)
    words = [python, TOP / "bindings/python/shared_log.py", "--workers", "2", "--parts", "3"]
    words += ["--program", program.file, *files]
    ran = subprocess.run(words, stdout=subprocess.PIPE, stderr=subprocess.PIPE, text=True)
    wanted = [line for capture in captures[:6] for line in capture.lines]
    lines = parsed(ran.stdout)
    is_sorted = [line["ts"] for line in lines] == sorted(line["ts"] for line in wanted)
    is_same = sorted(map(json.dumps, lines)) == sorted(map(json.dumps, wanted))
    if ran.returncode or not is_sorted or not is_same:
        stop(f"by Dask: {ran.returncode}, {ran.stderr[-1000:]}{lines}")
    print(f"tlslog: {len(wanted)} lines by two workers of Dask: the stored lines")


def by_bytes(program: Program, captures: list[Stored]) -> None:
    """The smallest capture, through a pipe that gives one byte at a time."""
    capture = min(captures, key=lambda capture: len(capture.bytes))
    pipes = dict.fromkeys(("stdin", "stdout", "stderr"), subprocess.PIPE)
    with subprocess.Popen([program.file], bufsize=0, **pipes) as running:
        for byte in capture.bytes:
            running.stdin.write(bytes([byte]))
            time.sleep(0.0001)
        running.stdin.close()
        lines = parsed(running.stdout.read().decode())
    if running.returncode or lines != capture.lines:
        stop(f"{capture.name}, by bytes: {running.returncode}, {lines}")
    print(f"tlslog: a capture of {len(capture.bytes)} bytes, one at a time: its lines")


def in_single_bytes(program: Program, captures: list[Stored]) -> None:
    """The smallest capture, with reads and writes that each move one byte."""
    capture = min(captures, key=lambda capture: len(capture.bytes))
    environment = {"LD_PRELOAD": str(program.library(IO)), "SHORT": "1"}
    status, text, _ = program.run(given=capture.bytes, env=environment)
    if status or parsed(text) != capture.lines:
        stop(f"{capture.name}, by reads and writes of one byte: {status}, {text}")
