#!/usr/bin/env python3
"""Logs captures on the workers of a Dask cluster, and prints one log, sorted by time.

    shared_log.py [--scheduler ADDRESS] [--workers N] [--parts N] [--program PATH] CAPTURE..

Each task is one part of one capture (tlslog --part). Without --scheduler the workers are processes
of this machine. The program and the captures must have the same paths on all workers.
"""

import argparse
import heapq
import json
import os
import subprocess
import sys


def order(line):
    return json.loads(line)["ts"], line


def part_of(program, capture, number, count):
    """The status, the sorted lines and the standard error of tlslog for one part of a capture."""
    ran = subprocess.run(
        [program, "--part", f"{number}/{count}", capture],
        stdout=subprocess.PIPE,
        stderr=subprocess.PIPE,
        text=True,
    )
    if ran.returncode not in (0, 1):
        raise RuntimeError(
            f"{program}, part {number} of {count}: status {ran.returncode}: {ran.stderr}"
        )
    return ran.returncode, sorted(ran.stdout.splitlines(), key=order), ran.stderr


def arguments():
    about = "Logs captures on the workers of a Dask cluster, and prints one log, sorted by time."
    parser = argparse.ArgumentParser(description=about)
    scheduler = "the address of the cluster's scheduler (default: start workers on this machine)"
    workers = "the number of workers on this machine (default: its cores)"
    parts = "the parts that each capture is split into (default: %(default)s)"
    parser.add_argument("--scheduler", help=scheduler)
    parser.add_argument("--workers", type=int, default=os.cpu_count(), help=workers)
    parser.add_argument("--parts", type=int, default=4, help=parts)
    parser.add_argument("--program", default="tlslog", help="its path (default: %(default)s)")
    parser.add_argument("captures", nargs="+")
    return parser.parse_args()


def main():
    asked = arguments()
    from distributed import Client, LocalCluster

    cluster = asked.scheduler or LocalCluster(
        n_workers=asked.workers, threads_per_worker=1, dashboard_address=None
    )
    with Client(cluster) as client:
        tasks = [
            (asked.program, capture, number, asked.parts)
            for capture in asked.captures
            for number in range(1, asked.parts + 1)
        ]
        found = client.gather(client.map(part_of, *zip(*tasks), pure=False))
    for _, _, messages in found:
        sys.stderr.write(messages)
    for line in heapq.merge(*(lines for _, lines, _ in found), key=order):
        print(line)
    sys.exit(max(status for status, _, _ in found))


if __name__ == "__main__":
    main()
