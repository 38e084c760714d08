"""A heap that refuses the Nth request for memory of a program, and counts its requests."""

from __future__ import annotations

import os
import subprocess
import sys
from pathlib import Path

HEAP = Path(__file__).resolve().parent / "refusing_heap.c"
# All functions by which a program gets memory from the C library or the system. The heap of
# refusing_heap.c replaces the first two.
COVERED = {"malloc", "realloc"}
REQUESTS = COVERED | {
    "calloc",
    "reallocarray",
    "aligned_alloc",
    "memalign",
    "posix_memalign",
    "mmap",
    "mmap64",
    "brk",
    "sbrk",
}


def compile_heap(room: str) -> str:
    """Compiles the heap into the folder, and returns its path."""
    heap = f"{room}/heap.so"
    words = ["cc", "-O2", "-Wall", "-Werror", "-shared", "-fPIC"]
    subprocess.run([*words, "-o", heap, HEAP], check=True)
    return heap


def require_malloc_alone(program: Path) -> None:
    """Ends the script if the program asks for memory by other calls than malloc and realloc."""
    words = ["nm", "-D", "--undefined-only", program]
    symbols = subprocess.run(words, stdout=subprocess.PIPE, text=True, check=True).stdout
    called = {line.split()[-1].partition("@")[0] for line in symbols.splitlines()}
    if called & REQUESTS != COVERED:
        sys.exit(f"{program} asks for memory by {sorted(called & REQUESTS)}")


def environment(heap: str, number: int, counter: str) -> dict[str, str]:
    """The environment of a run whose request of this number is refused (0 refuses none), and which
    leaves the number of its requests in the file `counter`."""
    return {"LD_PRELOAD": heap, "REFUSED": str(number), "COUNT_FILE": counter}


def take_count(counter: str) -> int:
    """Returns how many requests the last run made, and removes its file."""
    count = Path(counter).read_bytes()
    os.remove(counter)
    if len(count) != 8:
        sys.exit("the heap left no count of its requests")
    return int.from_bytes(count, sys.byteorder)
