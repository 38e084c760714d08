"""What a program or a shared library needs of its system, and what it exports."""

import re
import subprocess

# The parts of the C library.
C_LIBRARY = {"libc.so.6", "libm.so.6", "ld-linux-x86-64.so.2"}


def _said(*words):
    return subprocess.run(words, check=True, capture_output=True, text=True).stdout


def glibc_of(file):
    """The oldest GNU C library that the file runs with. Exits if the file needs another library."""
    needed = set(re.findall(r"^ +NEEDED +(\S+)$", _said("objdump", "-p", str(file)), re.M))
    if others := needed - C_LIBRARY:
        raise SystemExit(f"packaging: {file} needs {', '.join(sorted(others))}")
    versions = re.findall(r"GLIBC_([\d.]+)", _said("objdump", "-T", str(file)))
    return max((tuple(map(int, version.split("."))) for version in versions), default=(2, 2, 5))


def text_of(version):
    return ".".join(map(str, version))


def exported(file):
    """The names that a shared library exports."""
    return sorted(
        line.split()[-1] for line in _said("nm", "-D", "--defined-only", str(file)).splitlines()
    )


def stripped(file, target, *words):
    """Writes a copy of the file without debugging information."""
    target.parent.mkdir(parents=True, exist_ok=True)
    subprocess.run(
        ["strip", "--enable-deterministic-archives", *words, "-o", str(target), str(file)],
        check=True,
    )
