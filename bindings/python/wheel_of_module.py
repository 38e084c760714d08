"""The module's build backend (PEP 517, PEP 427), so that pip needs no network and no other package.
"""

import base64
import hashlib
import os
import re
import sysconfig
import time
import zipfile
from pathlib import Path

HERE = Path(__file__).resolve().parent
NAME = "wispuddera"
LIBRARY = HERE / NAME / "libwispuddera.so"
PROJECT = (HERE / "pyproject.toml").read_text()
VERSION = re.search(r'^version = "(.*)"$', PROJECT, re.MULTILINE)[1]
INFO = f"{NAME}-{VERSION}.dist-info"
# The licence, and those of the libraries that are linked in.
LICENSES = [
    file
    for file in (HERE.parents[1] / "LICENSE", HERE.parents[1] / "packaging/THIRD_PARTY")
    if file.is_file()
]


def _list_of(name):
    """A list of strings in pyproject.toml. (Python 3.9 and 3.10 have no tomllib.)"""
    return re.findall(
        r'"(.*?)"', re.search(rf"^{name} = \[(.*?)\]$", PROJECT, re.MULTILINE | re.DOTALL)[1]
    )


def metadata():
    """The wheel's METADATA, from pyproject.toml and README.md."""
    summary = re.search(r'^description = "(.*)"$', PROJECT, re.MULTILINE)[1]
    lines = [
        "Metadata-Version: 2.1",
        f"Name: {NAME}",
        f"Version: {VERSION}",
        f"Summary: {summary}",
        "License: MIT",
    ]
    lines += [f"License-File: {file.name}" for file in LICENSES]
    lines += [
        f"Keywords: {','.join(_list_of('keywords'))}",
        *(f"Classifier: {one}" for one in _list_of("classifiers")),
    ]
    lines += ["Requires-Python: >=3.9", "Description-Content-Type: text/markdown"]
    return "\n".join(lines) + "\n\n" + (HERE / "README.md").read_text()


def entry_points():
    """The wheel's entry_points.txt: the commands that pip installs."""
    found = re.search(r"^\[project\.scripts\]\n(.*?)(?=^\[|\Z)", PROJECT, re.MULTILINE | re.DOTALL)[
        1
    ]
    return "[console_scripts]\n" + "".join(
        f"{name} = {call}\n" for name, call in re.findall(r'^(\S+) = "(.*)"$', found, re.MULTILINE)
    )


# The earliest time that a zip file can have.
FIRST = 315532800


def build_wheel(wheel_directory, config_settings=None, metadata_directory=None):
    if not LIBRARY.exists():
        raise SystemExit(f"there is no {LIBRARY}: run bindings/build")
    platform = re.sub(r"[-.]", "_", sysconfig.get_platform())
    return write_wheel(
        wheel_directory, LIBRARY, platform, int(os.environ.get("SOURCE_DATE_EPOCH", FIRST))
    )


def write_wheel(folder, library, platform, epoch):
    """Writes a reproducible wheel with this library, for this platform tag, with files of this
    time."""
    sources = [
        file
        for file in sorted((HERE / NAME).rglob("*"))
        if file.suffix in {".py", ".typed", ".css", ".js"}
    ]
    files = {file.relative_to(HERE).as_posix(): file.read_bytes() for file in sources}
    files[f"{NAME}/{LIBRARY.name}"] = library.read_bytes()
    files[f"{INFO}/METADATA"] = metadata().encode()
    tags = "".join(f"Tag: py3-none-{one}\n" for one in platform.split("."))
    files[
        f"{INFO}/WHEEL"
    ] = f"Wheel-Version: 1.0\nGenerator: {NAME}\nRoot-Is-Purelib: false\n{tags}".encode()
    files[f"{INFO}/entry_points.txt"] = entry_points().encode()
    for license_file in LICENSES:
        files[f"{INFO}/{license_file.name}"] = license_file.read_bytes()
    record = [f"{name},sha256={_hash(text)},{len(text)}\n" for name, text in files.items()]
    files[f"{INFO}/RECORD"] = "".join([*record, f"{INFO}/RECORD,,\n"]).encode()
    wheel = f"{NAME}-{VERSION}-py3-none-{platform}.whl"
    with zipfile.ZipFile(Path(folder) / wheel, "w", zipfile.ZIP_DEFLATED) as made:
        for name, text in files.items():
            entry = zipfile.ZipInfo(name, time.gmtime(max(epoch, FIRST))[:6])
            entry.external_attr = 0o100644 << 16
            made.writestr(entry, text, zipfile.ZIP_DEFLATED)
    return wheel


def _hash(text):
    return base64.urlsafe_b64encode(hashlib.sha256(text).digest()).rstrip(b"=").decode()
