"""The version that is packed, and its section of CHANGELOG.md."""

import calendar
import os
import re
import time
from email.utils import formatdate
from pathlib import Path

TOP = Path(__file__).resolve().parent.parent
VERSION = (TOP / "VERSION").read_text().strip()
# The version of the Debian packages; the number after the hyphen counts the packagings of a
# version.
DEBIAN_VERSION = f"{VERSION}-1"
SOURCE = "wispuddera"
MAINTAINER = "Wispuddera maintainers <maintainers@users.noreply.wispuddera.example>"


def _section():
    """The day and the text of this version's section in CHANGELOG.md."""
    text = (TOP / "CHANGELOG.md").read_text()
    found = re.search(
        rf"^## \[{re.escape(VERSION)}\] - (\d+-\d+-\d+)\n(.*?)(?=^## |\Z)", text, re.M | re.S
    )
    if not found:
        raise SystemExit(f"packaging: CHANGELOG.md has no section for {VERSION}")
    return found.groups()


def epoch():
    """The time of all packed files: SOURCE_DATE_EPOCH, or the day of the version."""
    if given := os.environ.get("SOURCE_DATE_EPOCH"):
        return int(given)
    return calendar.timegm(time.strptime(_section()[0], "%Y-%m-%d"))


def debian_changelog(version: str) -> str:
    """The changelog in Debian's format, for this version of the packages."""
    items = re.sub(r"\n {2}(?=\S)", " ", _section()[1])
    lines = "\n".join(_folded(item) for item in re.findall(r"^- (.*)$", items, re.M))
    date = formatdate(epoch(), usegmt=False).replace("-0000", "+0000")
    return f"{SOURCE} ({version}) unstable; urgency=medium\n\n{lines}\n\n -- {MAINTAINER}  {date}\n"


def _folded(item):
    """An item of the changelog, wrapped at 80 columns."""
    lines = ["  *"]
    for word in item.split():
        if len(lines[-1]) + len(word) >= 80:
            lines.append("   ")
        lines[-1] += f" {word}"
    return "\n".join(lines)
