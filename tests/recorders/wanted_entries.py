"""The entries of captures/evasions_tls/wanted.json and captures/fronts/wanted.json: one for each
capture."""

from __future__ import annotations

import json
from pathlib import Path
from typing import Any


def keep(folder: Path, name: str, entry: dict[str, Any]) -> None:
    """Writes a capture's entry to the folder's wanted.json. Members that the recorder doesn't set
    (`is`, `rule`, `why`) stay."""
    file = folder / "wanted.json"
    known = json.loads(file.read_text()) if file.exists() else {}
    known[name] = {**known.get(name, {}), **entry}
    file.write_text(
        "{\n"
        + ",\n".join(f" {json.dumps(key)}: {text(known[key])}" for key in sorted(known))
        + "\n}\n"
    )


def text(entry: dict[str, Any]) -> str:
    """Returns an entry as JSON, with a line for each member and each log line, so that diffs are
    readable."""
    notes = [
        f"  {json.dumps(member)}: {json.dumps(value)},\n"
        for member, value in entry.items()
        if member != "lines"
    ]
    lines = ",\n".join("   " + json.dumps(line) for line in entry["lines"])
    return (
        "{\n"
        + "".join(notes)
        + ('  "lines": [\n' + lines + "\n  ]\n }" if lines else '  "lines": []\n }')
    )
