"""Callers that must compile: those of the pages, of bench and of tests/compiles/outlives.

They are one program. Its root is the monitor of docs/STARTING.md, and it uses no other. The second
program of that page, which reads captures, is one by itself.
"""

from __future__ import annotations

import re
import sys
import textwrap
from pathlib import Path

from tests.support import kept

TOP = kept.TOP
STANDS_ON = (
    "layouts tls_ext tls_parser tls_flow tls_places tls_stream dtls_stream x509 wispuddera"
    " tls_observer dtls_analyzer hex"
)
# What the program of docs/STARTING.md uses that reads a capture, as the page has it.
HOSTS_USE = "connections log_connections packets tls_observer"


def blocks(file: str, language: str) -> list[str]:
    """The blocks of code of a page, less their margins."""
    found = re.findall(rf"^( *)```{language}\n(.*?)^ *```$", (TOP / file).read_text(), re.M | re.S)
    return [textwrap.dedent(code) for _, code in found]


def block_with(file: str, language: str, words: str) -> str:
    """The one block of a page that has these words."""
    found = [code for code in blocks(file, language) if words in code]
    if len(found) != 1:
        sys.exit(f"callers: {file} has {len(found)} blocks of {language} with '{words}'")
    return found[0]


def of_pages() -> dict[str, str]:
    """The code of the pages, as files beside the monitor's root."""
    examples = blocks("docs/CALLING.md", "rust")
    last = next(at for at, code in enumerate(examples) if "fn write_again" in code)
    return {
        "monitor.rt": block_with("docs/STARTING.md", "rust", "pub fn watch"),
        "host.rt": block_with("README.md", "rust", "pub fn host"),
        "layers.rt": "\n".join(examples[: last + 1]),
    }


def of_bench() -> dict[str, str]:
    """The calls that bench measures, with those of bench/bindings and bench/certificates."""
    bench = TOP / "bench"
    more = [bench / f"more/{name}.rt.in" for name in ("flows", "messages", "view")]
    files = [*sorted((bench / "calls").glob("*.rt.in")), *more]
    found = {file.stem: file.read_text() for file in files}
    found["rounds.rt"] = (bench / "bindings/rounds.rt.in").read_text()
    found["certificates.rt"] = (bench / "certificates/rounds.rt.in").read_text()
    for name in ("certificates", "flows", "messages", "rounds", "view"):
        found["lib.rt"] += f"mod {name};\n"
    return kept.as_module("bench_calls", found, "lib.rt")


def outliving(between: str) -> str:
    """A caller of a parse call that does this between the call and the use of its value."""
    return f"""//! A caller of a parse call.
#![tactic(auto)]

use std::alloc::AllocError;
use tls_parser::parse_tls_plaintext;

fn main(rt: HostRuntime) -> Result<(), AllocError> {{
    let bytes = vec![in rt.alloc(); 22, 3, 1, 0, 0]?;
    let answer = parse_tls_plaintext(rt.alloc(), &bytes);
    {between}
    let _is_refused = answer.is_err();
    Ok(())
}}
"""


def program() -> Path:
    """The program of all callers, which runs the monitor of docs/STARTING.md."""
    root = block_with("docs/STARTING.md", "rust", "mod monitor;")
    for name in ("host", "layers", "bench_calls", "outlives"):
        root += f"pub mod {name};\n"
    sources = {f"src/{place}": code for place, code in of_pages().items()}
    outlives = kept.as_module("outlives", {"lib.rt": outliving("")}, "lib.rt")
    sources = {"src/main.rt": root, **sources, **of_bench(), **outlives}
    return kept.program(kept.Crate("callers", sources, STANDS_ON, ("-O0",)))


def hosts() -> Path:
    """The program of docs/STARTING.md that reads a capture."""
    root = block_with("docs/STARTING.md", "rust", "impl<W: Write> PacketVisitor")
    return kept.program(kept.Crate("hosts", {"src/main.rt": root}, HOSTS_USE, ("-O0",)))
