"""What every script needs: --help, subcommands, and a separate network."""

from __future__ import annotations

import os
import sys
from collections.abc import Callable, Mapping
from typing import NoReturn


def answer_help(text: str | None) -> None:
    """Prints the script's description and ends it, if --help is among its arguments."""
    if {"-h", "--help"} & set(sys.argv[1:]):
        print((text or "").strip())
        sys.exit(0)


def run_subcommand(
    text: str | None, commands: Mapping[str, Callable[[list[str]], int | None]]
) -> NoReturn:
    """Calls the subcommand that the first argument names with the other arguments, and ends the
    script with the status that it returns. `text` is the script's description; `--help` after a
    subcommand prints the description of its module."""
    name, words = (sys.argv[1:] or [""])[0], sys.argv[2:]
    if name in commands:
        answer_help(sys.modules[commands[name].__module__].__doc__)
        sys.exit(commands[name](words))
    answer_help(text)
    sys.exit(f"{(text or '').strip()}\n\nThere is no {name}." if name else (text or "").strip())


def enter_own_network(*more: str) -> None:
    """Starts the script again, as root, in a new network namespace, where no other traffic is
    captured."""
    if os.environ.get("OWN_NETWORK") != "yes":
        os.environ["OWN_NETWORK"] = "yes"
        os.execvp("unshare", ["unshare", "--net", *more, sys.executable, "-B", *sys.argv])
