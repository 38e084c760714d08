"""Makes tables from callgrind's dumps. Each case and side has four: two that warm up, one call, and
eleven calls.

    instructions.py FOLDER table           prints the table
    instructions.py FOLDER store FILE      writes our side's counts to FILE
    instructions.py FOLDER compare FILE    compares with FILE; exits with 1 if a count rose by over 1%
    instructions.py FOLDER moves PROGRAM   counts moves of large values and the heap's wrappers
"""
import math
import os
import re
import subprocess
import sys
from collections import Counter
from pathlib import Path

sys.path.insert(0, str(Path(__file__).resolve().parents[1]))
from tests.support import script  # noqa: E402

script.answer_help(__doc__)


def total(folder, number):
    with open(os.path.join(folder, f"dump.{number}"), encoding="utf-8") as dump:
        for line in dump:
            if line.startswith(("totals:", "summary:")):
                return int(line.split()[1])
    sys.exit(f"instructions.py: {folder}/dump.{number} has no total")


def last_dumps(place):
    """The numbers of both sides' last dumps of a case."""
    return (8 * place + 4, 8 * place + 8)


def counted(folder):
    """Each case: group, name, and the instructions per call on our side and on Rust's."""
    found = []
    for place, (group, name) in enumerate(cases_of(folder)):
        ours, rust = (
            (total(folder, last) - total(folder, last - 1)) / 10 for last in last_dumps(place)
        )
        found.append((group, name, ours, rust))
    return found


def cases_of(folder):
    with open(os.path.join(folder, "cases"), encoding="utf-8") as lines:
        return [line.rstrip("\n").split("\t") for line in lines]


# Instructions that move or zero 16 bytes, or zero 8 bytes.
MOVE = re.compile(r"\b(movups|movaps|movdqu|movdqa|xorps|pxor)\b.*%xmm|movq +\$0x0,")
MOVERS = ("memcpy", "memmove", "memset")
WRAPPERS = (
    "rattle_alloc",
    "rattle_dealloc",
    "rattle_realloc",
    "rust_alloc",
    "rust_dealloc",
    "rust_realloc",
)


def moving_addresses(program):
    text = subprocess.run(
        ["objdump", "-d", "--no-show-raw-insn", program], capture_output=True, text=True, check=True
    ).stdout
    lines = (line.split("\t", 1) for line in text.splitlines() if "\t" in line)
    return {int(at.strip(" :"), 16) for at, instruction in lines if MOVE.search(instruction)}


def by_kind(folder, number, moving):
    """The instructions of a dump: moves, the heap's wrappers, and others."""
    names, found = {}, Counter()
    function, address, is_call = "", 0, False
    with open(os.path.join(folder, f"dump.{number}"), encoding="utf-8") as dump:
        for line in dump:
            if named := re.match(r"(c?fn)=\((\d+)\)(?: (.*))?$", line):
                kind, key, name = named.groups()
                names[key] = name or names.get(key, "")
                function = names[key] if kind == "fn" else function
            elif line.startswith("calls="):
                is_call = True
            elif cost := re.match(r"(0x[0-9a-f]+|[+-]\d+|\*) \S+ (\d+)$", line):
                at, count = cost.groups()
                address = (
                    int(at, 16) if at.startswith("0x") else address + (0 if at == "*" else int(at))
                )
                if not is_call:
                    found[kind_of(function, address in moving)] += int(count)
                is_call = False
    return found


def kind_of(function, moves):
    if any(word in function for word in WRAPPERS):
        return "wrapper"
    return "moves" if moves or any(word in function for word in MOVERS) else "other"


def moves_table(folder, program):
    moving = moving_addresses(program)
    print(
        "| group | case | ours: moves | wrapper | other | Rust: moves | wrapper | other | ratio | of the other |"
    )
    print("|---|---|---|---|---|---|---|---|---|---|")
    for place, (group, name) in enumerate(cases_of(folder)):
        sides = []
        for last in last_dumps(place):
            found = by_kind(folder, last, moving)
            found.subtract(by_kind(folder, last - 1, moving))
            sides.append([found[kind] / 10 for kind in ("moves", "wrapper", "other")])
        cells = " | ".join(f"{count:.0f}" for side in sides for count in side)
        ours, rust = (sum(side) for side in sides)
        print(
            f"| {group} | {name} | {cells} | {ours / rust:.2f} | {sides[0][2] / sides[1][2]:.2f} |"
        )


def mean(ratios):
    return math.exp(sum(map(math.log, ratios)) / len(ratios))


def table(found):
    print("| group | case | ours | Rust | ratio |\n|---|---|---|---|---|")
    for group, name, ours, rust in found:
        print(f"| {group} | {name} | {ours:.0f} | {rust:.0f} | {ours / rust:.2f} |")
    ratios = [ours / rust for _, _, ours, rust in found]
    print(f"\nGeometric mean of the ratios of these {len(found)} cases: {mean(ratios):.3f}")


def store(found, path):
    with open(path, "w", encoding="utf-8") as out:
        for group, name, ours, _ in found:
            out.write(f"{group}\t{name}\t{ours:.0f}\n")


def compare(found, path):
    """Prints counts that differ by more than 1%. Returns whether none rose by more."""
    with open(path, encoding="utf-8") as lines:
        stored = {tuple(line.split("\t")[:2]): float(line.split("\t")[2]) for line in lines}
    print("| group | case | stored | now | ratio |\n|---|---|---|---|---|")
    is_kept, ratios = True, []
    for group, name, ours, _ in found:
        before = stored.get((group, name))
        if before is None:
            print(f"| {group} | {name} | none | {ours:.0f} | |")
            continue
        ratios.append(ours / before)
        if abs(ours / before - 1) > 0.01:
            print(f"| {group} | {name} | {before:.0f} | {ours:.0f} | {ours / before:.2f} |")
        is_kept = is_kept and ours <= 1.01 * before
    if ratios:
        print(
            f"\nGeometric mean of the ratios of the {len(ratios)} stored cases: {mean(ratios):.3f}"
        )
    return is_kept


def main():
    folder, verb = sys.argv[1:3]
    if verb == "moves":
        moves_table(folder, sys.argv[3])
        return
    found = counted(folder)
    if verb == "table":
        table(found)
    elif verb == "store":
        store(found, sys.argv[3])
    elif not compare(found, sys.argv[3]):
        sys.exit(1)


main()
