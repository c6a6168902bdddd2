#!/bin/sh
# Times the built program by the length of its script and by the number of trees in its table.
# It prints the time of a run of 10,000 lines, that of 20,000 lines, their ratio and the microseconds a line, for three
# kinds of scripts, and then the same script over a table of one tree and over one of 32.
#
#   sh bench/script_length.sh [PROGRAM]
#
# PROGRAM is the built program; without it, the one that `sh demo.sh proved` builds. python3 makes the inputs and takes the
# times: each is the least of several runs, from the start of the process to its end, with its output in a file.
set -u

top=$(cd "$(dirname "$0")/.." && pwd) || exit 1
program=${1:-$top/crates/apexhost/out/apexhost}
case $program in
    /*) ;;
    *) program=$PWD/$program ;;
esac
if ! [ -x "$program" ]; then
    echo "bench: there is no program $program: build it by 'sh demo.sh proved' first" >&2
    exit 1
fi

python3 - "$program" <<'END'
import os
import subprocess
import sys
import tempfile
import time

PROGRAM = sys.argv[1]
RUNS = 7
CALLER = "PART15"
TREE = "/V1/PART15"


def table(trees):
    """A table of 16 partitions, two volumes and so many trees, of which the caller's is the last."""
    rows = [f'[[partition]]\nname = "PART{p}"\n' for p in range(16)]
    rows += [f'[[volume]]\nname = "V{v}"\nblocks = 131072\n' for v in range(2)]
    owners = [(v, p) for v in range(2) for p in range(16)][32 - trees:]
    rows += [
        f'[[tree]]\nvolume = "V{v}"\nowner = "PART{p}"\nquota = 1000\nfiles = 64\ndirectories = 0\ndirty = 16\n'
        for v, p in owners
    ]
    return "\n".join(rows)


def opened(files):
    return [f"{CALLER} OPEN_NEW_FILE {TREE}/F{k}" for k in range(1, files + 1)]


def mixed(lines):
    """Opens that are refused, writes to 24 files in turn, statuses and ticks."""
    script = opened(24)
    for k in range(lines - 24):
        handle = 1 + k // 4 % 24
        script.append((
            f"{CALLER} OPEN_NEW_FILE {TREE}/F{handle}",
            f"{CALLER} WRITE_FILE {handle} 0123456789abcdef",
            f"{CALLER} GET_FILE_STATUS {handle}",
            "TICK 1",
        )[k % 4])
    return script


def statuses(lines):
    """The status of one file, again and again."""
    return opened(1) + [f"{CALLER} GET_FILE_STATUS 1"] * (lines - 1)


def appends(lines):
    """Eight bytes more for one file in each line."""
    return opened(1) + [f"{CALLER} WRITE_FILE 1 0123456789abcdef"] * (lines - 1)


def seconds(room, script, trees):
    """The least time of some runs. Each must end well and tell one line for each call."""
    folder = os.path.join(room, "run")
    os.makedirs(folder, exist_ok=True)
    with open(os.path.join(folder, "module.toml"), "w") as it:
        it.write(table(trees))
    text = ("\n".join(script) + "\n" if script else "").encode()
    assert len(text) <= 1_048_576 and len(script) <= 20_000
    source = os.path.join(room, "script")
    with open(source, "wb") as it:
        it.write(text)
    calls = sum(1 for line in script if not line.startswith("TICK"))
    best = None
    for _ in range(RUNS):
        subprocess.run([PROGRAM, "format"], cwd=folder, stdin=subprocess.DEVNULL, capture_output=True, check=True)
        told = os.path.join(room, "told")
        with open(source, "rb") as given, open(told, "wb") as into:
            begun = time.perf_counter()
            ran = subprocess.run([PROGRAM, "run"], cwd=folder, stdin=given, stdout=into)
            took = time.perf_counter() - begun
        with open(told, "rb") as it:
            count = it.read().count(b"\n")
        if ran.returncode != 0 or count != calls:
            sys.exit(f"bench: a run ended with status {ran.returncode} and told {count} lines of {calls}")
        best = took if best is None else min(best, took)
    return best


with tempfile.TemporaryDirectory() as room:
    print(f"least of {RUNS} runs each; milliseconds; an empty script takes {1000 * seconds(room, [], 1):.1f}")
    for name, kind in (("mixed", mixed), ("statuses", statuses), ("appends to one file", appends)):
        half, whole = seconds(room, kind(10_000), 1), seconds(room, kind(20_000), 1)
        print(f"{name}: 10,000 lines {1000 * half:.1f}, 20,000 lines {1000 * whole:.1f}, ratio {whole / half:.2f}, {1e6 * whole / 20_000:.2f} microseconds a line")
    one, many = seconds(room, mixed(20_000), 1), seconds(room, mixed(20_000), 32)
    print(f"mixed, 20,000 lines: one tree {1000 * one:.1f}, 32 trees {1000 * many:.1f}, ratio {many / one:.2f}")
    one, many = seconds(room, [], 1), seconds(room, [], 32)
    print(f"empty script: one tree {1000 * one:.1f}, 32 trees {1000 * many:.1f}, ratio {many / one:.2f}")
END
