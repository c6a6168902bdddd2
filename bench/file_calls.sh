#!/bin/sh
# Times each kind of file call of the built program: scripts of 10,000 and of 20,000 calls of one kind over one tree, each
# over an image that was just formatted.
# It prints the microseconds a call of the longer script, and the ratio of the two times, which is near 2 where no call
# takes longer the more calls came before it.
#
#   sh bench/file_calls.sh [PROGRAM]
#
# PROGRAM is the built program; without it, the one that `sh demo.sh proved` builds. python3 makes the inputs and takes the
# times: each is the least of several runs, from the start of the process to its end, with its output in a file. The
# words are short, so that 20,000 lines stay below 1,048,576 bytes.
set -u

top=$(cd "$(dirname "$0")/.." && pwd) || exit 1
program=${1:-$top/crates/apexhost/out/apexhost}
case $program in
    /*) ;;
    *) program=$PWD/$program ;;
esac
if ! [ -x "$program" ]; then
    echo "bench: there is no program $program: build it by 'sh demo.sh proved' first" >&2
    exit 1
fi

python3 - "$program" <<'END'
import os
import subprocess
import sys
import tempfile
import time

PROGRAM = sys.argv[1]
RUNS = 7
TABLE = """
partition = [{ name = "P" }]
volume = [{ name = "V", blocks = 4096 }]
tree = [{ volume = "V", owner = "P", quota = 4096, files = 64, directories = 32, dirty = 48 }]
"""

# Each kind: the lines that come first, and the lines that are repeated in turn.
KINDS = {
    "OPEN_NEW_FILE and REMOVE_FILE, with CLOSE_FILE": ([], ["P OPEN_NEW_FILE /V/P/A", "P CLOSE_FILE 1", "P REMOVE_FILE /V/P/A"]),
    "OPEN_NEW_FILE, refused": (["P OPEN_NEW_FILE /V/P/A"], ["P OPEN_NEW_FILE /V/P/A"]),
    "OPEN_FILE and CLOSE_FILE": (["P OPEN_NEW_FILE /V/P/A"], ["P OPEN_FILE /V/P/A READ_ONLY", "P CLOSE_FILE 2"]),
    "READ_FILE of 64 bytes, with SEEK_FILE": (
        ["P OPEN_NEW_FILE /V/P/A", "P RESIZE_FILE 1 1048576"], ["P READ_FILE 1 64", "P SEEK_FILE 1 524288 SEEK_SET"]),
    "WRITE_FILE of 8 bytes at the end": (["P OPEN_NEW_FILE /V/P/A"], ["P WRITE_FILE 1 0123456789abcdef"]),
    "WRITE_FILE of 8 bytes in a file of 1 MiB, with SEEK_FILE": (
        ["P OPEN_NEW_FILE /V/P/A", "P RESIZE_FILE 1 1048576"], ["P WRITE_FILE 1 0123456789abcdef", "P SEEK_FILE 1 524288 SEEK_SET"]),
    "SEEK_FILE": (["P OPEN_NEW_FILE /V/P/A", "P RESIZE_FILE 1 1048576"], ["P SEEK_FILE 1 4096 SEEK_SET", "P SEEK_FILE 1 -1 SEEK_CUR"]),
    "RESIZE_FILE by one block up and down": (["P OPEN_NEW_FILE /V/P/A"], ["P RESIZE_FILE 1 512", "P RESIZE_FILE 1 0"]),
    "SYNC_FILE": (["P OPEN_NEW_FILE /V/P/A", "P RESIZE_FILE 1 1048576"], ["P SYNC_FILE 1"]),
    "RENAME_FILE": (["P OPEN_NEW_FILE /V/P/A", "P CLOSE_FILE 1"], ["P RENAME_FILE /V/P/A /V/P/B", "P RENAME_FILE /V/P/B /V/P/A"]),
    "GET_FILE_STATUS": (["P OPEN_NEW_FILE /V/P/A"], ["P GET_FILE_STATUS 1"]),
    "GET_VOLUME_STATUS": (["P OPEN_NEW_FILE /V/P/A"], ["P GET_VOLUME_STATUS /V/P"]),
}

# The kinds that wait for the disk: 1,000 calls of each in place of 20,000.
SYNCHRONISED = ["OPEN_NEW_FILE and REMOVE_FILE, with CLOSE_FILE", "SYNC_FILE", "RENAME_FILE"]


def script(kind, lines):
    """So many lines of a kind."""
    first, repeated = KINDS[kind]
    return (first + repeated * lines)[:lines]


def seconds(room, lines):
    """The least time of some runs. Each must end well and tell one line for each call."""
    text = "".join(line + "\n" for line in lines).encode()
    assert len(text) <= 1_048_576 and len(lines) <= 20_000
    source = os.path.join(room, "script")
    with open(source, "wb") as it:
        it.write(text)
    best = None
    for _ in range(RUNS):
        subprocess.run([PROGRAM, "format"], cwd=room, stdin=subprocess.DEVNULL, capture_output=True, check=True)
        told = os.path.join(room, "told")
        with open(source, "rb") as given, open(told, "wb") as into:
            begun = time.perf_counter()
            ran = subprocess.run([PROGRAM, "run"], cwd=room, stdin=given, stdout=into)
            took = time.perf_counter() - begun
        with open(told, "rb") as it:
            count = it.read().count(b"\n")
        if ran.returncode != 0 or count != len(lines):
            sys.exit(f"bench: a run ended with status {ran.returncode} and told {count} lines of {len(lines)}")
        best = took if best is None else min(best, took)
    return best


with tempfile.TemporaryDirectory() as room:
    with open(os.path.join(room, "module.toml"), "w") as it:
        it.write(TABLE)
    print(f"least of {RUNS} runs each; an empty script takes {1000 * seconds(room, []):.1f} milliseconds")
    for kind in KINDS:
        lines = 1_000 if kind in SYNCHRONISED else 20_000
        half, whole = seconds(room, script(kind, lines // 2)), seconds(room, script(kind, lines))
        print(f"{kind}: {1e6 * whole / lines:.2f} microseconds a call, ratio {whole / half:.2f}")
END
