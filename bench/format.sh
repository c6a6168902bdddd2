#!/bin/sh
# Times `apexhost format` beside a plain copy of as many bytes, with as many writes and synchronisations.
# It prints both times and their ratio for three tables: a small one, one of a single tree with every limit at its
# greatest, and one of four partitions. Each is timed on an image that was formatted before, so that a format
# closes its gate first.
#
#   sh bench/format.sh [PROGRAM]
#
# PROGRAM is the built program; without it, the one that `sh demo.sh proved` builds. python3 takes the times: each is the least of
# several runs. A format's is from the start of the process to its end, less the time of a process that only tells the
# usage line.
set -u

top=$(cd "$(dirname "$0")/.." && pwd) || exit 1
program=${1:-$top/crates/apexhost/out/apexhost}
case $program in
    /*) ;;
    *) program=$PWD/$program ;;
esac
if ! [ -x "$program" ]; then
    echo "bench: there is no program $program: build it by 'sh demo.sh proved' first" >&2
    exit 1
fi

python3 - "$program" "$top/examples" <<'END'
import os
import subprocess
import sys
import tempfile
import time
import tomllib

PROGRAM, EXAMPLES = sys.argv[1:]
RUNS = 40
BLOCK = 512
LARGE = """
[[partition]]
name = "FMS"

[[volume]]
name = "NV1"
blocks = 4096

[[tree]]
volume = "NV1"
owner = "FMS"
quota = 4096
files = 64
directories = 32
dirty = 48
"""


def runs_of(table):
    """The lengths of what a format writes between its two gates: the superblock, each tree's slots and each logbook."""
    runs = [32 * BLOCK]
    for tree in table.get("tree", []):
        body = 64 + 128 * (tree["files"] + tree["directories"]) + 4 * tree["quota"]
        runs.append(2 * (1 + -(-body // BLOCK) + 64) * BLOCK)
    return runs + [(4 + 2 * (book["logged"] + 1)) * BLOCK for book in table.get("logbook", [])]


def least(*actions):
    """The least time of each action, in milliseconds, where they are run in turn."""
    times = [[] for _ in actions]
    for _ in range(RUNS):
        for action, taken in zip(actions, times):
            start = time.perf_counter()
            action()
            taken.append(time.perf_counter() - start)
    return [1000 * min(taken) for taken in times]


def command(*words):
    return subprocess.run([PROGRAM, *words], stdin=subprocess.DEVNULL, capture_output=True)


def copy(runs):
    """Writes these runs of bytes one behind the other, between two writes of one byte, each part made sure of."""
    into = os.open("copy.img", os.O_RDWR | os.O_CREAT)
    os.pwrite(into, b"\0", 0)
    os.fsync(into)
    at = BLOCK
    for run in runs:
        os.pwrite(into, bytes(run), at)
        at += run
    os.fsync(into)
    os.pwrite(into, b"\xa5", 0)
    os.fsync(into)
    os.close(into)


def measure(name, text):
    with tempfile.TemporaryDirectory() as folder:
        os.chdir(folder)
        with open("module.toml", "w") as table:
            table.write(text)
        told = command("format").stdout.decode().strip()
        if not told.startswith("formatted "):
            sys.exit(f"bench: format told {told!r}")
        runs = runs_of(tomllib.loads(text))
        idle, formatted, copied = least(command, lambda: command("format"), lambda: copy(runs))
        os.chdir("/")
    print(
        f"{name}: {told}, {sum(runs)} bytes written in {len(runs) + 2} runs: {formatted - idle:.2f} ms "
        f"beside {idle:.2f} ms for the process, a plain copy {copied:.2f} ms, ratio {(formatted - idle) / copied:.2f}"
    )


with open(f"{EXAMPLES}/small.toml") as small:
    measure("small table", small.read())
measure("large table", LARGE)
with open(f"{EXAMPLES}/module_m.toml") as four:
    measure("four partitions", four.read())
END
