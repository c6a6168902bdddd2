#!/bin/sh
# Times `sweep` and `stress` of the built program, and `check` of a large image beside a plain read of the bytes that it
# reads. It prints a line for each measure.
#
#   sh bench/loads.sh [PROGRAM]
#
# PROGRAM is the built program; without it, the one that `sh demo.sh proved` builds. python3 takes the times, each the least
# of several runs; strace, where it is there, counts the calls of the disk.
set -u

top=$(cd "$(dirname "$0")/.." && pwd) || exit 1
program=${1:-$top/crates/apexhost/out/apexhost}
case $program in
    /*) ;;
    *) program=$PWD/$program ;;
esac
if ! [ -x "$program" ]; then
    echo "bench: there is no program $program: build it by 'sh demo.sh proved' first" >&2
    exit 1
fi

python3 - "$program" <<'END'
import os
import re
import shutil
import subprocess
import sys
import tempfile
import time

PROGRAM = sys.argv[1]
RUNS = 5
BLOCK = 512
JOURNAL = 64


def command(words, script=b"", before=()):
    told = subprocess.run([*before, PROGRAM, *words], input=script, capture_output=True)
    if told.returncode != 0:
        sys.exit(f"bench: {words} ended with status {told.returncode}: {told.stdout.decode()[-200:]}")
    return told.stdout.decode()


def folder_of(table, formatted=True):
    """A new folder with a table, and its empty image."""
    os.chdir(tempfile.mkdtemp())
    with open("module.toml", "w") as file:
        file.write(table)
    if formatted:
        command(["format"])


def least(action, runs=RUNS):
    times = []
    for _ in range(runs):
        start = time.perf_counter()
        action()
        times.append(time.perf_counter() - start)
    return min(times)


def table(trees, quota, files, dirty):
    """A table of so many trees, at most eight of each owner, each in a volume of its own."""
    owners, volumes = -(-trees // 8), min(trees, 8)
    partitions = ", ".join(f'{{ name = "P{k}" }}' for k in range(owners))
    rooms = ", ".join(f'{{ name = "V{k}", blocks = {quota * owners} }}' for k in range(volumes))
    rows = ", ".join(
        f'{{ volume = "V{k % 8}", owner = "P{k // 8}", quota = {quota}, files = {files}, directories = 4, dirty = {dirty} }}'
        for k in range(trees)
    )
    return f"partition = [{partitions}]\nvolume = [{rooms}]\ntree = [{rows}]\n"


def sweep():
    """64 lines over an image of 1,023 blocks."""
    folder_of(table(1, 423, 8, 16), formatted=False)
    lines = ["P0 OPEN_NEW_FILE /V0/P0/F0", "P0 OPEN_FILE /V0/P0/F0 READ_WRITE"]
    while len(lines) < 64:
        lines += ["P0 WRITE_FILE 1 0123456789abcdef", "P0 SYNC_FILE 1"]
    script = ("\n".join(lines[:64]) + "\n").encode()
    told = command(["sweep"], script).strip()
    taken = least(lambda: command(["sweep"], script), 3)
    print(f"sweep of 64 lines: {taken:.2f} seconds (at most 10 are wanted), told: {told}")


def disk_calls(words):
    """How many writes and synchronisations of the disk strace counts, or none without strace."""
    if not shutil.which("strace"):
        return None
    log = tempfile.mktemp()
    command(words, before=["strace", "-f", "-o", log, "-e", "trace=pwrite64,fsync,fdatasync"])
    with open(log) as file:
        return len(re.findall(r"(?:pwrite64|fsync|fdatasync)\(", file.read()))


def stress():
    """20,000 lines on a table with large trees."""
    lines = 20_000
    folder_of(table(4, 1000, 16, 48))
    times = [least(lambda: command(["stress", "7", str(count)]), 3) for count in (0, lines)]
    taken = times[1] - times[0]
    told = command(["stress", "7", str(lines)]).strip()
    calls = disk_calls(["stress", "7", str(lines)])
    each = f"{1e6 * taken / calls:.0f} for each of {calls} calls of the disk" if calls else "strace counts no calls here"
    print(f"stress of {lines} lines: {1e6 * taken / lines:.1f} microseconds a line, {each}")
    print(f"  told: {told}")


def check():
    """The image of 32 large trees beside a plain read of what a mount reads of it."""
    quota, files, trees = 1000, 64, 32
    folder_of(table(trees, quota, files, 16))
    body = -(-(64 + 128 * (files + 4) + 4 * quota) // BLOCK)
    slot = BLOCK * (1 + body) + JOURNAL
    disk = os.open("disk.img", os.O_RDONLY)

    def read():
        for k in range(2 * trees):
            os.pread(disk, slot, 2 * BLOCK * k)

    idle = least(lambda: subprocess.run([PROGRAM, "usage"], capture_output=True), 20)
    taken = least(lambda: command(["check"]), 20) - idle
    floor = least(read, 20)
    print(f"check of {trees} trees: {1e6 * taken:.0f} microseconds, a plain read of as many bytes {1e6 * floor:.0f}, "
          f"ratio {taken / floor:.1f} (at most 1.5 is wanted)")


for measure in (sweep, stress, check):
    measure()
    shutil.rmtree(os.getcwd())
    os.chdir("/")
END
