#!/bin/sh
# Times `apexhost run` over an image, beside loops that make as many writes of as many bytes with as many synchronisations
# on the same file system, and measures the memory that a run takes. It prints a line for each measure, with its ratio.
#
#   sh bench/stored_run.sh [PROGRAM]
#
# PROGRAM is the built program; without it, the one that `sh demo.sh proved` builds. python3 takes the times: each is the
# least of several runs, less the time of a run of an empty script over the same image.
set -u

top=$(cd "$(dirname "$0")/.." && pwd) || exit 1
program=${1:-$top/crates/apexhost/out/apexhost}
case $program in
    /*) ;;
    *) program=$PWD/$program ;;
esac
if ! [ -x "$program" ]; then
    echo "bench: there is no program $program: build it by 'sh demo.sh proved' first" >&2
    exit 1
fi

python3 - "$program" "$top/examples" <<'END'
import os
import shutil
import subprocess
import sys
import tempfile
import time

PROGRAM, EXAMPLES = sys.argv[1:]
RUNS = 5
BLOCK = 512


def table(quota=2304, files=16, dirty=16):
    return f"""
partition = [{{ name = "P" }}]
volume = [{{ name = "V", blocks = {quota} }}]
tree = [{{ volume = "V", owner = "P", quota = {quota}, files = {files}, directories = 4, dirty = {dirty} }}]
"""


def body_blocks(quota=2304, files=16):
    return -(-(64 + 128 * (files + 4) + 4 * quota) // BLOCK)


def command(words, script=b""):
    told = subprocess.run([PROGRAM, *words], input=script, capture_output=True)
    if told.returncode != 0:
        sys.exit(f"bench: {words} ended with status {told.returncode}: {told.stdout.decode()[-200:]}")
    return told.stdout


def folder_of(text, before=()):
    """A new folder with a table and an image in which these lines were carried out."""
    folder = tempfile.mkdtemp()
    os.chdir(folder)
    with open("module.toml", "w") as file:
        file.write(text)
    command(["format"])
    if before:
        run(before)


def run(lines):
    return command(["run"], ("\n".join(lines) + "\n").encode())


def seconds(action):
    start = time.perf_counter()
    action()
    return time.perf_counter() - start


def least(*actions):
    """The least time of each action in seconds, where they are run in turn."""
    times = [[] for _ in actions]
    for _ in range(RUNS):
        for action, taken in zip(actions, times):
            taken.append(seconds(action))
    return [min(taken) for taken in times]


def calls(parts, times):
    """Makes these writes, each a list of lengths with a synchronisation behind it, so many times."""
    into = os.open("floor.img", os.O_RDWR | os.O_CREAT)
    os.ftruncate(into, 4_000_000)
    for k in range(times):
        for lengths in parts:
            at = 4096 * (k % 64)
            for length in lengths:
                os.pwrite(into, bytes(length), at)
                at += length
            os.fsync(into)
    os.close(into)


def beside(name, wanted, lines, count, parts):
    """Times a script's calls of the disk beside the same calls alone."""
    idle, taken, floor = least(lambda: run([]), lambda: run(lines), lambda: calls(parts, count))
    ratio = (taken - idle) / floor
    print(f"{name}: {1e6 * (taken - idle) / count:.0f} microseconds, its calls alone {1e6 * floor / count:.0f}, "
          f"ratio {ratio:.2f} (at most {wanted} is wanted)")


def names():
    folder_of(table(), ["P OPEN_NEW_FILE /V/P/A"])
    pair = ["P RENAME_FILE /V/P/A /V/P/B", "P RENAME_FILE /V/P/B /V/P/A"]
    beside("a change of names", 1.15, pair * 15, 30, [[BLOCK], [1]])


def synchronisations():
    folder_of(table(), ["P OPEN_NEW_FILE /V/P/A"])
    lines = ["P OPEN_FILE /V/P/A READ_WRITE"]
    for _ in range(100):
        lines += ["P SEEK_FILE 1 0 SEEK_SET", "P WRITE_FILE 1 0123456789abcdef", "P SYNC_FILE 1"]
    body = BLOCK * body_blocks()
    beside("SYNC_FILE of a small file", 1.2, lines, 100, [[BLOCK, 1], [body, 64 * BLOCK], [1]])


def flight():
    """The flight of 300 lines: three changes of names, then 48 times a synchronisation and the move of a logbook's message."""
    with open(f"{EXAMPLES}/module_m.toml") as file:
        folder_of(file.read())
    with open(f"{EXAMPLES}/flight.script", "rb") as file:
        script = file.read()
    shutil.copy("disk.img", "empty.img")
    turn = [[BLOCK, 1], [13_824, 64 * BLOCK], [1], [], [BLOCK], [1]]

    def flown():
        command(["run"], script)

    def alone():
        calls([[BLOCK], [1]], 3)
        calls(turn, 48)

    times = []
    for _ in range(RUNS):
        shutil.copy("empty.img", "disk.img")
        os.sync()
        times.append([seconds(lambda: run([])), seconds(flown), seconds(alone)])
    idle, taken, floor = [min(column) for column in zip(*times)]
    print(f"a flight of 300 lines: {1e3 * (taken - idle):.0f} milliseconds, its calls alone {1e3 * floor:.0f}, "
          f"ratio {(taken - idle) / floor:.2f} (at most 1.2 is wanted)")


def mounts():
    folder_of(table(4096, 64, 48))
    lengths = [33 * BLOCK, 2 * (1 + body_blocks(4096, 64) + 64) * BLOCK]

    def reads():
        image = os.open("disk.img", os.O_RDONLY)
        at = 0
        for length in lengths:
            os.pread(image, length, at)
            at += length
        os.close(image)

    nothing, mounted, floor = least(lambda: subprocess.run([PROGRAM], capture_output=True), lambda: run([]), reads)
    print(f"a mount: {1e6 * (mounted - nothing):.0f} microseconds with the table and an empty script, "
          f"a plain read of {sum(lengths)} bytes {1e6 * floor:.0f}")


def idle_lines():
    folder_of(table(), ["P OPEN_NEW_FILE /V/P/A"])
    lines = ["P OPEN_FILE /V/P/A READ_ONLY"] + ["P GET_FILE_STATUS 1", "P SEEK_FILE 1 0 SEEK_SET", "P READ_FILE 1 8"] * 6666
    idle, taken = least(lambda: run([]), lambda: run(lines))
    print(f"lines that change nothing durable: {1e6 * (taken - idle) / len(lines):.2f} microseconds a line (at most 5 is wanted)")


def large_files():
    data = "ab" * 4096

    def script(size):
        lines = ["P OPEN_NEW_FILE /V/P/A"] + [f"P RESIZE_FILE 1 {size}", f"P SEEK_FILE 1 {size // 2} SEEK_SET"]
        return lines, lines + [f"P WRITE_FILE 1 {data}", f"P SEEK_FILE 1 {size // 2} SEEK_SET"] * 120

    times = []
    for size in [8_192, 1_048_576]:
        first, whole = script(size)
        taken = []
        for _ in range(RUNS):
            folder_of(table())
            before = seconds(lambda: run(first))
            folder_of(table())
            taken.append(seconds(lambda: run(whole)) - before)
        times.append(min(taken) / 120)
    print(f"4,096 bytes written in the middle of a file of 8 KiB: {1e6 * times[0]:.0f} microseconds, "
          f"of one of 1 MiB {1e6 * times[1]:.0f}, ratio {times[1] / times[0]:.2f}")


def memory():
    """The greatest memory of a run, in KiB, with little and with much content in files."""
    def greatest(lines):
        folder_of(table(4096, 64, 48))
        program = ("import resource, subprocess, sys;"
                   "subprocess.run([sys.argv[1], 'run'], stdin=open('script'), stdout=subprocess.DEVNULL);"
                   "print(resource.getrusage(resource.RUSAGE_CHILDREN).ru_maxrss)")
        with open("script", "w") as file:
            file.write("\n".join(lines) + "\n")
        return int(subprocess.run([sys.executable, "-c", program, PROGRAM], capture_output=True).stdout)

    data = "cd" * 4096
    much = ["P OPEN_NEW_FILE /V/P/A", "P OPEN_NEW_FILE /V/P/B"]
    for handle in [1, 2]:
        much += [f"P WRITE_FILE {handle} {data}"] * 60
    little = [line[:40] if "WRITE" in line else line for line in much] + ["#" * 8191] * 120
    print(f"memory of a run: {greatest(little)} KiB with 2 KiB in files, {greatest(much)} KiB with 480 KiB")


names()
synchronisations()
flight()
mounts()
idle_lines()
large_files()
memory()
END
