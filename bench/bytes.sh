#!/bin/sh
# Changes each byte of the metadata of a small image to two other values, one at a time, and asks `check` and a `run` of an
# empty script: they agree, and end in nothing but their named answers. It does so with images that are cut short, longer,
# or of other bytes too. It prints how often each answer came, and what was wrong.
#
#   sh bench/bytes.sh [STEP [PROGRAM]]
#
# STEP takes only each STEP-th byte (1: all, in some ten minutes). PROGRAM is the built program; without it, the one that
# `sh demo.sh proved` builds.
set -u

top=$(cd "$(dirname "$0")/.." && pwd) || exit 1
step=${1:-1}
program=${2:-$top/crates/apexhost/out/apexhost}
case $program in
    /*) ;;
    *) program=$PWD/$program ;;
esac
if ! [ -x "$program" ]; then
    echo "bench: there is no program $program: build it by 'sh demo.sh proved' first" >&2
    exit 1
fi

python3 - "$program" "$step" <<'END'
import collections
import os
import random
import re
import subprocess
import sys
import tempfile

PROGRAM, STEP = sys.argv[1], int(sys.argv[2])
TABLE = """
partition = [{ name = "FMS" }]
volume = [{ name = "NV1", blocks = 8 }]
tree = [{ volume = "NV1", owner = "FMS", quota = 8, files = 4, directories = 2, dirty = 16 }]
logbook = [{ name = "FAULTS", partition = "FMS", message_size = 16, logged = 4, in_progress = 2 }]
"""
SCRIPT = """FMS OPEN_NEW_FILE /NV1/FMS/A
FMS WRITE_FILE 1 6869
FMS SYNC_FILE 1
FMS CREATE_LOGBOOK FAULTS
FMS WRITE_LOGBOOK 1 e0
TICK 1
"""
DATA_BLOCKS = range(167, 183)
GOOD = "image good trees 1 logbooks 1\n"
REFUSED = re.compile(r"image refused (1 TooSmall \d+|2 NotFormatted|3 OtherTable \d+|4 BadTree 1|5 BadLogbook 1)\n")

os.chdir(tempfile.mkdtemp())
with open("module.toml", "w") as file:
    file.write(TABLE)


def command(word, script=""):
    told = subprocess.run([PROGRAM, word], input=script.encode(), capture_output=True)
    return told.returncode, told.stdout.decode()


def put(image):
    with open("disk.img", "wb") as file:
        file.write(image)


answers = collections.Counter()
wrong = []


def ask(what):
    """Asks both commands about the image that is there."""
    checked, ran = command("check"), command("run")
    good = checked == (0, GOOD) and ran == (0, "")
    refused = checked == ran and checked[0] == 5 and REFUSED.fullmatch(checked[1])
    answers[" ".join(checked[1].split()[1:4]) or f"status {checked[0]}"] += 1
    if not good and not refused:
        wrong.append((what, checked, ran))


for word, script in (("format", ""), ("run", SCRIPT)):
    status, told = command(word, script)
    if status != 0:
        sys.exit(f"bench: {word} ended with status {status}: {told}")
with open("disk.img", "rb") as file:
    image = file.read()

with open("disk.img", "r+b", buffering=0) as disk:
    for at in range(0, len(image), STEP):
        if at // 512 in DATA_BLOCKS:
            continue
        for value in ((image[at] + 1) % 256, image[at] ^ 0xFF):
            os.pwrite(disk.fileno(), bytes([value]), at)
            ask(f"byte {at} is {value}")
        os.pwrite(disk.fileno(), image[at : at + 1], at)

others = {
    "no bytes": b"",
    "one block less": image[:-512],
    "one byte less": image[:-1],
    "one block more": image + bytes(512),
    "zeros": bytes(len(image)),
    "all ones": b"\xff" * len(image),
    "random": random.Random(1).randbytes(len(image)),
}
for what, other in others.items():
    put(other)
    ask(what)

for answer, count in sorted(answers.items()):
    print(f"{count:7d}  {answer}")
for what, checked, ran in wrong[:20]:
    print(f"wrong: {what}: check {checked}, run {ran}")
print(f"{sum(answers.values())} images, {len(wrong)} wrong")
sys.exit(1 if wrong else 0)
END
