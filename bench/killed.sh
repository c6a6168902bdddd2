#!/bin/sh
# Kills `apexhost run` with signal 9 at random moments of a script of 20,000 changes, and looks each time at what the image
# holds: the next run must start, and each file must hold what the lines told so far allow, that is its last synchronised
# content or one of its later ones, with the names before or after the line that was not told yet.
#
#   sh bench/killed.sh [PROGRAM [TIMES [SEED]]]
#
# PROGRAM is the built program; without it, the one that `sh demo.sh proved` builds. It is killed TIMES times (20 if left
# out). python3 makes the script, and knows nothing of the program: what each line does is said below. It ends with the
# status 1 at the first image that isn't allowed.
set -u

top=$(cd "$(dirname "$0")/.." && pwd) || exit 1
program=${1:-$top/crates/apexhost/out/apexhost}
case $program in
    /*) ;;
    *) program=$PWD/$program ;;
esac
if ! [ -x "$program" ]; then
    echo "bench: there is no program $program: build it by 'sh demo.sh proved' first" >&2
    exit 1
fi

python3 - "$program" "${2:-20}" "${3:-1}" <<'END'
import os
import random
import subprocess
import sys
import tempfile
import time

PROGRAM, TIMES, SEED = sys.argv[1], int(sys.argv[2]), int(sys.argv[3])
LINES = 20_000
TABLE = """
partition = [{ name = "P" }]
volume = [{ name = "V", blocks = 512 }]
tree = [{ volume = "V", owner = "P", quota = 512, files = 8, directories = 2, dirty = 16 }]
"""


class Files:
    """The files of the tree: for each name its contents since the last synchronisation, the synchronised one first."""

    def __init__(self, files=None):
        self.files = files or {}

    def made(self, name):
        return Files({**self.files, name: [b""]})

    def changed(self, name, content):
        return Files({**self.files, name: self.files[name] + [content]})

    def synchronised(self, name):
        return Files({**self.files, name: self.files[name][-1:]})

    def renamed(self, name, to):
        files = dict(self.files)
        files[to] = files.pop(name)
        return Files(files)

    def removed(self, name):
        files = dict(self.files)
        del files[name]
        return Files(files)

    def allow(self, found):
        """Whether a loss of power may leave these contents by their names."""
        return found.keys() == self.files.keys() and all(found[name] in self.files[name] for name in found)


def changes(chance):
    """Lines of a script without an end, and for each what the files are after it."""
    files, made = Files(), 0
    while True:
        name, made = f"F{made % 5}", made + 1
        files = files.made(name)
        yield f"P OPEN_NEW_FILE /V/P/{name}", files
        content = b""
        for _ in range(chance.randint(1, 6)):
            at = chance.choice([0, len(content), len(content) // 2])
            data = chance.randbytes(chance.choice([1, 8, 20]))
            yield f"P SEEK_FILE 1 {at} SEEK_SET", files
            content = content[:at] + data + content[at + len(data):]
            files = files.changed(name, content)
            yield f"P WRITE_FILE 1 {data.hex()}", files
            if chance.random() < 0.4:
                files = files.synchronised(name)
                yield "P SYNC_FILE 1", files
            if chance.random() < 0.2:
                size = chance.choice([0, len(content) // 2, 700, 1500])
                content = content[:size] + bytes(max(0, size - len(content)))
                files = files.changed(name, content)
                yield f"P RESIZE_FILE 1 {size}", files
        yield "P CLOSE_FILE 1", files
        if chance.random() < 0.5 and f"G{name}" not in files.files:
            files = files.renamed(name, f"G{name}")
            yield f"P RENAME_FILE /V/P/{name} /V/P/G{name}", files
        while len(files.files) > 3 or f"F{made % 5}" in files.files:
            gone = f"F{made % 5}" if f"F{made % 5}" in files.files else sorted(files.files)[0]
            files = files.removed(gone)
            yield f"P REMOVE_FILE /V/P/{gone}", files


def run(script):
    """What a run of a script tells, line by line."""
    told = subprocess.run([PROGRAM, "run"], input="\n".join(script).encode() + b"\n", capture_output=True)
    if told.returncode != 0:
        sys.exit(f"bench: a run ended with status {told.returncode}: {told.stdout.decode()}")
    return told.stdout.decode().splitlines()


def found():
    """The contents by their names, as the next run reads them."""
    listing = run(["P OPEN_DIRECTORY /V/P"] + ["P READ_DIRECTORY 1"] * 9)[1:]
    names = [line.split()[4] for line in listing if line.split()[3] == "FILE"]
    contents = {}
    for name in names:
        data = run([f"P OPEN_FILE /V/P/{name} READ_ONLY", "P READ_FILE 1 4096"])[1].split()
        contents[name] = b"" if data[3] == "0" else bytes.fromhex(data[4])
    return contents


def killed(script, seconds):
    """How many whole lines a run told before it was killed, and whether it ended by itself."""
    with open("script", "wb") as text:
        text.write("\n".join(script).encode() + b"\n")
    with open("script", "rb") as text, open("told", "wb") as told:
        process = subprocess.Popen([PROGRAM, "run"], stdin=text, stdout=told)
        try:
            ended = process.wait(seconds)
            if ended != 0:
                sys.exit(f"bench: a run ended with status {ended}")
        except subprocess.TimeoutExpired:
            process.kill()
            process.wait()
    with open("told", "rb") as told:
        lines = told.read().split(b"\n")[:-1]
    refused = [line for line in lines if line.split()[1] != b"NO_ERROR"]
    if refused:
        sys.exit(f"bench: a line was refused: {refused[0].decode()}")
    return len(lines)


def once(chance):
    with tempfile.TemporaryDirectory() as folder:
        os.chdir(folder)
        with open("module.toml", "w") as table:
            table.write(TABLE)
        subprocess.run([PROGRAM, "format"], check=True, capture_output=True)
        source = changes(chance)
        lines, states = [], [Files()]
        while len(lines) < LINES:
            line, files = next(source)
            lines.append(line)
            states.append(files)
        told = killed(lines, chance.uniform(0.01, 1.5))
        image = found()
        allowed = states[told].allow(image) or (told < LINES and states[told + 1].allow(image))
        os.chdir("/")
    print(f"killed after {told} of {LINES} replies: {len(image)} files, {'allowed' if allowed else 'NOT ALLOWED'}")
    if not allowed:
        sys.exit(f"bench: after the line {lines[told - 1]} these contents aren't allowed: {image}")


begin = time.perf_counter()
chance = random.Random(SEED)
for _ in range(TIMES):
    once(chance)
print(f"{TIMES} runs were killed, in {time.perf_counter() - begin:.0f} s, and each image was allowed")
END
