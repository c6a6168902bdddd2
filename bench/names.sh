#!/bin/sh
# Lists the names that a document puts in backquotes and that nothing defines: crates, files, functions, types, clauses, words of
# the program. A path counts where there is such a file or folder; `Rattle.CRATE.` likewise, for a crate of this repository;
# every other name where each of its parts is a word of the sources' code (not of a comment) or of a file's name. A word that
# is told counts too: it is a word of the code's texts. Of a text that isn't one name the words with an underscore are looked up.
#
#   sh bench/names.sh
#
# It ends with the status 1 where there is such a name. python3 reads the files.
set -u

top=$(cd "$(dirname "$0")/.." && pwd) || exit 1
cd "$top" || exit 1
python3 - <<'END'
import fnmatch
import os
import re
import subprocess
import sys

# Words of the kit, of the system and of TOML, which the repository uses and doesn't define.
OUTSIDE = set("""rt fmt tidy plant lemma try run ci must fail all seed doc version jobs fail alloc io expand anew allow holes io path
data get_mut also_owns decreases NAME Display find_at xxd dd python3 strace valgrind callgrind sh bench fsync cp r std core requires
ensures unfolding disk img out told script edit PATH TOML CALL OUTPUT minutes""".split())
# What a document writes in the place of a name.
PLACES = set("NAME NUMBER VALUE LINE X N P V K PLACE PROGRAM TIMES SEED LINES PARTITION PORT VOLUME OWNER CODE ERRNO BLOCKS TREES LOGBOOKS CRATE MODE".split())
WORD = r"[^\W\d]\w*"
COMMENTS = {".rt": r"//.*", ".antt": r"--.*", ".sh": r"^\s*#.*", ".toml": r"#.*", ".txt": r"^#.*"}


def words_of(file):
    with open(file, encoding="utf-8", errors="replace") as it:
        text = it.read()
    comment = COMMENTS.get(os.path.splitext(file)[1])
    return set(re.findall(WORD, re.sub(comment, "", text, flags=re.M) if comment else text))


files = subprocess.run(["git", "ls-files"], capture_output=True, text=True).stdout.split()
paths, words = set(), set()
for file in files:
    parts = file.split("/")
    for k in range(len(parts)):
        paths |= {"/".join(parts[: k + 1]), os.path.splitext("/".join(parts[: k + 1]))[0]}
    if file != "bench/names.sh" and (not file.endswith((".md", ".img")) or file.endswith(".gitignore")):
        words |= words_of(file)
names = {name for path in paths for name in [path.split("/")[-1], *re.findall(WORD, path.split("/")[-1])]}


def is_path(name):
    return any(path in paths for path in (name, "crates/" + name, "crates/apex_model/specs/" + name)) or any(
        path.endswith("/" + name) for path in paths
    )


def is_defined(name):
    # what a build makes is in the folder out of its crate
    name = re.sub(r"/out/\w+$", "", name.strip("/."))
    if "*" in name:
        return any(fnmatch.fnmatch(file, name) or fnmatch.fnmatch(file, "*/" + name) for file in files)
    own = re.match(r"Rattle\.(\w+)\.", name)
    if own and "crates/" + own[1] in paths:
        return is_path(name[len("Rattle.") :].replace(".", "/"))
    if re.fullmatch(r"[a-z_]+(/[\w.-]+)+", name):
        return is_path(name)
    return all(part in words or part in names or part in OUTSIDE or part in PLACES for part in re.findall(WORD, name))


missing = []
for file in ["README.md"] + [it for it in files if it.startswith("docs/")]:
    if file == "docs/WRONG_BODIES.md":
        # it quotes lines that were there once
        continue
    with open(file, encoding="utf-8") as it:
        text = it.read()
    for found in re.finditer(r"`([^`]+)`", text):
        name = " ".join(found[1].split())
        # of a longer text the words with an underscore are names for certain
        whole = re.fullmatch(r"[\w:./*≢-]+", name)
        for name in [name] if whole else re.findall(r"[^\W\d_]\w*_\w+", name):
            if not is_defined(name):
                missing.append(f"{file}:{text.count(chr(10), 0, found.start()) + 1}: {name}")
print("".join(it + "\n" for it in missing), end="")
sys.exit(1 if missing else 0)
END
