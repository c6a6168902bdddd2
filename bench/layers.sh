#!/bin/sh
# Prints the crates in layers, as crates.txt has them: a crate is one layer above the highest crate that it uses, so that the
# number of layers is the length of the longest chain. docs/ARCHITECTURE.md shows what it prints.
#
#   sh bench/layers.sh
#
# python3 reads the file.
set -u

cd "$(dirname "$0")/.." || exit 1
python3 - <<'END'
import textwrap

uses = {}
with open("crates.txt", encoding="utf-8") as it:
    for line in it:
        name, found, below = line.partition(":")
        if found and not line.startswith("#"):
            uses[name.split()[0]] = below.split()


def layer(name):
    """The crates in the longest chain that ends in this one. A library that the file doesn't list is the kit's."""
    return 1 + max((layer(it) for it in uses[name] if it in uses), default=0)


layers = {}
for name in uses:
    layers.setdefault(layer(name), []).append(name)
for number in sorted(layers, reverse=True):
    tests = [name for name in layers[number] if name.endswith("_tests")]
    names = [name for name in layers[number] if name not in tests] + tests
    print(textwrap.fill(", ".join(names), 120, initial_indent=f"{number:4}  ", subsequent_indent=" " * 6))
END
