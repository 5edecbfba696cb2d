#!/usr/bin/env python3
"""Removes from a copy of the repository what the program does not need, so that it is not proved before a first use: what
is compiled for tests alone, and the crates that the program does not stand on.

usage: without_tests.py COPY

What stands behind a line `#[cfg(test)]` goes, to its `;` or to the closing brace at the start of a line, and with a module
its file and its proofs. A crate that `aplc` does not stand on goes with its line of crates.txt. All else stays byte for byte.
"""

import pathlib
import re
import shutil
import sys

TESTS = re.compile(r"\n*^#\[cfg\(test\)\]\n(?:mod (\w+)(?:;$| \{\n(?:.*\n)*?\}$))(?=\n)", re.MULTILINE)


def clean(file):
    text = file.read_text(encoding="utf-8")
    modules = [found[1] for found in TESTS.finditer(text)]
    if not modules:
        return
    file.write_text(TESTS.sub("", text), encoding="utf-8")
    source = file.parent
    while source.name != "src":
        source = source.parent
    for name in modules:
        (file.parent / f"{name}.rt").unlink(missing_ok=True)
        shutil.rmtree(file.parent / name, ignore_errors=True)
        shutil.rmtree(source.parent / "proofs" / name, ignore_errors=True)


def needed(lines, crate):
    """A crate with all that it stands on."""
    below = {name: words.split() for name, words in (line.split(":", 1) for line in lines)}
    found, left = set(), [crate]
    while left:
        name = left.pop()
        if name in below and name not in found:
            found.add(name)
            left += below[name]
    return found


def drop_crates(copy):
    crates = copy / "crates.txt"
    lines = [line for line in crates.read_text(encoding="utf-8").splitlines() if line.strip()]
    names = needed(lines, "aplc")
    crates.write_text("".join(f"{line}\n" for line in lines if line.split(":")[0] in names), encoding="utf-8")
    for folder in (copy / "crates").iterdir():
        if folder.name not in names:
            shutil.rmtree(folder)


copy = pathlib.Path(sys.argv[1])
drop_crates(copy)
for file in sorted(copy.glob("crates/*/src/**/*.rt")):
    if file.exists():
        clean(file)
