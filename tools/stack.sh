#!/bin/sh
# Measures the stack that each call needs, on the samples and on files of 16 and 17 levels, whose header is right or wrong, and compares it with what
# include/xmf.h says under "Stack". Needs gcc and python3. If the archive is not current it is built first. A call that is new in the header has to
# be added to tools/stack.c.
set -eu

root=$(CDPATH='' cd -- "$(dirname -- "$0")/.." && pwd -P)
"$root/tools/build.sh" capi
work=$(mktemp -d)
trap 'rm -rf "$work"' EXIT
gcc -std=c11 -O2 -Wall -Wextra -Werror -Wl,-z,now -I "$root/include" "$root/tools/stack.c" "$root/target/staticlib/libcapi.a" -o "$work/stack"
python3 - "$root" "$work" <<'PYTHON'
import pathlib
import re
import subprocess
import sys

root, work = map(pathlib.Path, sys.argv[1:])


def number(value):
    groups = [value & 127]
    while value := value >> 7:
        groups.insert(0, 128 | value & 127)
    return bytes(groups)


def node(contained, contents):
    """A node without metadata and unpackers, and with reference 1."""
    size = 1
    while len(number(size + 5 + len(contents))) > size:
        size += 1
    return number(size + 5 + len(contents)) + bytes([contained, size + 4, 0, 0, 1]) + contents


def deep(levels, wrong):
    """A file of version 1.00 whose tree has this number of levels; FileLength and TreeEnd are too small by this."""
    tree = node(0, b"\xaa")
    for _ in range(levels - 1):
        tree = node(1, tree)
    start = 13
    assert start + len(tree) < 128
    return b"XMF_1.00" + bytes([start + len(tree) - wrong, 1, 0, start, start + len(tree) - 1 - wrong]) + tree


files = sorted((root / "samples").glob("*.xmf"))
for levels in (16, 17):
    for wrong in (0, 1):
        files.append(work / f"deep{levels}-{wrong}.xmf")
        files[-1].write_bytes(deep(levels, wrong))
lines = subprocess.run([work / "stack", *files], check=True, capture_output=True, text=True).stdout
most = {}
for line in lines.splitlines():
    name, size = line.split()
    most[name] = max(most.get(name, 0), int(size))
text = (root / "include/xmf.h").read_text(encoding="utf-8")
declared = {name: words for name, words in re.findall(r"^void (xmf_\w+)\(([^)]*)\);", text, re.M)}
said = re.search(r"takes a file needs at most (\d+) kB of stack, xmf_correct_title (\d+) kB, any other call (\d+) kB", text)
file, title, other = (1024 * int(word) for word in said.groups())
failed = sorted(declared.keys() ^ most.keys())
for name in failed:
    print(f"{name}: not both declared and measured")
for name, size in most.items():
    limit = title if name == "xmf_correct_title" else file if "*file" in declared.get(name, "") else other
    print(f"{name:20} {size:6} of {limit}")
    if size > limit:
        failed.append(name)
raise SystemExit(bool(failed))
PYTHON
