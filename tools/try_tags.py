#!/usr/bin/env python3
"""Compares `xmf id3 --tag` with Debian's python3-mutagen on ID3v2.4 tags that mutagen writes: count, names and sizes of frames.

usage: tools/try_tags.py [COUNT [SEED]]    from the repository's root; status 0 if all agree
"""
import os
import random
import subprocess
import sys
import tempfile

try:
    from mutagen import id3
except ImportError:
    sys.exit("tools/try_tags.py: python3-mutagen is not installed")

TEXTS = [id3.TIT2, id3.TPE1, id3.TALB, id3.TRCK, id3.TCOM, id3.TPUB, id3.TDRC, id3.TLEN, id3.TKEY]


def word(rng):
    """A text with letters inside and outside ASCII."""
    return "".join(rng.choice("abc xyzÆøå€漢𝄞") for _ in range(rng.randint(0, 40)))


def frames(rng):
    """A tag with some frames, each of its own key: mutagen keeps one frame a key."""
    tag = id3.ID3()
    for kind in rng.sample(TEXTS, rng.randint(0, len(TEXTS))):
        text = "2004" if kind is id3.TDRC else word(rng)
        tag.add(kind(encoding=rng.choice([1, 2, 3]), text=[text]))
    for i in range(rng.randint(0, 3)):
        tag.add(id3.TXXX(encoding=3, desc="d%d" % i, text=[word(rng)]))
    for i in range(rng.randint(0, 2)):
        tag.add(id3.COMM(encoding=3, lang="eng", desc="c%d" % i, text=[word(rng)]))
    if rng.random() < 0.3:
        tag.add(id3.APIC(encoding=3, mime="image/png", type=3, desc="p", data=rng.randbytes(rng.randint(0, 2000))))
    if rng.random() < 0.3:
        tag.add(id3.PRIV(owner="boat", data=rng.randbytes(rng.randint(0, 200))))
    return tag


def written(tag, padding, path):
    """The tag as mutagen writes it in front of nothing."""
    if os.path.exists(path):
        os.remove(path)
    with open(path, "wb"):
        pass
    tag.save(path, v1=0, v2_version=4, padding=lambda info: padding)


def expected(path):
    """The tag as mutagen reads it, and names and sizes of the frames in file order, sizes by mutagen's numbers of seven bits a byte."""
    header = id3.ID3(path)
    listed = []
    with open(path, "rb") as file:
        data = file.read()
    at = 10
    while at + 10 <= header.size and data[at] != 0:
        name = data[at : at + 4].decode("ascii")
        size = id3.BitPaddedInt(data[at + 4 : at + 8])
        listed.append((name, int(size)))
        at += 10 + size
    return header, listed


def shown(path):
    """Names and sizes as the command prints them."""
    run = subprocess.run(["./xmf", "id3", "--tag", path], capture_output=True, check=False)
    if run.returncode != 0:
        return run.returncode, run.stdout + run.stderr
    rows = [line.split("\t") for line in run.stdout.decode("ascii").splitlines()]
    for i, row in enumerate(rows):
        if row[0] != "F" or row[1] != str(i):
            return 1, run.stdout
    return 0, [(row[2], int(row[4])) for row in rows]


def main():
    count = int(sys.argv[1]) if len(sys.argv) > 1 else 400
    rng = random.Random(int(sys.argv[2]) if len(sys.argv) > 2 else 4)
    failed = total = 0
    with tempfile.TemporaryDirectory() as folder:
        path = os.path.join(folder, "tag")
        for i in range(count):
            tag = frames(rng)
            if not len(tag):
                tag.add(id3.TIT2(encoding=3, text=["x"]))
            written(tag, rng.choice([0, 0, 1, 20, 500]), path)
            read, listed = expected(path)
            status, got = shown(path)
            total += len(listed)
            names = sorted(f.FrameID for f in read.values())
            if status != 0 or got != listed or sorted(n for n, _ in listed) != names:
                failed += 1
                print("tag %d: expected %r, got %r" % (i, listed, got))
    print("%d tags of %d frames: %d agree, %d do not" % (count, total, count - failed, failed))
    return 1 if failed or not total else 0


if __name__ == "__main__":
    sys.exit(main())
