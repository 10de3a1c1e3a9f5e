#!/usr/bin/env python3
"""Makes the command's cases of crates/cases, the lines of its files stdin and stdout whose question is a single letter: questions of the command, and their
answers.

The answers are not the program's. A plain reader of accepted files, a mover of sheets, a walk over ID3 tags and a mender, written from the rules, make
the texts; what the reader refuses, the verdicts, the files with another title and the conversions are those of the other cases. Before anything is
written, all of this is compared with all of those cases that it can answer.

Run it in the repository's folder: python3 tools/answer_cases.py. It fails, and writes nothing, where an answer of the other cases is not its own. Those stay
as they are, in front. The program is then compared with what it wrote by `rt ci cases`, which fails where a byte of stdout differs.
"""

import functools
import itertools
import re

FULL = ["3328", "10240"]
ROOM = 65536

# the samples, with their verdicts or refusals (docs/HELPDESK.md, The samples)
SAMPLES = {
    "worked": 7,
    "mobile": 0,
    "folders": 1,
    "detached": 3,
    "unicode": 1,
    "versions000": 1,
    "cut": (5, 16),
    "header": (8, 29),
    "type": (11, 32),
}

# where the bytes of a file go
KINDS = [b"file header", b"node frames", b"metadata frames", b"visible data", b"hidden data", b"unpackers", b"references", b"inline resources", b"all else"]
HEADER, FRAMES, METADATA, VISIBLE, HIDDEN, UNPACKERS, REFERENCES, INLINE, REST = range(9)


class Refused(Exception):
    """A refusal: number and place."""


# ---- the plain reader; the file is one that is accepted


def number(data, at):
    """A number, and the place behind it."""
    value = 0
    while data[at] >= 0x80:
        value = value * 128 + data[at] - 0x80
        at += 1
    return value * 128 + data[at], at + 1


class File:
    def __init__(self, data):
        self.data = data
        self.nodes = []
        self.items = []
        self.version = data[4:8].decode()
        at = 16 if self.version == "2.00" else 8
        _, at = self.number(at)
        _, at = self.number(at)
        count, at = self.number(at)
        self.formats = {}
        for _ in range(count):
            kind, at = self.number(at)
            self.formats[kind], at = self.number(at)
            size, at = self.number(at)
            at += size
        start, at = self.number(at)
        _, at = self.number(at)
        self.kinds = [REST] * len(data)
        self.mark(HEADER, 0, at)
        self.node(start, 0, 1, 0)
        row = 0
        while row < len(self.nodes):
            target = self.nodes[row][7]
            if self.nodes[row][6] == 3 and target not in self.starts():
                self.node(target, len(self.nodes), 0, 1)
            row += 1

    def starts(self):
        return [node[0] for node in self.nodes]

    def mark(self, kind, at, end):
        self.kinds[at:end] = [kind] * (end - at)

    def number(self, at):
        return number(self.data, at)

    def node(self, start, parent, depth, detached):
        row = len(self.nodes)
        self.nodes.append(None)
        first = len(self.items)
        size, at = self.number(start)
        contained, at = self.number(at)
        header, at = self.number(at)
        self.mark(FRAMES, start, at)
        self.metadata(row, at)
        length, at = self.number(at)
        at += length
        length, unpackers = self.number(at)
        self.mark(UNPACKERS, at, unpackers + length)
        count = self.unpackers(unpackers, unpackers + length)
        reference, at = self.number(start + header)
        self.mark(REFERENCES, start + header, at if reference == 1 else start + size)
        if reference == 1 and not contained:
            self.mark(INLINE, at, start + size)
        target, extent = at, start + size - at
        if reference in (2, 3):
            target, _ = self.number(at)
            extent = len(self.data) - target if reference == 2 else 0
        if reference == 4:
            extent, target = self.number(at)
        self.nodes[row] = [start, size, header, contained, parent, depth, reference, target, extent, unpackers, count, len(self.items) - first, detached]
        for _ in range(contained):
            at += self.node(at, row, depth + 1, 0)
        return size

    def metadata(self, row, at):
        start = at
        length, at = self.number(at)
        end = at + length
        self.mark(METADATA, start, end)
        item = 0
        while at < end:
            length, at = self.number(at)
            if length == 0:
                field, at = self.number(at)
                name = [0, field, 0]
            else:
                name = [1, at, length]
                at += length
            count, at = self.number(at)
            if count == 0:
                length, at = self.number(at)
                kind, place = self.number(at)
                self.items.append([row, item, *name, 0, 0, kind, place, at + length - place])
                self.mark(HIDDEN if kind % 2 else VISIBLE, place, at + length)
                at += length
            for version in range(1, count + 1):
                kind, at = self.number(at)
                length, at = self.number(at)
                self.items.append([row, item, *name, version, kind, self.formats[kind], at, length])
                self.mark(HIDDEN if self.formats[kind] % 2 else VISIBLE, at, at + length)
                at += length
            item += 1

    def unpackers(self, at, end):
        count = 0
        while at < end:
            kind, at = self.number(at)
            if kind == 3:
                while self.data[at] >= 0x80:
                    at += 1
                at += 1
            else:
                if kind == 1:
                    at += 1 if self.data[at] else 3
                _, at = self.number(at)
            _, at = self.number(at)
            count += 1
        return count

    # ---- questions

    def find(self, row, wanted, climbs):
        if row >= len(self.nodes):
            raise Refused(18, 0)
        while True:
            for k, item in enumerate(self.items):
                node, _, kind, field, size = item[:5]
                if node == row and wanted == (self.data[field : field + size] if kind else field):
                    return k
            if not climbs or self.nodes[row][4] >= row:
                raise Refused(23, 0)
            row = self.nodes[row][4]

    def resolve(self, row):
        if row >= len(self.nodes):
            raise Refused(18, 0)
        hops = 0
        while True:
            node = self.nodes[row]
            if node[3]:
                raise Refused(19, 0)
            if node[6] == 4:
                raise Refused(20, 0)
            if node[6] == 1:
                return node[7], node[8], row, hops
            if hops == 4:
                raise Refused(21, 0)
            hops += 1
            if node[6] == 2:
                return node[7], node[8], row, hops
            row = self.starts().index(node[7])

    def described(self, k):
        """Channels, resources and counts of an item row."""
        _, _, kind, field, _, version, _, form, place, size = self.items[k]
        if (kind, field, version) != (0, 13, 0) or form not in (6, 7):
            raise Refused(23, 0)
        at, end = place, place + size

        def more(first, count):
            if first + count > end:
                raise Refused(25, at)
            return first + count

        def number():
            nonlocal at
            value, first = 0, at
            for _ in range(4):
                first = more(first, 1)
                value = value * 128 + self.data[first - 1] % 128
                if self.data[first - 1] < 0x80:
                    at = first
                    return value
            raise Refused(25, at)

        number()
        channels = number()
        resources = number()
        for _ in range(resources):
            first = at
            kind = number()
            if kind > 5:
                raise Refused(25, first)
            if kind in (3, 5):
                at = more(at, 16)
                continue
            if kind == 1:
                at = more(at, 3 if more(at, 1) and self.data[at] == 0 else 1)
            number()
        for _ in range(resources):
            number()
        counts = [number() for _ in range(channels * resources)]
        if at < end:
            raise Refused(25, at)
        return channels, resources, counts

    # ---- lines

    def hidden(self, k):
        return self.items[k][7] % 2 == 1

    def line(self, k):
        node, _, kind, field, size, version, _, form, place, count = self.items[k]
        label = b"C\t" + escaped(self.data[field : field + size]) if kind else b"S\t%d" % field
        return b"M\t%d\t%s\t%d\t%d\t%s\n" % (node, label, version, form, text_of(self.data[place : place + count], form))

    def sheet(self, second=False):
        lines = [b"XMF%s\t%s\t%d\t%d\t%d\n" % (b"2" if second else b"", self.version.encode(), len(self.data), len(self.nodes), len(self.items))]
        shown = [k for k in range(len(self.items)) if not self.hidden(k)]
        for k, node in enumerate(self.nodes):
            lines.append(tagged(b"N", [k, *(node[i] for i in (4, 5, 6, 7, 8))]))
            if second:
                lines += [self.line(j) for j in shown if self.items[j][0] == k]
        return b"".join(lines if second else lines + [self.line(k) for k in shown])

    def counts(self):
        """The bytes of each kind."""
        return [self.kinds.count(kind) for kind in range(len(KINDS))]

    def runs(self):
        lines, place = [], 0
        for kind, run in itertools.groupby(self.kinds):
            size = len(list(run))
            lines.append(b"K\t%d\t%d\t%s\n" % (place, size, KINDS[kind]))
            place += size
        return b"".join(lines)

    def needs(self, k):
        _, resources, counts = self.described(k)
        return b"".join(tagged(b"C", [k, j // resources, j % resources, count]) for j, count in enumerate(counts))


def tagged(tag, numbers):
    return tag + b"".join(b"\t%d" % n for n in numbers) + b"\n"


def escaped(data):
    return b"".join(bytes([b]) if 0x20 <= b <= 0x7E and b != 0x5C else b"\\%02x" % b for b in data)


def text_of(data, form):
    if form == 2:
        try:
            text = data.decode("utf-16-be").encode()
            return b"".join(bytes([b]) if b >= 0x80 else escaped([b]) for b in text.removeprefix(b"\xef\xbb\xbf"))
        except UnicodeDecodeError:
            pass
    return escaped(data)


# ---- a sheet in its other edition

NUMBER = rb"(?:0|[1-9][0-9]*)"
ESCAPE = rb"\\(?:[01][0-9a-f]|5c|7f|[89a-f][0-9a-f])"
NAME = rb"(?:[ -\[\]-~]|%s)+" % ESCAPE
FIRST = re.compile(rb"(XMF2?)\t(?:1\.00|1\.01|2\.00)\t(%s)\t(%s)\t(%s)" % (NUMBER, NUMBER, NUMBER))
NODE = re.compile(rb"N" + rb"\t(%s)" % NUMBER * 6)
ITEM = re.compile(rb"M\t(%s)\t(?:S\t(%s)|C\t%s)\t(%s)\t(%s)\t(.*)" % (NUMBER, NUMBER, NAME, NUMBER, NUMBER), re.DOTALL)
TEXT = re.compile(rb"(?:[ -\[\]-~]|%s)*" % ESCAPE)
WIDE = re.compile(rb"(?:[ -\[\]-~\x80-\xff]|%s)*" % ESCAPE)


def spelt(pattern, line):
    """The numbers of a line that is spelt so; or None."""
    found = pattern.fullmatch(line)
    numbers = [int(word) for word in found.groups() if word and word.isdigit()] if found else [1 << 28]
    return found if max(numbers[: 6 if pattern is NODE else 4]) < 1 << 28 else None


def moved(sheet):
    *lines, last = sheet.split(b"\n")
    first = spelt(FIRST, lines[0]) if lines else None
    if not first:
        raise Refused(31, 1)
    second = first[1] == b"XMF2"
    nodes, items, of = [], [], []
    for number, line in enumerate(lines[1:], 2):
        node, item = spelt(NODE, line), spelt(ITEM, line)
        if node and int(node[1]) == len(nodes) and (second or not items):
            nodes.append(line)
        elif item and int(item[4]) % 2 == 0 and (WIDE if item[4] == b"2" else TEXT).fullmatch(item[5]):
            row = int(item[1])
            if row >= len(nodes) or (second and row != len(nodes) - 1) or (of and row < of[-1]):
                raise Refused(31, number)
            items.append(line)
            of.append(row)
        else:
            raise Refused(31, number)
    if last:
        raise Refused(31, len(lines) + 1)
    if len(nodes) != int(first[3]) or len(items) > int(first[4]):
        raise Refused(31, 1)
    if second:
        order = nodes + items
    else:
        order = [line for k, node in enumerate(nodes) for line in [node, *(item for item, row in zip(items, of) if row == k)]]
    return b"".join(line + b"\n" for line in [(b"XMF" if second else b"XMF2") + lines[0][len(first[1]) :], *order])


# ---- an ID3 tag: name, place and length of each frame


def frames(tag):
    def size(at, end):
        if at + 4 > end or any(b >= 0x80 for b in tag[at : at + 4]):
            raise Refused(34, at)
        return int("".join(f"{b:07b}" for b in tag[at : at + 4]), 2)

    if len(tag) < 10 or tag[:3] != b"ID3":
        raise Refused(33, 0)
    if tag[3] != 4:
        raise Refused(33, 3)
    if tag[5] & 0x80:
        raise Refused(35, 5)
    end = 10 + size(6, 10)
    if end > len(tag):
        raise Refused(34, 6)
    at = 10
    if tag[5] & 0x40:
        extended = size(10, end)
        if extended < 6 or 10 + extended > end:
            raise Refused(34, 10)
        at += extended
    found = []
    while at < end and tag[at]:
        if at + 4 > end:
            raise Refused(34, at)
        length = size(at + 4, end)
        if length and at + 10 + length > end:
            raise Refused(34, at + 4)
        if at + 10 > end:
            raise Refused(34, at + 8)
        if tag[at + 9] & 2:
            raise Refused(35, at + 8)
        found.append((tag[at : at + 4], at + 10, length))
        at += 10 + length
    return found


def frame(tag, i):
    found = frames(tag)
    if i >= len(found):
        raise Refused(18, 0)
    return found[i]


def frame_lines(tag, one=None):
    return b"".join(b"F\t%d\t%s\t%d\t%d\n" % (i, escaped(name), place, size) for i, (name, place, size) in enumerate(frames(tag)) if one in (None, i))


# ---- a file whose header is mended: the copy and the lines, where the copy is accepted


def mended(data):
    at = 16 if data[4:8] == b"2.00" else 8
    copy, lines = bytearray(data), b""

    def set_right(name, place, end, old, new):
        nonlocal lines
        if old != new:
            copy[place:end] = bytes(new >> 7 * k & 0x7F | (0x80 if k else 0) for k in reversed(range(end - place)))
            lines += b"%s\t%d\t%d\t%d\n" % (name, place, old, new)

    old, end = number(data, at)
    set_right(b"FileLength", at, end, old, len(data))
    table, at = number(data, end)
    start, at = number(data, at + table)
    old, end = number(data, at)
    set_right(b"TreeEnd", at, end, old, start + number(data, start)[0] - 1)
    return bytes(copy), lines


# ---- the answers: status and text


def closed(room, status, text):
    return (status, text) if len(text) <= room else (1, b"")


def refused(room, tail, number, place):
    return closed(room, 2, b"R\t%d\t%d" % (number, place) + tail + b"\n")


def answered(room, tail, make):
    try:
        status, text = make()
    except Refused as refusal:
        return refused(room, tail, *refusal.args)
    return (status, text) if len(text) <= room else refused(room, tail, 22, 0)


def answer(file, question, tail, word, a, b, c):
    """Of an accepted file."""
    count = len(file.items)
    if question in "ikedfhFH" and a >= count:
        raise Refused(18, 0)
    if question in "sS":
        return 0, file.sheet(question == "S")
    if question == "b":
        counts = file.counts()
        return 0, b"".join(b"%s\t%d\n" % line for line in zip([*KINDS, b"total"], [*counts, sum(counts)]))
    if question == "B":
        counts = file.counts()
        return 0, tagged(b"B", [*counts, sum(counts)])[:-1] + tail + b"\n"
    if question == "u":
        return 0, file.runs()
    if question in "fhFH":
        if file.hidden(a) and question in "fh":
            return 1, b""
        return tag_answer(file.data[file.items[a][8] :][: file.items[a][9]], b if question in "hH" else None)
    if question == "c":
        return 0, b"ok\t%s\t%d" % (file.version.encode(), len(file.data)) + tail + b"\n"
    if question == "r":
        return 0, b"".join(tagged(b"n", [k, *row]) for k, row in enumerate(file.nodes)) + b"".join(tagged(b"i", [k, *row]) for k, row in enumerate(file.items))
    if question in "nNoO":
        k = file.find(a, word if question in "NO" else b, question in "nN")
        return 0, tagged(b"I", [k, *file.items[k]]) + (b"" if file.hidden(k) else file.line(k))
    if question in "pxg":
        place, size, row, hops = file.resolve(a)
        if question == "x":
            return 0, file.data[place : place + size]
        if question == "p":
            return 0, tagged(b"P", [place, size, row, hops])
        return 0, b"%d bytes from byte %d%s\n" % (size, place, b", which may hold hidden data" if file.nodes[row][6] == 2 else b"")
    if question == "w":
        rows = [k for k, item in enumerate(file.items) if (item[2], item[3], item[5]) == (0, 13, 0) and item[7] == 6]
        return 0, b"".join(file.needs(k) for k in rows)
    if question in "ik" and file.hidden(a):
        return 1, b""
    if question == "i":
        return 0, file.needs(a)
    if question == "k":
        channels, resources, counts = file.described(a)
        if b >= channels or c >= resources:
            raise Refused(23, 0)
        return 0, tagged(b"C", [a, b, c, counts[b * resources + c]])
    if question == "t":
        if any(node[6] in (2, 3) for node in file.nodes):
            raise Refused(36, 0)
        return 0, b"".join(b"%d\t" % k + file.line(k) for k, item in enumerate(file.items) if not file.hidden(k) and item[5] == 0)
    raise ValueError(question)


def tag_answer(tag, one=None):
    if one is not None:
        frame(tag, one)
    return 0, frame_lines(tag, one)


# ---- the cases of the questions, as crates/cases has them


@functools.cache
def others():
    """All cases but the command's: the line of the case, and the lines of the answer, two for a shelf."""
    with open("crates/cases/stdin") as cases, open("crates/cases/stdout") as answers:
        pairs = [(case, [next(answers) for _ in range(2 if case.startswith("shelf ") else 1)]) for case in cases]
        assert not answers.read()
    return [(case, said) for case, said in pairs if case[1] != " "]


def cases(*questions):
    """Words of the case, and words of the answer; whole tables only."""
    for case, (said, *_) in others():
        words = case.split()
        if words[0] in questions and (len(words) < 4 or words[0] in ("utf8", "utf16", "move") or words[2:4] == FULL):
            yield words, said.split()


def unhex(word):
    return b"" if word == "-" else bytes.fromhex(word)


def fitting(text, room):
    if len(text) > room:
        raise Refused(22, 0)
    return text


def compare():
    """The reader, with the answers of the questions."""
    tried = 0

    def same(words, got, said):
        nonlocal tried
        tried += 1
        assert got == said, (words, got, said)

    def asked(words, said, make):
        try:
            got = ["ok", *(str(n) for n in make())]
        except Refused as refusal:
            got = ["R", *(str(n) for n in refusal.args)]
        same(words, got, said)

    accepted = {}
    for words, said in cases("tree"):
        if said[0] == "ok":
            file = accepted[words[1]] = File(unhex(words[1]))
            rows = ["n:" + ";".join(",".join(map(str, r)) for r in file.nodes), "i:" + ";".join(",".join(map(str, r)) for r in file.items)]
            same(words, ["ok", file.version, str(len(file.nodes)), str(len(file.items)), *rows], said[:6])
    own = range(18, 24)
    for words, said in cases("find", "findown"):
        if said[0] == "ok" or int(said[1]) in own:
            file = File(unhex(words[1]))
            wanted = int(words[6]) if words[5] == "S" else unhex(words[6])
            asked(words, [said[0], *" ".join(said[1:]).replace(",", " ").split()], lambda: (k := file.find(int(words[4]), wanted, words[0] == "find"), *(file.items[k] if said[0] == "ok" else [])))
    for words, said in cases("resolve"):
        if said[0] == "ok" or int(said[1]) in own:
            asked(words, said[:5], lambda: File(unhex(words[1])).resolve(int(words[4])))
    for words, said in cases("sheet", "sheet2"):
        if said[0] == "ok":
            same(words, File(unhex(words[1])).sheet(words[0] == "sheet2"), unhex(said[1]))
    for words, said in cases("move"):
        asked(words, said, lambda: [fitting(moved(unhex(words[1])), int(words[2])).hex() or "-"])
    for words, said in cases("bytes"):
        if said[0] == "ok":
            asked(words, said, lambda: File(unhex(words[1])).counts())
    for words, said in cases("id3", "id3frame"):
        if words[0] == "id3":
            asked(words, said, lambda: [len(frames(unhex(words[1])))])
        else:
            asked(words, said, lambda: [(found := frame(unhex(words[1]), int(words[2])))[0].hex(), *found[1:]])
    for words, said in cases("mend"):
        if said[0] == "ok" or said[1] == "22":
            parts = mended(unhex(words[1]))
            asked(words, said, lambda: [fitting(part, int(room)).hex() or "-" for part, room in zip(parts, words[4:6])])
    for words, said in cases("count"):
        if said[0] == "ok" or int(said[1]) in (18, 23, 25):
            file = File(unhex(words[1]))
            row, channel, resource = map(int, words[4:7])

            def make():
                if row >= len(file.items):
                    raise Refused(18, 0)
                channels, resources, counts = file.described(row)
                if channel >= channels or resource >= resources:
                    raise Refused(23, 0)
                return [counts[channel * resources + resource]]

            asked(words, said, make)
    return tried


# ---- the cases that are made


class Made:
    def __init__(self):
        self.lines = {}

    def add(self, question, data, said, tail=b"", word=b"", room=ROOM, numbers=()):
        line = " ".join([question, data.hex() or "-", tail.hex() or "-", word.hex() or "-", str(room), *map(str, numbers)])
        status, text = said
        self.lines[line] = f"{status} {text.hex() or '-'}"

    def ask(self, file, question, numbers=(), tail=b"", word=b"", room=ROOM):
        a, b, c = (*numbers, 0, 0, 0)[:3]
        self.add(question, file.data, answered(room, tail, lambda: answer(file, question, tail, word, a, b, c)), tail, word, room, numbers)

    def refuse(self, data, number, place, others="rvnopxgwikt"):
        tail = b"\tname.xmf"
        for question in ("s", "c", others[number % len(others)], others[(number + 5) % len(others)]):
            own = tail if question in "scvSbB" else b""
            self.add(question, data, refused(ROOM, own, number, place), own, numbers=(0, 0, 0))

    def room(self, question, data, make, rooms=(ROOM,), numbers=()):
        """What is made without a reader, in rooms of these sizes."""
        for room in rooms:
            self.add(question, data, answered(room, b"", make), room=room, numbers=numbers)

    def later_of(self, file):
        """Of an accepted file, what later requests ask: the second edition, the bytes, the runs, the tags of item rows; its own sheets moved; nothing to mend."""
        tail = b"\ta \\5c name.xmf"
        for question in "SbB":
            self.ask(file, question)
            self.ask(file, question, tail=tail)
        self.ask(file, "u")
        for question in "Sbu":
            size = len(answer(file, question, b"", b"", 0, 0, 0)[1])
            for room in (size, size - 1, 7, 6):
                self.ask(file, question, room=room)
        size = len(answer(file, "B", tail, b"", 0, 0, 0)[1])
        for room in (size, size - 1, 7 + len(tail), 6 + len(tail)):
            self.ask(file, "B", room=room, tail=tail)
        for k in spread(range(len(file.items)), 3) + [len(file.items)]:
            for question in "fF":
                self.ask(file, question, (k,))
            for question in "hH":
                self.ask(file, question, (k, 0))
        for second in (False, True):
            sheet = file.sheet(second)
            assert moved(sheet) == file.sheet(not second)
            self.room("m", sheet, lambda: (0, moved(sheet)))
        self.mend(file.data)

    def mend(self, data):
        """Of a file that is accepted once it is mended."""
        copy, lines = mended(data)
        for question, text in ("M", copy), ("l", lines):
            # the other buffer has room for its own
            self.room(question, data, lambda: (0, text), (len(text), max(len(text) - 1, 0), 6))

    def tag(self, tag):
        """A tag by itself, and as the data of a row: visible, hidden, and as a version."""
        try:
            count = len(frames(tag))
        except Refused:
            count = 0
        file = File(built(tag))
        self.room("a", tag, lambda: tag_answer(tag))
        for number in sorted({0, max(count - 1, 0), count, (1 << 64) - 1}):
            self.room("A", tag, lambda: tag_answer(tag, number), numbers=(number,))
        for row in range(len(file.items)):
            for question in "fF":
                self.ask(file, question, (row,))
            self.ask(file, "H", (row, count - row % 2 if count else 0))
        self.ask(file, "h", (0, 0))
        self.ask(file, "h", (1, 0))

    def judge(self, data, check):
        for tail in (b"", b"\tb.xmf"):
            self.add("v", data, (3 if check else 0, b"V\t%d" % check + tail + b"\n"), tail)

    def all_of(self, file):
        tail = b"\ta \\5c name.xmf"
        nodes, count = len(file.nodes), len(file.items)
        for question in "sc":
            self.ask(file, question)
            self.ask(file, question, tail=tail)
        # room for all, for a byte less, for a refusal's line, for less
        size = len(file.sheet())
        for room in (size, size - 1, 7, 6, 0):
            self.ask(file, "s", room=room)
        for question in "rwt":
            self.ask(file, question)
        for row in [*range(nodes), nodes][-6:]:
            for question in "pxg":
                self.ask(file, question, (row,))
        told = [k for k, item in enumerate(file.items) if item[3] == 13]
        for k in sorted({*told, 0, count}):
            self.ask(file, "i", (k,))
            self.ask(file, "k", (k, 0, 0))
        fields = {(item[2], file.data[item[3] : item[3] + item[4]] if item[2] else item[3]) for item in file.items}
        absent = [(0, 77), (1, b"no such"), (1, b"")]
        for kind, field in sorted(fields, key=str)[:6] + absent:
            for row in [nodes - 1] if (kind, field) in absent else sorted({0, nodes // 2, nodes - 1, nodes}):
                for question in "NO" if kind else "no":
                    self.ask(file, question, (row,) if kind else (row, field), word=field if kind else b"")


def built(tag):
    """A file of one node, with this tag as field 14: universal, visible and hidden; and in two versions, the first one hidden."""

    def long(n):
        return bytes([0x80 | n >> 7, n & 0x7F])

    def sized(data):
        return long(len(data)) + data

    universal = [b"\0\x0e\0" + sized(bytes([form]) + tag) for form in (4, 5)]
    metadata = sized(b"".join([*universal, b"\0\x0e\2", b"\1" + sized(tag), b"\2" + sized(tag)]))
    header = b"\0" + long(5 + len(metadata) + 1) + metadata + b"\0"
    node = long(2 + len(header) + 2) + header + b"\1x"
    types = b"\x07\2\1\5\0\2\4\0"
    start = 16 + 2 + len(types) + 2 + 2
    return b"XMF_2.00" + bytes([0, 0, 0, 2, 0, 0, 0, 1]) + long(start + len(node)) + types + long(start) + long(start + len(node) - 1) + node


def spread(values, count):
    """So many of them, in their order."""
    values = list(values)
    return [values[k * len(values) // count] for k in range(min(count, len(values)))]


def small(found):
    return [(words, said) for words, said in found if len(words[1]) <= 600]


def later(made, tree):
    """The cases of the later requests."""
    for name, verdict in SAMPLES.items():
        with open(f"samples/{name}.xmf", "rb") as opened:
            data = opened.read()
        if isinstance(verdict, tuple):
            made.refuse(data, *verdict, "SbBuf")
            for question in "Ml":
                made.add(question, data, refused(ROOM, b"", *verdict))
        else:
            made.later_of(File(data))
    with open("samples/id3.xmf", "rb") as opened:
        made.later_of(File(opened.read()))
    with open("samples/mendable.xmf", "rb") as opened:
        made.mend(opened.read())
    for words, _ in spread(((w, s) for w, s in tree if s[0] == "ok"), 6):
        made.later_of(File(unhex(words[1])))
    # the shortest file of each refusal of the reader
    shortest = {}
    for words, said in cases("tree"):
        if said[0] == "R":
            shortest[int(said[1])] = min(shortest.get(int(said[1]), (words, said)), (words, said), key=lambda case: len(case[0][1]))
    for number, (words, said) in sorted(shortest.items()):
        for others in "SbBuf", "uhFHS":
            made.refuse(unhex(words[1]), number, int(said[2]), others)
    for words, _ in spread(((w, s) for w, s in small(cases("sheet2")) if s[0] == "ok"), 12):
        made.ask(File(unhex(words[1])), "S", room=int(words[4]))
    for words, _ in spread(((w, s) for w, s in small(cases("bytes")) if s[0] == "ok"), 15):
        for question in "bBu":
            made.ask(File(unhex(words[1])), question)
    # of sheets, all that is moved in each direction, and refusals at many lines
    moves = small(cases("move"))
    for kind, count in ("ok", 20), ("31", 60), ("22", 6):
        for words, _ in spread(((w, s) for w, s in moves if kind in s[:2]), count):
            sheet, room = unhex(words[1]), int(words[2])
            made.room("m", sheet, lambda: (0, moved(sheet)), (room,))
    for sheet in b"", b"\n", b"XMF\t1.00\t9\t0\t0\n", b"XMF2\t1.00\t9\t0\t0\n", b"XMF2\t1.00\t9\t0\t0", b"XMF3\t1.00\t9\t0\t0\n":
        made.room("m", sheet, lambda: (0, moved(sheet)), (ROOM, 8, 7, 6))
    # of tags, each refusal with its places, and tags of no, one and more frames
    groups = {}
    for words, said in cases("id3"):
        groups.setdefault(tuple(said), []).append(unhex(words[1]))
    for tags in groups.values():
        for tag in spread(tags, 1):
            made.tag(tag)
    # of files to mend, each refusal, and where one field, both or none is wrong
    mends = small(cases("mend"))
    for number in sorted({said[1] for _, said in mends if said[0] == "R" and said[1] != "22"}):
        for words, said in spread(((w, s) for w, s in mends if s[:2] == ["R", number]), 1):
            for question in "Ml":
                made.add(question, unhex(words[1]), refused(ROOM, b"", *map(int, said[1:])))
    for lines in 0, 1, 2:
        for words, _ in spread(((w, s) for w, s in mends if s[0] == "ok" and unhex(s[2]).count(b"\n") == lines), 6):
            made.mend(unhex(words[1]))


def main():
    tried = compare()
    made = Made()
    for name, verdict in SAMPLES.items():
        with open(f"samples/{name}.xmf", "rb") as opened:
            data = opened.read()
        if isinstance(verdict, tuple):
            made.refuse(data, *verdict)
        else:
            made.all_of(File(data))
            made.judge(data, verdict)
    tree = small(cases("tree"))
    for words, said in spread(((w, s) for w, s in tree if s[0] == "ok"), 18):
        made.all_of(File(unhex(words[1])))
    numbers = sorted({int(said[1]) for _, said in tree if said[0] == "R"})
    for number in numbers:
        for words, said in spread(((w, s) for w, s in tree if s[:2] == ["R", str(number)]), 1):
            made.refuse(unhex(words[1]), number, int(said[2]))
    for words, said in spread(small(cases("count")), 60):
        if said[0] == "ok" or int(said[1]) in (18, 23, 25):
            file = File(unhex(words[1]))
            made.ask(file, "k", tuple(map(int, words[4:7])))
            made.ask(file, "i", (int(words[4]),))
            made.ask(file, "w")
    for check in [str(n) for n in range(9)]:
        for words, said in spread(((w, s) for w, s in small(cases("verdict")) if s == ["ok", check]), 4):
            made.judge(unhex(words[1]), int(check))
    for words, said in spread(small(cases("title")), 80):
        data, row, new, room = unhex(words[1]), int(words[4]), unhex(words[5]), int(words[6])
        if room > ROOM or len(new) > 4000:
            continue
        said = (0, unhex(said[1])) if said[0] == "ok" else refused(room, b"", *map(int, said[1:]))
        made.add("d", data, said, word=new, room=room, numbers=(row,))
        try:
            file = File(data)
            utf16 = row < len(file.items) and file.items[row][7] == 2 and file.items[row][5] == 0
            made.add("e", data, said, word=new.decode("utf-16-be").encode() if utf16 else new, room=room, numbers=(row,))
            if utf16:
                made.add("e", data, refused(room, b"", 26, 1), word=b"a\xc3(", room=room, numbers=(row,))
        except (IndexError, KeyError, UnicodeDecodeError):
            pass
    for name, letter in ("utf8", "8"), ("utf16", "6"):
        for words, said in spread(((w, s) for w, s in cases(name) if len(w[1]) < 200), 40):
            room = int(words[2])
            said = (0, unhex(said[1])) if said[0] == "ok" else refused(room, b"", *map(int, said[1:]))
            made.add(letter, unhex(words[1]), said, room=room)
    later(made, tree)
    kept = others()
    with open("crates/cases/stdin", "w") as lines:
        lines.writelines(case for case, _ in kept)
        lines.writelines(line + "\n" for line in made.lines)
    with open("crates/cases/stdout", "w") as lines:
        lines.writelines(line for _, said in kept for line in said)
        lines.writelines(line + "\n" for line in made.lines.values())
    print(f"{tried} answers of the questions compared, {len(made.lines)} cases made")


if __name__ == "__main__":
    main()
