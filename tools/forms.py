#!/usr/bin/env python3
"""Counts the places of older forms in src/ and proofs/: forms.py [--list POINT] [ROOT].

The points are those of docs/DESIGN-PASS.md. A place is something to look at, not a verdict.
  1a  own enums of the shape of Option or Result, and where their variants are named
  1b  numbers for refusals: constants of refusals, and where they are named
  1c  numbers for kinds: parameters and fields of type u64 that say which kind or state
  2   twins: functions that are alike but for names, types and constants
  3   loops that count by hand: while and loop
  4   equality, order, copying, conversion and printing by hand
  5a  facts that stand in the requires of three or more functions
  5b  three or more parameters that travel together through three or more functions
  6   a length or a place beside its buffer: a slice and a count of its rows; a sorted list searched by hand
  7   a flag or a number that says which step to run; function pointers
  8   answers and invariants of functions' proofs; runs of six or more equal lines between them
"""
import argparse
import collections
import pathlib
import re

GIVEN_UP = {"Refused", "No", "None", "Nothing", "Other", "Bad"}
REFUSALS = set("""NOT_XMF BAD_VERSION CUT_SHORT BAD_NUMBER WRONG_LENGTH BAD_TYPE BAD_TREE BAD_NODE TOO_DEEP NO_ROW_LEFT BAD_CONTENTS BAD_UNPACKER
BAD_REFERENCE BAD_FOLDER BYTES_LEFT BAD_TARGET TOO_LARGE NO_SUCH_ROW ENDS_AT_FOLDER ENDS_AT_URI TOO_MANY_HOPS NO_ROOM NO_SUCH_ITEM BAD_DETACHED
BAD_DESCRIPTION BAD_TEXT NO_SUCH_CARD NO_FREE_CARD ALREADY_THERE SHEET_TOO_LONG BAD_SHEET TOO_MANY_FILES NOT_A_TAG BAD_TAG UNSYNCHRONISED
REFERS_ELSEWHERE NOT_A_TITLE RESULT_TOO_LARGE DAMAGED_SHELF""".split())


class Function:
    def __init__(self, path, line, name, text):
        self.path, self.line, self.name, self.text = path, line, name, text
        cut = re.search(r"^\s*\{|\{\s*$", text, re.M)
        # the body begins at the first line that is a lone brace, or at the brace that ends the head
        lone = re.search(r"^ *\{$", text, re.M)
        start = lone.start() if lone else (cut.start() if cut else len(text))
        self.head, self.body = text[:start], text[start:]

    def parameters(self):
        found = re.search(r"\((.*?)\)\s*(->|requires|ensures|\{|$)", self.head.replace("\n", " "))
        if not found:
            return []
        parts = [p.strip() for p in re.split(r",(?![^<(\[]*[>)\]])", found.group(1))]
        return [p for p in parts if p and "self" not in p.split(":")[0]]

    def requires(self):
        facts = []
        for clause in re.findall(r"requires\s*\w*\s*\{(.*?)\}\s*$", self.head, re.M):
            facts += [f.strip().strip("()").strip() for f in clause.split("×")]
        return facts


def functions(root):
    for path in sorted(root.glob("crates/*/src/**/*.rt")):
        lines = path.read_text().split("\n")
        i = 0
        while i < len(lines):
            m = re.match(r"^( *)(pub |pub\(crate\) )?fn (\w+)", lines[i])
            if m:
                j = i
                while j < len(lines) and not (lines[j] == m.group(1) + "}" or re.match(r".*[;}]$", lines[j]) and j == i and "{" in lines[j]):
                    j += 1
                yield Function(path.relative_to(root), i + 1, m.group(3), "\n".join(lines[i:j + 1]))
                i = j
            i += 1


def enums(root):
    for path in sorted(root.glob("crates/*/src/**/*.rt")):
        text = path.read_text()
        for m in re.finditer(r"^(?:pub )?enum (\w+)[^{]*\{(.*?)^\}", text, re.M | re.S):
            variants = re.findall(r"^\s+(\w+)(\(.*\))?(?: = \d+)?,", m.group(2), re.M)
            yield path.relative_to(root), text[:m.start()].count("\n") + 1, m.group(1), variants


def shaped(variants):
    names = {v for v, _ in variants}
    given_up = names & GIVEN_UP
    return len(names) == 2 and bool(given_up) or names == {"Done", "Refused"}


def twins(all_functions):
    shapes = collections.defaultdict(list)
    for f in all_functions:
        body = re.sub(r"//.*", "", f.body)
        tokens = re.findall(r"\w+|[^\w\s]", body)
        if len(tokens) < 25:
            continue
        order, out = {}, []
        for t in tokens:
            if re.match(r"^(if|else|while|for|in|let|mut|match|return|loop|break|as|true|false|Ok|Err|Some|None)$", t):
                out.append(t)
            elif re.match(r"\w", t):
                out.append("v%d" % order.setdefault(t, len(order)))
            else:
                out.append(t)
        shapes[" ".join(out)].append(f)
    return [fs for fs in shapes.values() if len(fs) > 1]


def count(root):
    places = collections.OrderedDict()
    sources = {p.relative_to(root): p.read_text() for p in sorted(root.glob("crates/*/src/**/*.rt"))}
    all_functions = list(functions(root))
    lines = [(p, i + 1, l) for p, t in sources.items() for i, l in enumerate(t.split("\n")) if not l.strip().startswith("//")]

    owns = [(p, n, name) for p, n, name, vs in enums(root) if shaped(vs)]
    names = {name for _, _, name in owns}
    variants = {name: {v for v, _ in vs} for _, _, name, vs in enums(root) if name in names}
    places["1a"] = ["%s:%d: enum %s" % o for o in owns] + [
        "%s:%d: %s" % (p, n, l.strip()) for p, n, l in lines for e, v in re.findall(r"\b(\w+)::(\w+)", l) if e in names and v in variants[e]]
    places["1b"] = ["%s:%d: %s" % (p, n, l.strip()) for p, n, l in lines for w in re.findall(r"\b[A-Z_]{6,}\b", l) if w in REFUSALS]
    places["1c"] = ["%s:%d: %s" % (p, n, l.strip()) for p, n, l in lines
                    for _ in re.findall(r"\b(?:kind|detached|reference|state|status|mode|which|verdict|version|step|code): (?:u64|usize|u8)\b", l)]
    places["2"] = ["; ".join("%s:%d %s" % (f.path, f.line, f.name) for f in fs) for fs in twins(all_functions)]
    places["3"] = ["%s:%d: %s" % (p, n, l.strip()) for p, n, l in lines if re.match(r"\s*(while|loop)\b", l) or re.search(r"= loop \{", l)]
    by_hand = r"^(same|is_same|equal|is_equal|compare|less|lesser|greater|wide|copy_of|clone|to_number|from_code|code_of|number_of|name_of|show|digit)(_\w+)?$"
    places["4"] = ["%s:%d: %s" % (f.path, f.line, f.name) for f in all_functions if re.match(by_hand, f.name)]
    facts = collections.defaultdict(set)
    for f in all_functions:
        for r in f.requires():
            facts[r].add("%s:%d %s" % (f.path, f.line, f.name))
    places["5a"] = ["%d times: %s" % (len(fs), r) for r, fs in sorted(facts.items(), key=lambda x: -len(x[1])) if len(fs) >= 3]
    groups = collections.defaultdict(set)
    for f in all_functions:
        ps = [p for p in f.parameters() if p.split(":")[0].strip() not in ("out", "to")]
        for k in range(3, len(ps) + 1):
            for at in range(0, len(ps) - k + 1):
                groups[tuple(ps[at:at + k])].add((f.path, f.name))
    # the longest groups only
    kept = [g for g, fs in groups.items() if len(fs) >= 3 and not any(
        len(h) > len(g) and len(gs) >= len(fs) and any(h[i:i + len(g)] == g for i in range(len(h))) for h, gs in groups.items())]
    places["5b"] = ["%d times: %s" % (len(groups[g]), ", ".join(g)) for g in sorted(kept, key=lambda g: -len(groups[g]))]
    beside = r"\b(count|n|m|many|tree|made|size|len|end|used): usize\b"
    places["6"] = ["%s:%d: %s" % (f.path, f.line, f.name) for f in all_functions
                   if re.search(r": &(?:mut )?\[", f.head) and re.search(beside, f.head)] + [
        "%s:%d: %s" % (p, n, l.strip()) for p, n, l in lines if re.search(r"while low < high", l)]
    places["7"] = ["%s:%d: %s" % (f.path, f.line, f.name) for f in all_functions if any(re.search(r": (bool|fn\()", p) for p in f.parameters())]
    answers, runs = 0, collections.Counter()
    for path in sorted(root.glob("crates/*/proofs/**/*.antt")):
        if "/out/" in str(path) or path.name not in ("Answers.antt", "Invariants.antt"):
            continue
        ls = [re.sub(r"\s+", " ", l).strip() for l in path.read_text().split("\n")]
        answers += sum(1 for l in ls if re.search(r" : goal\.", l))
        ls = [l for l in ls if l and not l.startswith(("--", "use "))]
        for i in range(len(ls) - 5):
            runs["\n".join(ls[i:i + 6])] += 1
    places["8"] = ["answer"] * answers + [r.split("\n")[0] for r, k in runs.items() if k > 1]
    return places


def main():
    words = argparse.ArgumentParser(description=__doc__, formatter_class=argparse.RawDescriptionHelpFormatter)
    words.add_argument("--list", choices=["1a", "1b", "1c", "2", "3", "4", "5a", "5b", "6", "7", "8"])
    words.add_argument("root", nargs="?", default=".")
    given = words.parse_args()
    places = count(pathlib.Path(given.root))
    if given.list:
        for place in places[given.list]:
            print(place)
        return
    for point, found in places.items():
        print("%-3s %d" % (point, len(found)))


main()
