#!/usr/bin/env python3
"""The gate's time by its parts: tools/gate_times.py LOG, where LOG is what `rt ci` of an older kit printed.

That `rt ci` printed the seconds that each crate and each must-fail edit took; today's prints none. It proved the crates level by level, two at a
time, and then tried the edits, two at a time, and waited for both of a pair. This is done again here with those seconds,
for all crates and then without those of the last request, of the last two, and so on: the gate's time before and after
each. It prints the two tables of docs/LANDINGS.md, "Times". The log has to have all crates that crates.txt lists.
"""
import re
import sys
from pathlib import Path

ROOT = Path(__file__).resolve().parent.parent
# what came with a request, in the order in which they landed: its crates, and its edits of other crates
REQUESTS = [
    ("E9", ["account", "usage", "spans"], ["promises/totals_cleared", "promises/sums_of_all", "words/counts_swapped", "words/totals_order"]),
    (
        "E8",
        ["editions", "mover"],
        ["promises/sheet2_as_sheet", "promises/moves_nowhere", "promises/before_last_line", "sheet/last-items", "sheet/first-row-again", "sheet/second-word"],
    ),
    ("E10", ["id3", "frames"], []),
    ("E11", ["mend"], []),
    ("E7", ["shelf", "shelf_file", "shelves"], []),
]


def read(log):
    """Seconds of each crate, and of each edit, in the order of the log."""
    crates, edits = {}, {}
    for line in Path(log).read_text(encoding="utf8").splitlines():
        if m := re.match(r"rt: (\w+) proved \((\d+) s\)$", line):
            crates[m[1]] = int(m[2])
        elif m := re.match(r"rt: must-fail (\S+): refused, as it must be \(.*?(\d+) s\)$", line):
            edits[m[1]] = int(m[2])
    return crates, edits


def levels():
    """The level of each crate: above those that it needs."""
    needs, level = {}, {}
    for line in (ROOT / "crates.txt").read_text(encoding="utf8").splitlines():
        name, colon, rest = line.partition("#")[0].partition(":")
        if colon:
            needs[name.split()[0]] = rest.split()

    def visit(name):
        if name not in level:
            level[name] = 1 + max((visit(n) for n in needs[name] if n in needs), default=-1)
        return level[name]

    for name in needs:
        visit(name)
    return level


def pairs(seconds):
    return sum(max(seconds[i : i + 2]) for i in range(0, len(seconds), 2))


def gate(crates, edits, level, without):
    """Seconds of a gate that lacks some crates and edits."""
    gone = {c for _, names, _ in without for c in names}
    lost = {e for _, _, names in without for e in names}
    high = max(level.values())
    proved = sum(pairs([s for c, s in crates.items() if level[c] == k and c not in gone]) for k in range(high + 1))
    return proved + pairs([s for e, s in edits.items() if e.split("/")[0] not in gone and e not in lost])


def minutes(seconds):
    return f"{seconds // 60} min {seconds % 60} s"


def main():
    words = sys.argv[1:]
    if len(words) != 1:
        sys.exit(__doc__)
    crates, edits = read(words[0])
    if not crates or not edits:
        sys.exit(f"{words[0]}: no crate or no edit was timed")
    level = levels()
    missing = [c for c in level if c not in crates]
    if missing:
        sys.exit(f"{words[0]}: no time of {', '.join(missing)}")
    print("| Request | Its crates and edits (seconds) | Before | After |\n|---|---|---|---|")
    for i, (request, names, others) in enumerate(REQUESTS):
        parts = []
        for c in names:
            own = [s for e, s in edits.items() if e.split("/")[0] == c]
            parts.append(f"`{c}` {crates[c]}" + (f", {len(own)} edits {sum(own)}" if own else ""))
        if others:
            parts.append(f"{len(others)} edits of other crates {sum(edits[e] for e in others)}")
        before = gate(crates, edits, level, REQUESTS[i:])
        after = gate(crates, edits, level, REQUESTS[i + 1 :])
        print(f"| {request} | {'; '.join(parts)} | {minutes(before)} | {minutes(after)} |")
    print("\n| Crate | Seconds | Edits | Their seconds |\n|---|---|---|---|")
    for c, s in crates.items():
        own = [t for e, t in edits.items() if e.split("/")[0] == c]
        print(f"| `{c}` | {s} | {len(own) or ''} | {sum(own) or ''} |")
    proved = gate(crates, {}, level, []) if crates else 0
    print(f"\nCrates {minutes(proved)}, edits {minutes(pairs(list(edits.values())))}, by pairs.")


if __name__ == "__main__":
    main()
