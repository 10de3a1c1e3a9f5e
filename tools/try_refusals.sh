#!/bin/sh
# Compares every list of refusals with share/refusals.tsv: docs/REFUSALS.md, man/xmf.1, include/xmf.h, rust/xmf, and the names in crates/cursor and crates/refusals; and the
# checks of the verdict in man/xmf.1 with share/checks.tsv. Runs tools/tables.py --check, which compares what is made of the table and of
# share/version, and tools/declarations.py, which compares the declarations of the calls. Needs python3. The last line is `N passed, M failed`.
set -u

root=$(CDPATH='' cd -- "$(dirname -- "$0")/.." && pwd -P) || exit 1
cd -- "$root" || exit 1
exec python3 - <<'PYTHON'
import re
import subprocess
import sys


def read(name):
    return open(name, encoding="utf-8").read()


def table(name, width):
    rows = [line.split("\t") for line in read(name).splitlines() if not line.startswith("#")]
    assert all(len(row) == width and all(row) for row in rows), name
    return rows


def words(text):
    return " ".join(text.split())


def snake(name):
    return re.sub("([A-Z])", r"_\1", name).lower()


rows = table("share/refusals.tsv", 4)
checks = table("share/checks.tsv", 2)
fields = table("share/fields.tsv", 2)
meanings = [(int(n), m) for n, _, m, _ in rows]
names = [(int(n), name) for n, name, _, _ in rows]
reasons = [(n, name[0].upper() + name[1:]) for n, name in names]
sentences = [(int(n), m[0].upper() + m[1:] + ". " + t) for n, _, m, t in rows]
results = []


def compare(name, wanted, got):
    results.append(wanted == got)
    if wanted != got:
        print(f"{name}: differs from the table")
        for line in sorted(set(wanted) ^ set(got))[:6]:
            print("   ", "table" if line in wanted else "there", line)


compare("the numbers are 1 to 39", list(range(1, 40)), [n for n, _ in meanings])
compare("the checks are 0 to 8", list(range(9)), [int(n) for n, _ in checks])
compare("the fields are 0 to 14", list(range(15)), [int(n) for n, _ in fields])

text = read("docs/REFUSALS.md")
text = text[text.index("\n## The table\n") :]
text = text[: text.index("\n## ", 1)]
compare("docs/REFUSALS.md", [(int(n), m, t) for n, _, m, t in rows], [(int(n), m, t) for n, m, t in re.findall(r"^\| (\d+) \| (.*?) \| (.*) \|$", text, re.M)])

text = read("man/xmf.1")
text = text[text.index(".Sh DIAGNOSTICS") : text.index(".Sh SEE ALSO")]
listed = [[(int(n), words(m)) for n, m in re.findall(r"^\.It (\d+)\n((?:[^.].*\n)+)", part, re.M)] for part in text.split(".Bl")[1:]]
compare("man/xmf.1", sentences, listed[0])
compare("man/xmf.1, checks", [(int(n), m[0].upper() + m[1:] + ".") for n, m in checks], listed[1])

text = read("include/xmf.h")
text = text[text.index(" * Refusals") : text.index("*/")]
compare("include/xmf.h", meanings, [(int(n), words(m.replace("\n *", " "))) for n, m in re.findall(r"^ \* +(\d+)  ((?:.*)(?:\n \*       .*)*)", text, re.M)])

text = read("rust/xmf/src/lib.rs")
text = text[text.index("pub fn meaning") : text.index("not in the list")]
found = re.findall(r'(\d+) => (?:\{\s*)?"((?:[^"\\]|\\\n)*)"', text)
compare("rust/xmf", meanings, [(int(n), words(m.replace("\\\n", ""))) for n, m in found])

text = read("crates/cursor/specs/Refusals.antt") + read("crates/room/specs/Room.antt")
compare("Refusals.antt", [(n, snake(name)) for n, name in names], sorted((int(n), snake(a)) for a, n in re.findall(r"^(\w+) = (\d+)$", text, re.M)))
text = read("crates/refusals/src/lib.rt")
text = text[text.index("pub enum Reason") :]
found = re.findall(r"^    (\w+)(?: = 1)?,$", text[: text.index("\n}")], re.M)
compare("Reason", reasons, list(enumerate(found, 1)))
text = read("crates/refusals/specs/Reasons.antt")
compare("Reasons.antt", reasons, [(int(n), a) for a, n in re.findall(r"^number_of reason\.(\w+) = (\d+)$", text, re.M)])

for script in (["tools/tables.py", "--check"], ["tools/declarations.py"]):
    results.append(subprocess.run([sys.executable, *script], stdout=subprocess.DEVNULL).returncode == 0)
    if not results[-1]:
        print(*script, "failed")

print(f"{sum(results)} passed, {len(results) - sum(results)} failed")
raise SystemExit(not all(results))
PYTHON
