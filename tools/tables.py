#!/usr/bin/env python3
"""Writes what is made of share/version, share/refusals.tsv and share/checks.tsv into include/xmf.h, rust/xmf/src/kind.rs and python/xmf.py.

tools/tables.py           writes the parts anew
tools/tables.py --check   says which parts are not as they would be written; status 1 if there is one

Each part stands between a line with `tables.py: begin` and one with `tables.py: end`. The version in rust/xmf/Cargo.toml is compared too.
"""
import json
import pathlib
import re
import sys
import textwrap

root = pathlib.Path(__file__).resolve().parent.parent
version = (root / "share/version").read_text(encoding="utf-8").strip()
rows = [line.split("\t") for line in (root / "share/refusals.tsv").read_text(encoding="utf-8").splitlines() if not line.startswith("#")]
checks = [line.split("\t")[1] for line in (root / "share/checks.tsv").read_text(encoding="utf-8").splitlines() if not line.startswith("#")]
refusals = [(int(number), name, meaning) for number, name, meaning, _ in rows]


def constant(name):
    """badVersion: BAD_VERSION"""
    return re.sub("([A-Z])", r"_\1", name).upper()


def variant(name):
    """badVersion: BadVersion"""
    return name[0].upper() + name[1:]


def pieces(text, width):
    """A text as lines that together are the text."""
    lines = textwrap.wrap(text, width, break_long_words=False, break_on_hyphens=False)
    return [line + " " for line in lines[:-1]] + lines[-1:]


def header():
    out = [
        f'#define XMF_VERSION "{version}"',
        "",
        "/* The refusals by name; share/refusals.tsv has what to do about each. */",
        "enum xmf_refusal {",
        "    XMF_ANSWERED = 0,",
        *(f"    XMF_REFUSED_{constant(name)} = {number}{',' if number < len(refusals) else ''}" for number, name, _ in refusals),
        "};",
        "",
        "#ifdef XMF_STRUCTS",
        "/* Gives the meaning of a refusal's number: \"answered\" for 0, \"not in the list\" for a number that is",
        " * not there. It is never null. */",
        "static inline const char *xmf_refusal_text(int number) {",
        "    static const char *const texts[] = {",
        '        "answered",',
    ]
    for _, _, meaning in refusals:
        lines = pieces(meaning, 100)
        out += [f"        {json.dumps(line)}{',' if line is lines[-1] else ''}" for line in lines]
    out += [
        "    };",
        f'    return number < 0 || number > {len(refusals)} ? "not in the list" : texts[number];',
        "}",
        "#endif",
    ]
    return out


def rust():
    out = [
        "/// What a refusal is about, by its name in the refusal list.",
        "#[derive(Clone, Copy, Debug, PartialEq, Eq, Hash, PartialOrd, Ord)]",
        "#[non_exhaustive]",
        "pub enum RefusalKind {",
    ]
    for number, name, meaning in refusals:
        lines = textwrap.wrap(f"{number}: {meaning}.", 90)
        out += [*(f"    /// {line}" for line in lines), f"    {variant(name)},"]
    out += [
        "    /// A number that is not in the list; no call gives one.",
        "    Unlisted,",
        "}",
        "",
        "/// The kinds in the order of their numbers, from 1 on, each with its name in the list.",
        f"const KINDS: [(RefusalKind, &str); {len(refusals)}] = [",
        *(f'    (RefusalKind::{variant(name)}, "{name}"),' for _, name, _ in refusals),
        "];",
        "",
        "/// The checks of the verdict; at 0 that all hold.",
        f"const CHECKS: [&str; {len(checks)}] = [",
        *(f"    {json.dumps(check)}," for check in checks),
        "];",
        "",
        "/// The version of the interface.",
        f'pub const VERSION: &str = "{version}";',
    ]
    return out


def python():
    out = [f'__version__ = "{version}"', "", "#: The refusals: number, then name and meaning.", "REFUSALS = {"]
    for number, name, meaning in refusals:
        out.append(f"    {number}: ({json.dumps(name)}, {json.dumps(meaning)}),")
    out += ["}", "", "#: The checks of the verdict; at 0 that all hold.", "CHECKS = ("]
    return [*out, *(f"    {json.dumps(check)}," for check in checks), ")"]


parts = {"include/xmf.h": header, "rust/xmf/src/kind.rs": rust, "python/xmf.py": python}
wrong = []
for name, make in parts.items():
    path = root / name
    text = path.read_text(encoding="utf-8")
    found = re.fullmatch(r"(.*?tables\.py: begin[^\n]*\n)(.*?)([^\n]*tables\.py: end.*)", text, re.S)
    if not found:
        sys.exit(f"tables.py: {name} has no place for the part that is made")
    new = found[1] + "\n".join(make()) + "\n" + found[3]
    if new != text:
        wrong.append(name)
        if "--check" not in sys.argv:
            path.write_text(new, encoding="utf-8")
cargo = (root / "rust/xmf/Cargo.toml").read_text(encoding="utf-8")
if f'\nversion = "{version}"\n' not in cargo:
    sys.exit(f"tables.py: rust/xmf/Cargo.toml does not have the version {version} of share/version")
if "--check" in sys.argv and wrong:
    sys.exit(f"tables.py: not as share/version, share/refusals.tsv and share/checks.tsv would have it: {', '.join(wrong)}; tools/tables.py writes it")
