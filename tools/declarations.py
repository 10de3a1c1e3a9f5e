#!/usr/bin/env python3
"""Compares the declarations of the calls: tools/declarations.py [ROOT]

The exports of crates/capi_c, which are proved, include/xmf.h, the extern block of rust/xmf and python/xmf.py must have the same functions with
the same parameters, by name and type. In C and in the extern block a slice is a pointer and a length: `file: &[u8]` is `const uint8_t *file,
size_t file_length`, and `nodes: &mut [u64]` is `uint64_t *nodes, size_t node_words`. If the archive is there, it must have these symbols.
Status 1: something differs, and is printed.
"""
import ast
import pathlib
import re
import shutil
import subprocess
import sys

# Parameters that the exports call otherwise than the interface does. An entry that no longer applies is a problem.
OTHERWISE = {
    ("xmf_correct_title", "row"): "item_row",
    ("xmf_utf16_to_utf8", "units"): "data",
    ("xmf_utf8_to_utf16", "units"): "data",
}

root = pathlib.Path(sys.argv[1] if len(sys.argv) > 1 else __file__).resolve()
root = root if root.is_dir() else root.parent.parent
problems = []


def read(name):
    return (root / name).read_text(encoding="utf-8")


def split(text):
    """Parameters, without comments and line ends."""
    text = re.sub(r"//[^\n]*|/\*.*?\*/", "", text, flags=re.S)
    return [" ".join(part.split()) for part in text.split(",") if part.strip()]


def length_of(name, element):
    """The name of a slice's length: file_length, node_words."""
    return f"{name.removesuffix('s')}_words" if element == "u64" else f"{name}_length"


def lent(where, function, declared):
    """Parameters with pointers as (name, type), with slices for pairs of a pointer and a length."""
    out, at = [], 0
    while at < len(declared):
        name, kind = declared[at]
        at += 1
        pointer = re.fullmatch(r"\*(const|mut) (u8|u64)", kind)
        if pointer:
            wanted = (length_of(name, pointer[2]), "usize")
            if at == len(declared) or declared[at] != wanted:
                problems.append(f"{where}: {function}: {name} is not followed by its length, {wanted[0]}")
            else:
                at += 1
            kind = f"&{'mut ' if pointer[1] == 'mut' else ''}[{pointer[2]}]"
        out.append((name, kind))
    return out


def functions(found):
    """A dictionary, with a problem for what is there twice."""
    out = {}
    for name, parameters in found:
        if name in out:
            problems.append(f"{name} is there twice")
        out[name] = parameters
    return out


def proved():
    found = []
    for path in sorted((root / "crates/capi_c/src").rglob("*.rt")):
        text = path.read_text(encoding="utf-8")
        exports = re.findall(r'^#\[unsafe\(no_mangle\)\]\npub extern "C" fn (\w+)\(([^)]*)\)(?=\s*(?:ensures|requires|->|\{))(\s*->)?', text, re.M)
        if len(exports) != text.count("no_mangle"):
            problems.append(f"{path.name}: an export is not understood")
        found += [(name, [tuple(part.split(": ")) for part in split(words)]) for name, words, _ in exports]
    return functions(found)


def header():
    kinds = {"uint8_t": "u8", "uint64_t": "u64", "size_t": "usize"}

    def parameter(text):
        const, kind, star, name = re.fullmatch(r"(const )?(\w+) (\*?)(\w+)", text).groups()
        return name, f"*{'const' if const else 'mut'} {kinds[kind]}" if star else kinds[kind]

    found = re.findall(r"^void (xmf_\w+)\(([^)]*)\);", read("include/xmf.h"), re.M)
    return functions((name, lent("include/xmf.h", name, [parameter(part) for part in split(words)])) for name, words in found)


def rust():
    text = read("rust/xmf/src/c.rs")
    found = re.findall(r"^    pub fn (\w+)\(([^)]*)\);", text, re.M)
    if len(found) != text.count("pub fn "):
        problems.append("rust/xmf/src/c.rs: a declaration is not understood")
    return functions((name, lent("rust/xmf", name, [tuple(part.split(": ")) for part in split(words)])) for name, words in found)


def python():
    for part in ast.parse(read("python/xmf.py")).body:
        if isinstance(part, ast.Assign) and getattr(part.targets[0], "id", "") == "_CALLS":
            calls = ast.literal_eval(part.value)
            return {name: [tuple(word.split(": ")) for word in words.split(", ")] for name, words in calls.items()}
    return {}


wanted = proved()
for (function, name), other in OTHERWISE.items():
    if name not in dict(wanted.get(function, [])):
        problems.append(f"tools/declarations.py: {function} has no parameter {name}: the entry in OTHERWISE can go")
    wanted[function] = [(other if word == name else word, kind) for word, kind in wanted.get(function, [])]
for where, found in {"include/xmf.h": header(), "rust/xmf": rust(), "python/xmf.py": python()}.items():
    for name in sorted(wanted.keys() | found.keys()):
        if name not in found:
            problems.append(f"{where}: {name} is missing")
        elif name not in wanted:
            problems.append(f"{where}: {name} is no export of capi_c")
        elif found[name] != wanted[name]:
            problems.append(f"{where}: {name} has other parameters: {found[name]}, not {wanted[name]}")
archive = root / "target/staticlib/libcapi.a"
if archive.exists() and shutil.which("nm"):
    lines = subprocess.run(["nm", "--defined-only", archive], capture_output=True, text=True, check=True).stdout.splitlines()
    symbols = {line.split()[2] for line in lines if re.fullmatch(r"\w+ T xmf_\w+", line)}
    if symbols != wanted.keys():
        problems.append(f"target/staticlib/libcapi.a is not current, or has other symbols: {sorted(symbols ^ wanted.keys())}")
print(*problems, sep="\n", end="\n" if problems else "")
print(f"{len(wanted)} exports, {len(problems)} problems")
raise SystemExit(bool(problems) or not wanted)
