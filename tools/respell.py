#!/usr/bin/env python3
"""Respells this repository's own definitions and lemmas as today's Rattle spells names. Run once, at the top, after the kit's port.py.

A name in camel case that begins with a small letter becomes snake case. A dash stays where it joins the name of a definition to a word; a dash between
plain words becomes `_`. Names of src/, strings, inputs and outputs stay. A new name that would fall together with another of the same file is left out
and printed. The crate `unicode` has the name of a library of the kit and becomes `utf16`. The conditional of programs becomes `when◌then◌else◌`, since the
library's is `if◌then◌else◌`. In clauses `old x` and `new x` become `x.old`, `x.new` of a `&mut` and `x.now` of a `&`.
"""

import collections
import os
import re
import sys

TOKEN = re.compile(r"[^\s(){}\[\],;.:=|\"⌜⌝@`∷]+")
SIGNATURE = re.compile(r"^(\s*)((?:(?:abbrev|unfoldable|pub|data|record|ruleset)\s+)*)([^\s:(){}]+)(?:\s.*)?\s:(?:\s|$)")
CAMEL = re.compile(r"[a-z][a-z0-9_']*[A-Z]")
LIBRARY = re.compile(r"use (?:Rattle\.std|mathlib|Prim|native|lib|borrow|denote)\b.*?\{(.*?)\}", re.S)
CRATES = {"unicode": "utf16"}
# new names that have a plainer form than the rule's
PLAIN = {"decEqZero": "dec_eq_zero", "notATag": "not_a_tag", "notATitle": "not_a_title"}
# constructors that stand several on a line, and fields of structs of src/
MORE = ["metaFrame", "unpackFrame", "nodeFrame", "referenceFrame", "headerEnd", "nameLength", "unpackerCount"]


def files(*endings):
    for folder, folders, names in os.walk("crates"):
        folders[:] = sorted(d for d in folders if d != "out")
        for name in sorted(names):
            if name.endswith(endings):
                yield os.path.join(folder, name)


def read(path):
    with open(path, encoding="utf-8", newline="") as file:
        return file.read()


def is_own(path):
    """Whether the file holds definitions or lemmas, and not the proof of one function."""
    parts = path.split("/")
    return parts[2] == "specs" or parts[2] == "proofs" and len(parts) == 4


def snake(name):
    name = re.sub(r"(?<=[a-z0-9'])([A-Z])(?=[a-z0-9'\-]|$)", lambda m: "_" + m.group(1).lower(), name)
    return name


def declared():
    """The names that the repository declares, those of definitions among them, and the fields of records."""
    names, definitions, fields = set(), set(), set()
    for path in files(".antt"):
        if not is_own(path):
            continue
        record = None
        for line in read(path).split("\n"):
            if line.lstrip().startswith("--"):
                continue
            if record is not None and line.strip() and len(line) - len(line.lstrip()) <= record:
                record = None
            match = SIGNATURE.match(line)
            if match:
                names.add(match.group(3))
                if record is not None:
                    fields.add(match.group(3))
                if path.split("/")[2] == "specs" or "abbrev" in match.group(2) or "unfoldable" in match.group(2):
                    definitions.add(match.group(3))
            if re.match(r"\s*(?:pub )?(?:record|data) ", line) and line.rstrip().endswith("where"):
                record = len(line) - len(line.lstrip())
    return names, definitions, fields


def new_names(names, definitions, library):
    table = {}
    for name in names:
        new = PLAIN.get(name, name)
        if CAMEL.match(new):
            new = snake(new)
        if "-" in new:
            parts = new.split("-")
            first = name.split("-")[0]
            kept = first in definitions or first in library
            new = parts[0] + ("-" if kept else "_") + "_".join(parts[1:])
        if new != name:
            table[name] = new
    return table


def pieces(path, text):
    """The text as (is code of specs, proofs or clauses; piece) in order."""
    if path.endswith(".antt"):
        for line in text.splitlines(keepends=True):
            at = line.find("--") if re.match(r"\s*--", line) else -1
            if at < 0 and "  -- " in line:
                at = line.find("  -- ")
            if at < 0:
                yield True, line
            else:
                yield True, line[:at]
                yield False, line[at:]
        return
    for line in text.splitlines(keepends=True):
        ghost = re.match(r"\s*(pub )?(ghost use|requires|ensures|ghost)\b", line)
        yield bool(ghost) or is_clause(line), line


def is_clause(line):
    return bool(re.search(r"[≡≤→λ×∷◌⌜]", line))


def main():
    names, definitions, fields = declared()
    library = set()
    tokens, dotted = {}, {}
    for path in files(".antt", ".rt"):
        text = read(path)
        for group in LIBRARY.findall(text):
            library |= {word.strip().split(" as ")[0] for word in group.split(",")}
        tokens[path] = set()
        for code, piece in pieces(path, text):
            if code:
                tokens[path] |= {m.group(0) for m in TOKEN.finditer(piece)}
    table = new_names(names, definitions, library)
    # names that would fall together: the definition has the plain one, and a lemma has `_lem` after it
    claims = collections.defaultdict(set)
    for name in names:
        claims[table.get(name, name)].add(name)
    for new, olds in sorted(claims.items()):
        if len(olds) > 1:
            first = min(olds, key=lambda old: (old not in definitions, not CAMEL.match(old), old))
            for old in sorted(olds - {first}):
                print(f"lemma: {old} beside {first}")
                table[old] = new + "_lem"
    for path, found in tokens.items():
        for old in sorted(found & table.keys()):
            if table[old] in found and table[old] not in table:
                print(f"together: {path}: {old} and {table[old]}")
    turn({**table, **{name: snake(name) for name in MORE}}, fields)
    turn_more()
    turn_conditional()
    turn_moments()
    turn_crates()


def turn(table, fields):
    for path in files(".antt", ".rt", ".edit"):
        text = read(path)
        own = set()
        if path.endswith(".antt") and not is_own(path):
            own = {m.group(3) for m in map(SIGNATURE.match, text.split("\n")) if m and not CAMEL.match(m.group(3))}
        aliases = set(re.findall(r"use [^\s{]+ as ([\w-]+)", text))

        def one(piece, comment):
            def put(match):
                word = match.group(0)
                new = table.get(word)
                if new is None or word in own:
                    return word
                if not CAMEL.match(word) and (comment or "-" not in word and path.endswith((".rt", ".edit"))):
                    return word
                if match.start() and piece[match.start() - 1] == "." and not CAMEL.match(word) and word not in fields:
                    before = re.search(r"([^\s(){}\[\],;.]+)\.$", piece[: match.start()])
                    if not before or not (before.group(1) in aliases or before.group(1)[0].isupper()):
                        return word
                return new
            return TOKEN.sub(put, piece)

        if path.endswith(".edit"):
            new = "".join(one(line, False) if re.match(r"(old|new):", line) else line for line in text.splitlines(keepends=True))
        else:
            new = "".join(one(piece, not code) if code or path.endswith(".antt") else piece for code, piece in pieces(path, text))
        if new != text:
            with open(path, "w", encoding="utf-8", newline="") as file:
                file.write(new)


def turn_more():
    """The names of MORE in the code of src/ too, where they are fields of structs."""
    for path in files(".rt", ".antt", ".edit"):
        text = read(path)
        new = re.sub(rf"(?<![\w'])({'|'.join(MORE)})(?![\w'])", lambda m: snake(m.group(1)), text)
        if new != text:
            with open(path, "w", encoding="utf-8", newline="") as file:
                file.write(new)


def turn_conditional():
    for path in files(".antt", ".edit"):
        text = read(path)
        if "if◌then◌else◌" not in text and not (path.endswith(".edit") and re.search(r"^(old|new): .*\bif\b.*\bthen\b", text, re.M) and "specs/" in text):
            continue
        lines = []
        for line in text.split("\n"):
            at = 0 if re.match(r"\s*(--|#)", line) else line.find("  -- ")
            code, note = (line, "") if at < 0 else (line[:at], line[at:])
            code = code.replace("if◌then◌else◌", "when◌then◌else◌")
            lines.append(re.sub(r"(?<![\w◌'\-.])if(?=\s)", "when", code) + note)
        write(path, "\n".join(lines))


def kinds(signature):
    """Of each parameter, whether it is a `&mut` ('new'), a `&` ('now') or neither (None)."""
    found = {}
    for name, lent, changed in re.findall(r"(\w+):\s*(&(?:'\w+\s+)?)?(mut\s+)?", signature):
        found[name] = ("new" if changed else "now") if lent else None
    return found


def turn_moments():
    for path in files(".rt"):
        lines, signature, known, is_open = [], "", {}, False
        for line in read(path).split("\n"):
            if re.search(r"\bfn \w+.*\(", line) and not line.strip().startswith("//"):
                signature, known = line, kinds(line)
                is_open = line.count("(") != line.count(")")
            elif is_open:
                signature += " " + line
                known = kinds(signature)
                is_open = signature.count("(") != signature.count(")")
            elif not line.strip().startswith("//") and "ghost use" not in line:

                def moment(match):
                    kind = known.get(match.group(2))
                    if kind is None:
                        return match.group(0)
                    return f"{match.group(2)}.{match.group(1) if kind == 'new' else 'now'}"

                line = re.sub(r"(?<![\w.'])(old|new) ([a-z_]\w*)\b(?!\.)", moment, line)
                line = re.sub(r"\(([a-z_]\w*\.(?:old|new|now))\)", r"\1", line)
            lines.append(line)
        text = "\n".join(lines)
        write(path, re.sub(r"ghost use Rattle\.room\.specs\.Moments\.\{[^}]*\};\n", "", text))
    moments = "crates/room/specs/Moments.antt"
    if os.path.exists(moments):
        os.remove(moments)
        write("crates/room/specs/Lib.antt", read("crates/room/specs/Lib.antt").replace("pub mod Moments\n", ""))


def write(path, text):
    if text != read(path):
        with open(path, "w", encoding="utf-8", newline="") as file:
            file.write(text)


def turn_crates():
    for old, new in CRATES.items():
        if not os.path.isdir(f"crates/{old}"):
            continue
        os.rename(f"crates/{old}", f"crates/{new}")
        lines = []
        for line in read("crates.txt").split("\n"):
            lines.append(line if line.startswith("#") else re.sub(rf"(?<![\w]){old}(?![\w])", new, line))
        with open("crates.txt", "w", encoding="utf-8") as file:
            file.write("\n".join(lines))
        for path in files(".antt", ".rt", ".edit"):
            text = read(path)
            turned = re.sub(rf"Rattle\.{old}\b", f"Rattle.{new}", text)
            if path.endswith((".rt", ".edit")):
                turned = re.sub(rf"\buse {old}::", f"use {new}::", turned)
                turned = re.sub(rf"(?<![\w:]){old}::", f"{new}::", turned)
            if turned != text:
                with open(path, "w", encoding="utf-8", newline="") as file:
                    file.write(turned)


if __name__ == "__main__":
    main()
