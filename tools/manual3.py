#!/usr/bin/env python3
"""Prints the manual man/xmf.3 made of the header: tools/manual3.py <include/xmf.h >man/xmf.3

The header's first comment is the description, its headings are subsections; the comment before each declaration follows it, and the
declarations are the synopsis. tools/try_xmf.sh compares the manual with the header.
"""
import re
import sys

text = sys.stdin.read()


def roff(line):
    line = line.replace("\\", "\\e").replace("`", "\\(ga")
    return "\\&" + line if line[:1] in (".", "'") else line


def blocks(comment):
    """Paragraphs of a comment, each a list of lines; (indented, lines)."""
    lines = [re.sub(r"^ ?\* ?", "", line) if line.lstrip().startswith("*") else line for line in comment.split("\n")]
    part = []
    for line in lines + [""]:
        if line.strip():
            part.append(line.rstrip())
        elif part:
            yield all(x.startswith("  ") for x in part), part
            part = []


def body(comment, headings=False):
    out = []
    for indented, lines in blocks(comment):
        if indented:
            out += [".Bd -literal", *(roff(x) for x in lines), ".Ed"]
        elif headings and len(lines) == 1 and not lines[0].endswith((".", ":", ",")):
            out.append(".Ss " + lines[0].strip())
        else:
            out += [".Pp", *(roff(x.strip()) for x in lines)]
    return [x for i, x in enumerate(out) if not (x == ".Pp" and i and out[i - 1].startswith(".Ss"))]


def inline(part):
    """The functions with structs: comment, type, name and parameters."""
    return re.findall(r"/\*((?:(?!\*/).)*)\*/\s*\nstatic inline (\w[\w ]*?[ *]+)(xmf_\w+)\(([^)]*)\) \{", part, re.S)


first, rest = re.match(r"/\*(.*?)\*/(.*)", text, re.S).groups()
# the functions with structs stand in the last part, behind a comment of their own
rest, about, last = re.fullmatch(r"(.*?)/\* ==== The functions with structs ====\n \*\n(.*?)\*/(.*)", rest, re.S).groups()
structs = inline(last)
functions = re.findall(r"/\*((?:(?!\*/).)*)\*/\s*\n(\w[\w ]*?[ *]+)(xmf_\w+)\(([^)]*)\);", rest, re.S)
names = [name for _, _, name, _ in [*functions, *structs]]
out = [
    '.\\" Made of include/xmf.h by tools/manual3.py.',
    ".Dd November 17, 2026",
    ".Dt XMF 3",
    ".Os",
    ".Sh NAME",
    *(f".Nm {name}{' ,' if name != names[-1] else ''}" for name in names),
    ".Nd questions about XMF files, from C",
    ".Sh LIBRARY",
    "libxmf (libxmf, \\-lxmf)",
    ".Sh SYNOPSIS",
    ".In xmf.h",
]
for _, kind, name, words in [*functions, *structs]:
    out += [f".Ft {kind.strip()}", f".Fo {name}"]
    out += [f'.Fa "{" ".join(word.split())}"' for word in words.split(",")]
    out.append(".Fc")
out += [".Sh DESCRIPTION", *body(first, True)]
out += [".Ss Constants and columns", ".Bd -literal"]
declared = rest[rest.index("#define XMF_NODE_WORDS") :]
declared = declared[: re.search(r"/\*[^*]*\*/\s*\n\w[\w ]*?[ *]+xmf_\w+\(|/\* Reads the tree", declared).start()]
out += [roff(line.rstrip()) for line in declared.strip().split("\n")]
out += [".Ed", ".Sh FUNCTIONS"]
for comment, _, name, _ in functions:
    out += [f".Ss {name}", *body(comment)[0 if body(comment)[0] != ".Pp" else 1 :]]
out += [".Sh FUNCTIONS WITH STRUCTS", *body(about)]
declared = last[last.index("/* tables.py: begin") : last.index("#ifdef XMF_STRUCTS\n\n")]
declared = re.sub(r"/\* tables\.py: \w+.*?\*/\n|#ifdef XMF_STRUCTS\n.*?#endif\n\n?", "", declared, flags=re.S)
out += [".Ss Refusals and structs", ".Bd -literal", *(roff(line.rstrip()) for line in declared.strip().split("\n")), ".Ed"]
for comment, _, name, _ in structs:
    out += [f".Ss {name}", *body(comment)[0 if body(comment)[0] != ".Pp" else 1 :]]
out += [".Sh SEE ALSO", ".Xr xmf 1"]
print("\n".join(out))
