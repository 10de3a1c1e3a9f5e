#!/usr/bin/env python3
"""What tools/try_docs.sh looks at: try_docs.py FOLDER, with an installed copy of the command in FOLDER/to. A line for each check: passed, or NAME: failed."""
import fnmatch
import glob
import os
import pathlib
import re
import subprocess
import sys

work = pathlib.Path(sys.argv[1])
sessions = ["README.md", "docs/HELPDESK.md"]
named = [*sessions, *(f"docs/{name}.md" for name in ("REFUSALS", "CALLS", "PROOFS", "RULES", "TRACE", "MEASURED", "ARCHITECTURE"))]
most = {"README.md": 120, "docs/ARCHITECTURE.md": 250}
width = 120


def read(name):
    return pathlib.Path(name).read_text(encoding="utf-8")


def judge(good, name, more=()):
    for line in more if not good else ():
        print("   ", line)
    print("passed" if good else f"{name}: failed")


# ---- commands: a block that begins with `$ ` is a session; → is a tab


def blocks(text):
    """The fenced blocks, each with the number of its first line."""
    return [(text[: found.start()].count("\n") + 2, found[1]) for found in re.finditer(r"^```\n(.*?)^```$", text, re.M | re.S)]


def run(command, folder):
    environment = {**os.environ, "PATH": f"{work}/to/bin:{os.environ['PATH']}", "LC_ALL": "C"}
    done = subprocess.run(["sh", "-c", command], cwd=folder, env=environment, stdin=subprocess.DEVNULL, stdout=subprocess.PIPE, stderr=subprocess.STDOUT)
    return done.stdout.decode(errors="backslashreplace").replace("\t", "→")


def session(name):
    folder = work / pathlib.Path(name).stem
    folder.mkdir()
    subprocess.run(["cp", "-R", "samples", folder], check=True)
    (folder / "xmf").symlink_to(work / "to/bin/xmf")
    for line, block in blocks(read(name)):
        if not block.startswith("$ "):
            judge(False, f"{name}, line {line}: a block without a command")
            continue
        for part in re.split(r"^\$ ", block, flags=re.M)[1:]:
            command, _, wanted = part.partition("\n")
            got = run(command.replace("→", "\t"), folder)
            judge(got == wanted, f"{name}, line {line}: {command}", got.splitlines()[:8])
            line += part.count("\n")


# ---- names: a path is there, a name is a word of some source, or of the file that stands before it in a row of a table


def sources():
    found = {}
    for pattern in ("crates/**/*.antt", "crates/**/*.rt", "include/*.h", "rust/*/src/**/*.rs", "rust/*/examples/*.rs", "python/*.py", "tools/*", "share/*", "examples/c/*"):
        for name in glob.glob(pattern, recursive=True):
            if os.path.isfile(name):
                found[name] = pathlib.Path(name).read_text(encoding="utf-8", errors="replace")
    return found


def words_of(text):
    return set(re.findall(r"[A-Za-z_][\w'-]*", text)) | set(re.findall(r"[A-Za-z_]\w*", text))


def defined_in(name, text):
    """The names that a source defines: what stands before a colon or an equals sign at a line's beginning, types, functions, cases, fields, constants."""
    found = set(re.findall(r"\b(?:record|data|fn|struct|enum|const|class|def)\s+([\w'-]+)", text))
    for names in re.findall(r"^\s*((?:[\w'′-]+\s+)*[\w'′-]+)\s*(?:\(.*)?[:=]", text, re.M):
        found |= set(names.split())
    found |= set(re.findall(r"^\s*([A-Z]\w*)\s*(?:\(.*\))?\s*(?:\{.*)?,?$", text, re.M))
    if name.endswith(".h"):
        found |= set(re.findall(r"\b(\w+)\(", text)) | set(re.findall(r"^#define (\w+)", text, re.M))
    return found


# words that are no names of this repository: of the language, of the system, of samples and of sheets
others = set("requires ensures do rt sha256sum python3 groff shellcheck flock libxmf libsonivox4 XMF_ XMF2 Hi key token-42 XMF_SHELF".split())

texts = sources()
defined = set().union(*(defined_in(name, text) for name, text in texts.items()))
words = {name: words_of(text) for name, text in texts.items()}
commands = set(re.findall(r"^:(\S+)$", read("share/help.txt"), re.M)) | {"help", "why", "--version", "COMMAND"}


everything = [str(path) for top in sorted(pathlib.Path().iterdir()) if top.name not in (".git", "target") for path in (top, *top.rglob("*")) if "target" not in path.parts]


def places(path, folder):
    """The files that a path of a document may mean: beside the path before it, from the repository's folder, or at the end of a longer path."""
    path = path.removeprefix("./").rstrip("/")
    there = glob.glob(f"{folder}/{path}") if folder else []
    return there or [name for name in everything if fnmatch.fnmatchcase(name, path)] or [name for name in everything if fnmatch.fnmatchcase(name, f"*/{path}")] or glob.glob(f"{work}/*/{path}")


def is_path(text):
    return bool(re.fullmatch(r"[\w./*-]+", text)) and ("/" in text.strip("/") and not text.startswith(("/", "-")) or bool(re.search(r"\.(antt|rt|rs|md|sh|py|h|tsv|awk|txt|xmf|tsv)$", text)))


def logical(text):
    """The rows of tables, and paragraphs and items of lists as one line each, with the number of the first line."""
    lines = []
    for number, line in enumerate(text.splitlines(), 1):
        if lines and line.strip() and not re.match(r"\||#|    |\s*([-*]|\d+\.) ", line) and lines[-1][1].strip() and not re.match(r"\||#|    \S", lines[-1][1]):
            lines[-1] = (lines[-1][0], f"{lines[-1][1]} {line.strip()}")
        else:
            lines.append((number, line))
    return lines


def names(name):
    here = pathlib.Path(name)
    text = re.sub(r"^```\n.*?^```$", lambda found: "\n" * found[0].count("\n"), read(name), flags=re.M | re.S)
    missing = []
    for number, line in logical(text):
        folder, held = "", None
        if line.startswith("    "):
            # a block of commands: its paths
            for word in re.findall(r"[\w./-]+", line):
                if "/" in word.strip("/.") and not word.startswith(("/", "target/", "PREFIX/", "../")) and not places(word, ""):
                    missing.append(f"{name}, line {number}: there is no {word}")
        # in a row of a table the names behind `FILE`: are words of that file; in `| name | FILE |` of that file too
        cells = line.split("|") if line.startswith("|") else [line]
        if line.startswith("|") and len(cells) == 5 and re.fullmatch(r"(\s*`[\w'-]+`,?)+\s*", cells[1]) and re.match(r"\s*`[\w./-]+\.antt`", cells[2]):
            files, folder = [], ""
            for path in re.findall(r"`([\w./-]+\.antt)`", cells[2]):
                found = places(path, folder)
                files += found
                folder = os.path.dirname(found[0]) if found else folder
            known = set().union(*(words[file] for file in files if file in words))
            missing += [f"{name}, line {number}: {word} is not in {', '.join(files)}" for word in re.findall(r"`([^`]+)`", cells[1]) if word not in known]
        # `name` and `name` in `FILE`
        for found in re.finditer(r"((?:`[\w'-]+`(?:, and |, | and )?)+) in `([\w./-]+\.(?:antt|rt))`", line):
            files = places(found[2], "")
            known = set().union(*(words[file] for file in files if file in words))
            missing += [f"{name}, line {number}: {word} is not in {found[2]}" for word in re.findall(r"`([^`]+)`", found[1]) if word not in known]
        folder = ""
        for found in re.finditer(r"`([^`]+)`(:?)", line):
            word = found[1]
            if is_path(word):
                there = places(word, folder)
                if not there and not word.startswith(("target/", "lib/", "PREFIX/")):
                    missing.append(f"{name}, line {number}: there is no {word}")
                if there:
                    folder = os.path.dirname(there[0])
                held = there[0] if there and found[2] and there[0] in words else None
            elif re.fullmatch(r"xmf [\w-]+( .*)?", word):
                if word.split()[1] not in commands:
                    missing.append(f"{name}, line {number}: there is no command {word}")
            elif re.fullmatch(r"[A-Za-z_]\w*(::[A-Za-z_]\w*)+(\(.*)?", word):
                last = re.match(r"[\w:]+", word)[0].split("::")
                missing += [f"{name}, line {number}: {part} of {word} is nowhere" for part in last if part not in defined and not places(part, folder)]
            elif re.fullmatch(r"[A-Za-z_][\w'-]+", word):
                if held and name.endswith("TRACE.md") and word not in words[held]:
                    missing.append(f"{name}, line {number}: {word} is not in {held}")
                elif word not in defined | others and not places(word, folder) and not places(f"{word}.*", folder):
                    missing.append(f"{name}, line {number}: {word} is nowhere")
    judge(not missing, f"{here}: names", missing)


# ---- lines and the table of refusals


def lines(name):
    text = read(name)
    bare = re.sub(r"^```\n.*?^```$", lambda found: "\n" * found[0].count("\n"), text, flags=re.M | re.S).splitlines()
    long = [f"{name}, line {number}: {len(line)} characters" for number, line in enumerate(bare, 1) if len(line) > width and not line.startswith("|")]
    judge(not long, f"{name}: lines of at most {width} characters", long)
    if name in most:
        judge(text.count("\n") <= most[name], f"{name}: at most {most[name]} lines")


def refusals():
    rows = [line.split("\t") for line in read("share/refusals.tsv").splitlines() if not line.startswith("#")]
    wanted = [(number, meaning, advice) for number, _, meaning, advice in rows]
    judge(wanted == re.findall(r"^\| (\d+) \| (.*?) \| (.*) \|$", read("docs/REFUSALS.md"), re.M), "docs/REFUSALS.md: the table")
    for name in named:
        wrong = [line for line in read(name).splitlines() if (found := re.match(r"\| (\d+) \| (.*?) \|", line)) and name == "README.md" and (found[1], found[2]) not in {(n, m) for n, m, _ in wanted}]
        judge(not wrong, f"{name}: a table of refusals", wrong)


for document in sessions:
    session(document)
for document in named:
    names(document)
    lines(document)
refusals()
