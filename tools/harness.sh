# shellcheck shell=sh
# What the tests of the commands share; sourced by tools/try_*.sh, which set `root`, the repository's folder. They end with `summary`, whose last
# line is `N passed, M failed`. The folder `work` is removed at the end.

work=$(mktemp -d) || exit 1
# each check is a line of this file, so that one in a pipe, which is a shell of its own, counts too
counts=$work.counts
: >"$counts" || exit 1
trap 'chmod -R u+w "$work"; rm -rf "$work" "$counts"' EXIT
# shellcheck disable=SC2034 # used by the tests
tab=$(printf '\t') nl='
'
# errno's text in English
LC_ALL=C
export LC_ALL

# Counts a check by its status.
count() { # STATUS NAME
    if [ "$1" -eq 0 ]; then
        echo passed >>"$counts"
    else
        echo failed >>"$counts"
        echo "$2: failed"
    fi
}

# Runs a command: standard output to the file `got`, standard error to `error`, and its status.
run() { # COMMAND..
    "$@" >"$work/got" 2>"$work/error"
    status=$?
}

# Counts a run: standard output must be as the file `wanted`, standard error as these lines, and the status this one.
judge() { # NAME ERROR STATUS
    if cmp -s "$work/wanted" "$work/got" && [ "$(cat "$work/error")" = "$2" ] && [ "$status" -eq "$3" ]; then
        echo passed >>"$counts"
    else
        echo failed >>"$counts"
        echo "$1: failed, status $status"
        diff -a "$work/wanted" "$work/got" | cut -c1-200 | head -5
        cat "$work/error"
    fi
}

# A refusal line without its end.
refused() { printf 'R\t%s\t%s' "$@"; } # NUMBER PLACE

# The crates that one is made of, in the order in which `rt` proves them; or only CHANGED and those of them that need it.
crates_of() { # NAME [CHANGED]
    python3 - "${root?}/crates.txt" "$@" <<'PYTHON'
import sys

needs = {}
for line in open(sys.argv[1]):
    name, colon, rest = line.split("#")[0].partition(":")
    if colon:
        needs[name.split()[0]] = rest.split()
order = []


def visit(name):
    if name in needs and name not in order:
        for other in needs[name]:
            visit(other)
        order.append(name)


visit(sys.argv[2])
changed = set(sys.argv[3:] or order)
for name in order:
    if changed & set(needs[name]):
        changed.add(name)
print(*(name for name in order if name in changed))
PYTHON
}

# Makes a copy of the repository for builds, $work/copy, and a kit whose prover proves nothing, since the real one takes minutes: `rt` and its
# stamps are the real ones, and a stand-in for the prover gives what is built here. It is first on the PATH of `copied`. Files in $work steer it:
# `slow`, `broken`, `kit` (what it says for version). The file `calls` has the builds that were asked of it.
make_copy() { # FILE..
    copy=$work/copy
    guide=$(rt doc) || exit 1
    kit=$(dirname -- "$guide") home=$work/home
    mkdir -p "$copy" "$work/bin" "$home/bin"
    chmod 755 "$work" # so that another user can reach it
    (cd "$root" && cp -R "$@" samples crates.txt share tools README.md "$copy" && mkdir "$copy/crates" &&
        tar -cf - --exclude='crates/*/out' crates | tar -xf - -C "$copy") || exit 1
    # `rt` takes as its kit the folder that it lies in
    for file in "$kit"/* "$kit/bin"/*; do
        place=$home/${file#"$kit/"}
        case $place in
        "$home/bin" | "$home/bin/rattle" | "$home/bin/rattle-link" | */__pycache__) ;;
        "$home/bin/rt" | *.py) cp -- "$file" "$place" ;;
        *) ln -s "$file" "$place" ;;
        esac
    done
    cat >"$work/bin/rt" <<RT
#!/bin/sh
if [ "\$1" = version ] && [ -f '$work/kit' ]; then exec cat '$work/kit'; fi
case \$1 in
run | lib)
    cat >/dev/null # would take a file on standard input away
    echo "\${PWD##*/} \$*" >>'$work/calls'
    [ ! -f '$work/slow' ] || sleep 2
    ;;
esac
exec '$home/bin/rt' "\$@"
RT
    cat >"$home/bin/rattle" <<PROVER
#!/bin/sh
case "\$*" in *--help*) exec '$kit/bin/rattle' "\$@" ;; esac
if [ -f '$work/broken' ]; then
    echo 'crates/tree/src/lib.rt:1:1: error: the goal is false'
    echo 'logic=not-proved'
    exit 1
fi
if [ "\$1" = check ]; then
    echo 'only=0 proved=0'
    exit
fi
while [ "\$1" != -o ]; do shift; done
case \$2 in
*.rlib) mkdir -p "\$2" && date +%N >"\$2/format" ;;
*.a) cp '$root/target/staticlib/libcapi.a' "\$2" 2>/dev/null || : >"\$2" ;;
*) echo object >"\$2" ;;
esac
PROVER
    cat >"$home/bin/rattle-link" <<LINK
#!/bin/sh
while [ "\$1" != -o ]; do shift; done
cp "$root/target/bin/\${2##*/}" "\$2"
LINK
    chmod +x "$work/bin/rt" "$home/bin/rattle" "$home/bin/rattle-link"
}
copied() { env PATH="$work/bin:$PATH" "$@"; } # COMMAND..

# What a build says on standard error, without estimates of time.
building() { # RESULT CRATES REASON [PREFIX]
    echo "${4-build}: $3: building"
    i=0
    for crate in $2; do
        i=$((i + 1))
        echo "${4-build}: proving $crate, $i of $(echo "$2" | wc -w)"
    done
    echo "${4-build}: $1 is built"
}
untimed() { sed -i 's/, about [0-9]* [a-z]* left$//' "$work/error"; }

summary() {
    passed=$(grep -c passed "$counts")
    failed=$(grep -c failed "$counts")
    echo "$passed passed, $failed failed"
    [ "$passed" -gt 0 ] && [ "$failed" -eq 0 ]
}
