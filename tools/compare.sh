#!/bin/sh
# Compares two builds of the proved reader: tools/compare.sh BEFORE.a AFTER.a FILE..
# Each archive is the target/staticlib/libcapi.a that tools/build.sh capi makes at some commit. For each file and question the two take turns in one run; the median time of a call in
# nanoseconds is printed, and the instructions of a call where there is valgrind, which do not depend on what else the machine does.
# The files that are timed for docs/MEASURED.md: in rust/, cargo run --release --offline -p generate --example write_timed -- FOLDER
set -eu

[ $# -ge 3 ] || {
    echo 'usage: tools/compare.sh BEFORE.a AFTER.a FILE..' >&2
    exit 2
}
before=$1 after=$2
shift 2
here=$(CDPATH='' cd -- "$(dirname -- "$0")" && pwd -P)
work=$(mktemp -d)
trap 'rm -rf "$work"' EXIT

renamed=$(nm -g --defined-only "$before" | awk '$3 ~ /^xmf_/ { printf " --redefine-sym %s=before_%s", $3, substr($3, 5) }')
# shellcheck disable=SC2086
objcopy $renamed "$before" "$work/before.a"
cc -O2 -o "$work/compare" "$here/compare.c" "$work/before.a" "$after"

# Instructions of one call: those of three less those of one, halved.
instructions() { # BUILD QUESTION FILE
    for calls in 1 3; do
        valgrind --tool=callgrind --callgrind-out-file=/dev/null "$work/compare" "$1" "$2" "$3" "$calls" 2>&1 | awk '/Collected/ { print $4 }'
    done | awk 'NR == 1 { one = $1 } END { printf "%.0f\n", ($1 - one) / 2 }'
}

printf '%-12s %-8s %10s %10s %6s' file question 'ns before' after ratio
if command -v valgrind >/dev/null; then printf ' %12s %10s %6s' 'instructions' after ratio; fi
echo
for file in "$@"; do
    for question in tree sheet verdict account find correct; do
        line=$("$work/compare" "$question" "$file")
        if command -v valgrind >/dev/null; then
            b=$(instructions before "$question" "$file")
            a=$(instructions after "$question" "$file")
            line="$line $(printf '%12d %10d %6.3f' "$b" "$a" "$(echo "$a $b" | awk '{ print $1 / $2 }')")"
        fi
        printf '%-12s %s\n' "$(basename "$file" .xmf)" "$line"
    done
done
