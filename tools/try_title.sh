#!/bin/sh
# Tries ./title, the first words of `xmf title`: lists, corrections, refusals, statuses, and that nothing is written over. Needs
# python3, which makes some of the files. The programs are built first if need be. The last line is `N passed, M failed`.
# shellcheck disable=SC2016,SC2094,SC2181 # sh -c '..' has its own variables; a file is appended to itself on purpose
set -u

root=$(CDPATH='' cd -- "$(dirname -- "$0")/.." && pwd -P) || exit 1
title=$root/title
sheet=$root/sheet
samples=$root/samples
"$root/tools/build.sh" xmf_sheet && "$root/tools/build.sh" xmf || exit 1
. "$root/tools/harness.sh"
exec </dev/null

# Tries a call that is refused or fails: nothing on standard output.
try_none() { # NAME ERROR STATUS ARGUMENTS..
    name=$1 error=$2 wanted=$3
    shift 3
    : >"$work/wanted"
    run "$title" "$@"
    judge "$name" "$error" "$wanted"
}

# Tries a correction, whose result is the file `wanted`, to standard output and to a file.
try_new() { # NAME ERROR FILE ROW TITLE
    run "$title" "$3" "$4" "$5"
    judge "$1" "$2" 0
    rm -f "$work/new"
    run "$title" "$3" "$4" "$5" "$work/new"
    cp "$work/wanted" "$work/file" && : >"$work/wanted"
    judge "$1, into a file" "$2" 0
    cmp -s "$work/file" "$work/new"
    count $? "$1, what is in the file"
    cp "$work/file" "$work/wanted"
}

# The sheet of a file must have this line.
has_line() { # NAME FILE LINE
    "$sheet" "$2" 2>/dev/null | grep -Fqx -- "$3"
    count $? "$1, on its sheet"
}

# What is said of a correction.
changed() { # OLD NEW LENGTH LENGTH
    printf 'old title: %s\nnew title: %s\nold length: %s\nnew length: %s' "$@"
}

# ---- lists

# Tries the list of a sample, whose lines are on standard input.
try_list() { # NAME
    cat >"$work/wanted"
    run "$title" "$samples/$1"
    judge "the list of $1" '' 0
    "$title" - <"$samples/$1" >"$work/got" 2>"$work/error"
    status=$?
    judge "the list of $1, standard input" '' 0
    # each line is a number and a line of the sheet
    "$sheet" "$samples/$1" >"$work/sheet" 2>/dev/null
    cut -f2- "$work/wanted" | while IFS= read -r line; do
        grep -Fqx -- "$line" "$work/sheet" || echo "$line"
    done >"$work/absent"
    [ ! -s "$work/absent" ]
    count $? "the list of $1, lines of the sheet"
}

printf '0\tM\t1\tC\ta\t0\t0\tHi\n2\tM\t1\tS\t3\t0\t6\t\\00\\00\n' | try_list worked.xmf
printf '0\tM\t1\tS\t3\t0\t6\t\\00\\00\n1\tM\t1\tS\t13\t0\t6\t\\00\\01\\01\\00\\00\\00\\04\n' | try_list mobile.xmf
printf '2\tM\t0\tS\t9\t0\t2\t\\002\\d8\\00\n' | try_list unicode.xmf
try_list versions000.xmf </dev/null
for sample in folders detached; do
    try_none "the list of $sample.xmf" "$(refused 36 0)" 2 "$samples/$sample.xmf"
done
try_none 'the list of cut.xmf' "$(refused 5 16)" 2 "$samples/cut.xmf"
try_none 'the list of header.xmf' "$(refused 8 29)" 2 "$samples/header.xmf"
try_none 'the list of type.xmf' "$(refused 11 32)" 2 "$samples/type.xmf"

# ---- corrections

# the worked file with the title Hello
{
    printf 'XMF_2.00\000\000\000\002\000\000\000\001\073\001\000\025\072\046\001\005\000\000\001\040\000\035\030\001a\000\006\000Hello'
    printf '\001t\000\003\007\021\042\000\003\000\003\006\000\000\000\001\252\273'
} >"$work/hello"
cp "$work/hello" "$work/wanted"
try_new 'Hello' "$(changed Hi Hello 56 59)" "$samples/worked.xmf" 0 Hello
has_line 'Hello' "$work/new" "M${tab}1${tab}C${tab}a${tab}0${tab}0${tab}Hello"
try_new 'Hello again' "$(changed Hello Hello 59 59)" "$work/hello" 0 Hello
cp "$samples/worked.xmf" "$work/wanted"
try_new 'Hi again' "$(changed Hello Hi 59 56)" "$work/hello" 0 Hi
"$title" - 0 Hello <"$samples/worked.xmf" >"$work/got" 2>"$work/error"
status=$?
cp "$work/hello" "$work/wanted"
judge 'Hello, standard input' "$(changed Hi Hello 56 59)" 0
run "$title" "$samples/worked.xmf" 00000000000000000000 Hello
judge 'a row with many zeros' "$(changed Hi Hello 56 59)" 0

run "$title" "$samples/worked.xmf" 0 ''
cp "$work/got" "$work/wanted"
judge 'an empty title' "$(changed Hi '' 56 54)" 0
cp "$work/got" "$work/empty"
has_line 'an empty title' "$work/empty" "M${tab}1${tab}C${tab}a${tab}0${tab}0${tab}"

run "$title" "$samples/worked.xmf" 0 "a${tab}b${nl}c\\d$(printf '\033\303\246')"
cp "$work/got" "$work/wanted"
judge 'a title with control bytes' "xmf: $samples/worked.xmf: bytes from 80h in a row of format 0, extended ASCII$nl$(changed Hi 'a\09b\0ac\5cd\1b\c3\a6' 56 64)" 0

# a row in UTF-16: the title is converted
run "$title" "$samples/unicode.xmf" 2 'Færge 𝄞'
cp "$work/got" "$work/wanted"
judge 'a title in UTF-16' "$(changed '\002\d8\00' 'Færge 𝄞' 87 99)" 0
cp "$work/got" "$work/unicode"
has_line 'a title in UTF-16' "$work/unicode" "M${tab}0${tab}S${tab}9${tab}0${tab}2${tab}Færge 𝄞"
try_none 'a title that is no UTF-8, in UTF-16' "$(refused 26 2)" 2 "$samples/unicode.xmf" 2 "$(printf 'ab\377')"

# ---- refusals

try_none 'no such row' "$(refused 18 0)" 2 "$samples/worked.xmf" 3 x
for row in 1024 100000 18446744073709551616; do
    try_none "no such row, $row" "$(refused 18 0)" 2 "$samples/worked.xmf" "$row" x
done
try_none 'a hidden row' "$(refused 37 0)" 2 "$samples/worked.xmf" 1 x
try_none 'a version' "$(refused 37 0)" 2 "$samples/unicode.xmf" 1 x
try_none 'a file with references' "$(refused 36 0)" 2 "$samples/detached.xmf" 0 x
try_none 'a file that is refused' "$(refused 5 16)" 2 "$samples/cut.xmf" 0 x
try_none 'no file is made' "$(refused 37 0)" 2 "$samples/worked.xmf" 1 x "$work/none"
[ ! -e "$work/none" ]
count $? 'no file is made, after a refusal'

# ---- lengths: titles that bring the new file to 65,536 bytes and past it

long=$(python3 -c "print('a' * 65468, end='')")
run "$title" "$samples/worked.xmf" 0 "$long"
[ "$status" -eq 0 ] && [ "$(wc -c <"$work/got")" -eq 65536 ] && grep -qx 'new length: 65536' "$work/error"
count $? 'a new file of 65,536 bytes'
cp "$work/got" "$work/long"
try_none 'a new file of 65,537 bytes' "$(refused 22 0)" 2 "$samples/worked.xmf" 0 "a$long"
cp "$samples/worked.xmf" "$work/wanted"
run "$title" "$work/long" 0 Hi
judge 'a long title made short' "$(changed "$(printf %s "$long" | cut -c 1-200).." Hi 65536 56)" 0
cat "$work/long" "$samples/worked.xmf" >"$work/longer"
try_none 'a file of more than 65,536 bytes' 'too long' 2 "$work/longer"
try_none 'a correction of such a file' 'too long' 2 "$work/longer" 0 x

# ---- nothing is written over

cp "$samples/worked.xmf" "$work/own"
"$title" "$work/own" 0 Hello >>"$work/own" 2>"$work/error"
[ $? -eq 1 ] && cmp -s "$work/own" "$samples/worked.xmf" && [ "$(cat "$work/error")" = 'xmf: standard output is the file itself: nothing was written' ]
count $? 'the file itself, appended to'
"$title" "$work/own" 0 Hello 1<>"$work/own" 2>"$work/error"
[ $? -eq 1 ] && cmp -s "$work/own" "$samples/worked.xmf"
count $? 'the file itself, open for writing'
ln -s own "$work/link"
"$title" "$work/link" 0 Hello 1<>"$work/own" 2>"$work/error"
[ $? -eq 1 ] && cmp -s "$work/own" "$samples/worked.xmf"
count $? 'the file itself, by a link'
"$title" "$work/own" 0 Hello >"$work/own" 2>"$work/error"
[ $? -eq 1 ] && [ ! -s "$work/own" ]
count $? 'the file itself, emptied by the shell'
cp "$samples/worked.xmf" "$work/own"
for new in own link; do
    try_none "a new file that is there, $new" "xmf: $work/$new: File exists" 1 "$work/own" 0 Hello "$work/$new"
    cmp -s "$work/own" "$samples/worked.xmf"
    count $? "a new file that is there, $new, is as it was"
done
ln -s nowhere "$work/dangling"
try_none 'a new file that is a link to nothing' "xmf: $work/dangling: File exists" 1 "$work/own" 0 Hello "$work/dangling"
"$title" "$work/own" >>"$work/own" 2>"$work/error"
[ $? -eq 0 ]
count $? 'a list is no new file'

# ---- hidden data is not shown, and does not steer what is

python3 - "$samples/worked.xmf" "$work/other" <<'END'
import sys

data = bytearray(open(sys.argv[1], "rb").read())
data[43:45] = b"\x55\x66"
open(sys.argv[2], "wb").write(data)
END
"$title" "$samples/worked.xmf" >"$work/wanted"
run "$title" "$work/other"
judge 'the list of a file with other hidden data' '' 0
run "$title" "$work/other" 0 Hello
python3 - "$work/hello" "$work/wanted" <<'END'
import sys

data = open(sys.argv[1], "rb").read()
open(sys.argv[2], "wb").write(data.replace(b"\x11\x22", b"\x55\x66"))
END
judge 'the correction of a file with other hidden data' "$(changed Hi Hello 56 59)" 0

# ---- what cannot be read or written

try_none 'a missing file' "xmf: $work/missing: No such file or directory" 1 "$work/missing"
try_none 'a folder' "xmf: $work: Is a directory" 1 "$work" 0 x
if [ -c /dev/full ]; then
    for arguments in '' '0 Hello'; do
        # shellcheck disable=SC2086
        "$title" "$samples/worked.xmf" $arguments >/dev/full 2>"$work/error"
        [ $? -eq 1 ] && [ -s "$work/error" ]
        count $? "no room for what was made, '$arguments'"
    done
fi
run "$title" "$samples/worked.xmf" 0 x "$work/no/new"
[ "$status" -eq 1 ] && grep -q '^xmf: .*: No such file or directory$' "$work/error"
count $? 'a new file in no folder'

# ---- what once lost data: an empty NEW, a full folder for temporary files, a full disk, a row of binary data

try_none 'an empty name for the new file' 'xmf: title: the name after -o is missing or empty; xmf help title says how' 1 "$samples/worked.xmf" 0 New ''
cp "$samples/worked.xmf" "$work/own"
"$title" "$work/own" 0 New '' >>"$work/own" 2>/dev/null
[ $? -eq 1 ] && cmp -s "$work/own" "$samples/worked.xmf"
count $? 'an empty name for the new file, appended to the file'
try_none 'a row of binary data' "xmf: $samples/worked.xmf: the item row holds binary data: --bytes" 1 "$samples/worked.xmf" 2 x
if [ "$(id -u)" -eq 0 ] && mkdir "$work/disk" && mount -t tmpfs -o size=16k tmpfs "$work/disk" 2>/dev/null; then
    dd if=/dev/zero of="$work/disk/full" bs=1k count=64 2>/dev/null
    TMPDIR=$work/disk
    export TMPDIR
    cp "$work/hello" "$work/wanted"
    try_new 'a full TMPDIR' "$(changed Hi Hello 56 59)" "$samples/worked.xmf" 0 Hello
    try_none 'a full TMPDIR, refused' "$(refused 5 16)" 2 "$samples/cut.xmf" 0 x
    try_none 'a full TMPDIR, a missing file' "xmf: $work/missing: No such file or directory" 1 "$work/missing" 0 x
    unset TMPDIR
    run "$title" "$samples/worked.xmf" 0 Hello "$work/disk/new"
    [ "$status" -eq 1 ] && [ -s "$work/error" ] && [ "$(ls "$work/disk")" = full ]
    count $? 'a full disk at the new file: nothing is left'
    rm "$work/disk/full"
    : >"$work/wanted"
    run "$title" "$samples/worked.xmf" 0 Hello "$work/disk/new"
    judge 'a full disk, again with room' "$(changed Hi Hello 56 59)" 0
    umount "$work/disk"
else
    echo 'not tried: a full disk (needs root and mount)'
fi
if command -v script >/dev/null; then
    script -qec "'$title' '$samples/worked.xmf' 0 Hello" /dev/null >"$work/got" 2>/dev/null </dev/null
    [ $? -eq 1 ] && grep -q 'a terminal' "$work/got"
    count $? 'a terminal'
fi

# ---- words

for words in '' "$samples/worked.xmf 0" "$samples/worked.xmf 0 x y z"; do
    # shellcheck disable=SC2086
    try_none "the words '$words'" 'title: a file; or a file, an item row and a title; ./title --help says how' 1 $words
done
for row in '' x -1 1x ' 1'; do
    try_none "the row '$row'" 'title: the item row is a decimal number; ./title --help says how' 1 "$samples/worked.xmf" "$row" x
done
try_none 'an unknown option' 'title: no such option; a file whose name begins so is named with ./ before it; ./title --help says how' 1 --wy
run "$title" --help
cp "$work/got" "$work/wanted"
[ "$(wc -l <"$work/got")" -eq 7 ]
count $? 'the help has seven lines'
judge 'help' '' 0
cp "$samples/worked.xmf" "$work/-x"
"$title" "$samples/worked.xmf" >"$work/wanted"
run sh -c 'cd "$1" && "$2" -- -x' sh "$work" "$title"
judge 'a name after --' '' 0
mkdir "$work/links"
ln -s "$title" "$work/links/title"
run "$work/links/title" "$samples/worked.xmf"
judge 'a link' '' 0
summary
