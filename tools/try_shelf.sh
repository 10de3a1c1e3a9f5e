#!/bin/sh
# Tries `xmf shelf`: try_shelf.sh [CALLS [KILLS [DAMAGES]]]. Each call with its answers, refusals and statuses; the file's layout, its mode and its name;
# a full disk; then by tools/try_shelf.py two and three desks at the same time (CALLS calls, 4,000 if nothing is said), calls killed at any moment (KILLS,
# 1,000) and damaged files (DAMAGES, 300). The program is built first if need be; the tries run an installed copy, which does not look for changed sources. Needs
# python3 and flock. The last line is `N passed, M failed`.
# shellcheck disable=SC2016 # sh -c '..' has its own variables
set -u

root=$(CDPATH='' cd -- "$(dirname -- "$0")/.." && pwd -P) || exit 1
"$root/tools/build.sh" xmf || exit 1
. "$root/tools/harness.sh"
exec </dev/null
unset XMF_SHELF

# the files that an installation has of the command
mkdir -p "$work/to/bin" "$work/to/libexec/xmf" "$work/to/share"
cp "$root/xmf" "$work/to/bin/xmf" && cp "$root/target/bin/xmf" "$work/to/libexec/xmf/xmf" && cp -R "$root/share" "$work/to/share/xmf" || exit 1
xmf=$work/to/bin/xmf
mkdir "$work/folder"
shelf=$work/folder/shelf

# Tries a call: its standard output is the file `wanted`.
try() { # NAME ERROR STATUS WORDS..
    name=$1 error=$2 wanted=$3
    shift 3
    run "$xmf" shelf "$@"
    judge "$name" "$error" "$wanted"
}
# The same where nothing is written.
none() {
    : >"$work/wanted"
    try "$@"
}
usage() { printf 'xmf: shelf: %s; xmf help shelf says how' "$1"; }
words='new; put DESK CALL BOAT [SHEET]; get DESK CALL BOAT; or drop DESK CALL BOAT'

# ---- words

none 'no shelf' "$(usage 'no shelf: -s SHELF, or its name in XMF_SHELF')" 1 new
none 'no word' "$(usage 'too few or too many words')" 1 -s "$shelf"
none 'no such word' "$(usage "$words")" 1 -s "$shelf" take 1 2 3
none 'too few words' "$(usage "$words")" 1 -s "$shelf" put 1 2
none 'too many words' "$(usage "$words")" 1 -s "$shelf" get 1 2 3 4
none 'an empty number' "$(usage 'an empty word where a file or a number belongs')" 1 -s "$shelf" get 1 '' 3
none 'an empty shelf' "$(usage 'no shelf: -s SHELF, or its name in XMF_SHELF')" 1 -s '' new
none 'nothing after -s' "$(usage 'a word is missing after -s')" 1 new -s
none 'no number' 'xmf: 2x: no decimal number' 1 -s "$shelf" get 1 2x 3
none 'too large a number' 'xmf: a desk, call or boat: above 18446744073709551615' 1 -s "$shelf" get 1 18446744073709551616 3
none 'no such file' "xmf: $shelf: No such file or directory" 1 -s "$shelf" get 1 2 3
none 'no such folder' "xmf: $work/none/shelf: the folder is not there, or not readable" 1 -s "$work/none/shelf" new
none 'a folder' "xmf: $work/folder/../folder: not a regular file" 1 -s "$work/folder/../folder" get 1 2 3

# ---- calls

none 'new' '' 0 -s "$shelf" new
head -c 1049088 /dev/zero | cmp -s - "$shelf"
count $? 'a new shelf is all zero, and has its size'
none 'new, over a file' "xmf: $shelf: File exists" 1 -s "$shelf" new
XMF_SHELF=$shelf
export XMF_SHELF
"$xmf" sheet "$root/samples/worked.xmf" >"$work/sheet"
: >"$work/wanted"
run sh -c '"$1" sheet "$2" | "$1" shelf put 1 4711 12' sh "$xmf" "$root/samples/worked.xmf"
judge 'put from a pipe' '' 0
cp "$work/sheet" "$work/wanted"
try 'get' '' 0 get 1 4711 12
try 'get, the shelf by -s behind the words' '' 0 get 1 4711 12 -s "$shelf"
none 'get, another desk' "$(refused 27 0)" 2 get 2 4711 12
none 'get, another boat' "$(refused 27 0)" 2 get 1 4711 13
none 'get, call 0' "$(refused 27 0)" 2 get 1 0 12
none 'put twice' "$(refused 29 0)" 2 put 1 4711 12 "$work/sheet"
head -c 65536 /dev/urandom >"$work/long"
head -c 65537 /dev/urandom >"$work/longer"
none 'put, the longest sheet' '' 0 put 18446744073709551615 18446744073709551615 18446744073709551615 "$work/long"
none 'put, too long a sheet' "$(refused 30 0)" 2 put 2 4711 12 "$work/longer"
run sh -c 'cat "$2" "$2" | "$1" shelf put 2 4711 12' sh "$xmf" "$work/longer"
judge 'put, too long a sheet from a pipe' "$(refused 30 0)" 2
none 'put, too long and there already' "$(refused 29 0)" 2 put 1 4711 12 "$work/longer"
none 'put, no sheet' "xmf: $work/none: No such file or directory" 1 put 2 1 1 "$work/none"
none 'put, a folder as the sheet' "xmf: $work/folder: Is a directory" 1 put 2 1 1 "$work/folder"
cp "$work/long" "$work/wanted"
try 'get, the longest sheet' '' 0 get 18446744073709551615 18446744073709551615 18446744073709551615
python3 - "$shelf" "$work/sheet" "$work/long" <<'PYTHON'
import struct
import sys

data, sheet, long = (open(name, "rb").read() for name in sys.argv[1:4])
top = 2**64 - 1
cards = struct.pack(">8Q", 1, 4711, 12, len(sheet), top, top, top, 65536)
sys.exit(data != cards.ljust(512, b"\0") + sheet.ljust(65536, b"\0") + long.ljust(15 * 65536, b"\0"))
PYTHON
count $? 'the bytes of the file'
none 'drop, another desk' "$(refused 27 0)" 2 drop 2 4711 12
none 'drop' '' 0 drop 1 4711 12
none 'drop again' "$(refused 27 0)" 2 drop 1 4711 12
none 'an empty sheet' '' 0 put 1 1 1 /dev/null
none 'an empty sheet is got' '' 0 get 1 1 1
cp "$work/sheet" "$work/wanted"
i=2
while [ "$i" -le 15 ]; do
    "$xmf" shelf put 2 "$i" 0 "$work/sheet" 2>>"$work/trouble" || echo "put $i" >>"$work/trouble"
    i=$((i + 1))
done
[ ! -s "$work/trouble" ]
count $? 'sixteen sheets'
none 'no free card' "$(refused 28 0)" 2 put 2 16 0 "$work/sheet"
run sh -c '"$1" shelf get 2 9 0 | "$1" shelf put 3 9 0; "$1" shelf drop 2 9 0 && "$1" shelf get 2 8 0 | "$1" shelf put 3 9 0' sh "$xmf"
: >"$work/wanted"
judge 'from the shelf onto the shelf' "$(refused 28 0)" 0
cp "$work/sheet" "$work/wanted"
try 'the sheet of the other desk' '' 0 get 3 9 0

# ---- the file: its mode and its name stay, a link leads to it, and nothing else is left in its folder

chmod 640 "$shelf"
none 'drop, with another mode' '' 0 drop 3 9 0
[ "$(stat -c %a "$shelf")" = 640 ]
count $? 'the mode stays'
mkdir "$work/other"
ln -s ../folder/shelf "$work/other/link"
none 'put through a link' '' 0 -s "$work/other/link" put 3 9 0 "$work/sheet"
[ -h "$work/other/link" ] && [ "$(ls -A "$work/folder")" = shelf ] && [ "$(ls -A "$work/other")" = link ]
count $? 'the link stays, and nothing else is there'
cp "$work/sheet" "$work/wanted"
try 'get behind the link' '' 0 get 3 9 0
mkdir "$work/names"
for name in -s - 'a b' "$(printf '\303\244')" '*'; do
    (cd "$work/names" && "$xmf" shelf "-s" "$name" new && "$xmf" shelf -s "$name" put 1 2 3 "$work/sheet" && "$xmf" shelf -s "$name" get 1 2 3 | cmp -s - "$work/sheet")
    count $? "a shelf with the name $name"
done
printf 'rest' >"$shelf.xmf-new"
none 'over what a stopped call left' '' 0 drop 3 9 0
[ "$(ls -A "$work/folder")" = shelf ]
count $? 'what a stopped call left is removed'

# ---- locks: a get waits for a put, gets do not wait for each other, and no call waits for its sheet with the lock

(
    flock 9
    sleep 1
    : >"$work/over"
) 9<"$work/folder" &
sleep 0.3
none 'a call waits' '' 0 drop 2 2 0
[ -e "$work/over" ]
count $? 'it waited until the lock was free'
wait
mkfifo "$work/pipe"
"$xmf" shelf put 3 3 3 "$work/pipe" 2>"$work/error2" &
"$xmf" shelf put 3 4 3 <"$work/pipe" 2>>"$work/error2" &
timeout 10 "$xmf" shelf drop 2 3 0
count $? 'a call does not wait for the sheet of another one'
cat "$work/sheet" "$work/sheet" >"$work/pipe"
wait
timeout 10 "$xmf" shelf get 2 4 0 >/dev/null
count $? 'and the shelf is free afterwards'

# ---- a full disk, which leaves the old shelf

if [ "$(id -u)" -eq 0 ] && mkdir "$work/disk" && mount -t tmpfs -o size=1200k tmpfs "$work/disk" 2>/dev/null; then
    none 'new on a small disk' '' 0 -s "$work/disk/shelf" new
    cp "$work/disk/shelf" "$work/before"
    none 'put on a full disk' "xmf: $work/disk/shelf: No space left on device" 1 -s "$work/disk/shelf" put 1 2 3 "$work/sheet"
    cmp -s "$work/disk/shelf" "$work/before" && [ "$(ls -A "$work/disk")" = shelf ]
    count $? 'the old shelf, and nothing else, is there'
    none 'new on a full disk' "xmf: $work/disk/other: No space left on device" 1 -s "$work/disk/other" new
    [ "$(ls -A "$work/disk")" = shelf ]
    count $? 'nothing is left of it'
    mount -o remount,size=4m "$work/disk"
    none 'put with room' '' 0 -s "$work/disk/shelf" put 1 2 3 "$work/sheet"
    dd if=/dev/zero of="$work/disk/full" bs=1k count=8192 2>/dev/null
    run env TMPDIR="$work/disk" sh -c 'cat "$2" | "$1" shelf put 7 7 7' sh "$xmf" "$work/long"
    [ "$status" -eq 1 ] && grep -qx 'xmf: the sheet could not be kept until the shelf is free' "$work/error" && [ "$(ls -A "$work/disk")" = "full${nl}shelf" ]
    count $? 'a full TMPDIR'
    umount "$work/disk"
else
    echo 'skipped, not root: a full disk'
fi

# ---- many calls at once, kills and damage

rm -f "$shelf"
python3 "$root/tools/try_shelf.py" "$xmf" "$work/folder" "${1-4000}" "${2-1000}" "${3-300}"
count $? 'desks at the same time, kills and damaged files'
summary
