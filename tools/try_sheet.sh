#!/bin/sh
# Tries ./sheet and the program `xmf_sheet` that it runs: files of each kind, statuses, names, several files, links, a terminal, and
# builds. Needs python3, which makes some of the files. The program is built first if need be. The last line is `N passed, M failed`.
#
# The builds are tried in a copy of the repository with a stand-in for the prover (tools/harness.sh).
set -u

root=$(CDPATH='' cd -- "$(dirname -- "$0")/.." && pwd -P) || exit 1
sheet=$root/sheet
program=$root/target/bin/xmf_sheet
archive=$root/target/staticlib/libcapi.a
"$root/tools/build.sh" xmf_sheet || exit 1
. "$root/tools/harness.sh"

# Tries a file by its name and on standard input, with the program, whose status is 0, and with the command.
try() { # NAME FILE STATUS
    run "$program" "$2" </dev/null
    judge "$1, program, by name" '' 0
    run "$program" <"$2"
    judge "$1, program, standard input" '' 0
    run "$sheet" "$2" </dev/null
    judge "$1, by name" '' "$3"
    run "$sheet" <"$2"
    judge "$1, standard input" '' "$3"
}

# Tries a name that cannot be read from.
try_unread() { # NAME FILE LINE
    : >"$work/wanted"
    run "$program" "$2" </dev/null
    judge "$1, program" "xmf_sheet: $3" 0
    run "$sheet" "$2" </dev/null
    judge "$1" "xmf_sheet: $3" 1
}

# Makes `file`, of SIZE bytes and version 1.00, and the sheet `wanted` that it must give. Its one node holds one universal item of
# standard field 1 and format 0, whose data is ZEROS bytes 00h and PLAIN bytes 41h; what is left of the file is the node's contents.
make() { # ZEROS PLAIN SIZE
    python3 - "$@" "$work/file" "$work/wanted" <<'END'
import sys

zeros, plain, size = (int(word) for word in sys.argv[1:4])


def vlq(n):
    out = [n % 128]
    while n > 127:
        n //= 128
        out.insert(0, 128 + n % 128)
    return bytes(out)


# Lengths that count their own bytes are set until nothing changes.
def node(rest):
    data = bytes(zeros) + b"A" * plain
    item = b"\0\1" + b"\0" + vlq(len(data) + 1) + b"\0" + data
    fields = vlq(len(item)) + item + b"\0"
    length = header = 0
    while True:
        before = length, header
        header = len(vlq(length) + b"\0" + vlq(header) + fields)
        length = header + 1 + rest
        if before == (length, header):
            return vlq(length) + b"\0" + vlq(header) + fields + b"\1" + b"\xaa" * rest


def file(rest):
    tree = node(rest)
    start = length = 0
    while True:
        before = start, length
        top = b"XMF_1.00" + vlq(length) + b"\1\0" + vlq(start) + vlq(max(length, 1) - 1)
        start, length = len(top), len(top + tree)
        if before == (start, length):
            return top + tree


rest = 0
while len(file(rest)) != size:
    rest += size - len(file(rest))
open(sys.argv[4], "wb").write(file(rest))
with open(sys.argv[5], "w") as sheet:
    sheet.write(f"XMF\t1.00\t{size}\t1\t1\n")
    sheet.write(f"N\t0\t0\t1\t1\t{size - rest}\t{rest}\n")
    sheet.write("M\t0\tS\t1\t0\t0\t" + "\\00" * zeros + "A" * plain + "\n")
END
}

# ---- the samples

cat >"$work/wanted" <<'END'
XMF	2.00	56	2	3
N	0	0	1	1	27	29
N	1	0	2	1	54	2
M	1	C	a	0	0	Hi
M	1	S	3	0	6	\00\00
END
try worked.xmf "$root/samples/worked.xmf" 0

cat >"$work/wanted" <<'END'
XMF	1.01	237	6	8
N	0	0	1	1	61	155
N	1	0	2	1	99	60
N	2	1	3	1	142	10
N	3	1	3	3	99	0
N	4	0	2	2	216	21
N	5	0	2	4	189	27
M	0	S	9	0	0	\a9 2004 \5c example
M	1	S	8	1	0	Tunes
M	1	S	8	2	4	Airs
M	2	S	1	0	0	first
M	2	C	rating	0	0	five
M	4	S	7	0	0	audio/midi
END
try folders.xmf "$root/samples/folders.xmf" 0

cat >"$work/wanted" <<'END'
XMF	2.00	115	2	2
N	0	0	1	1	27	88
N	1	0	2	1	52	63
M	1	S	3	0	6	\00\00
M	1	S	13	0	6	\00\01\01\00\00\00\04
END
try mobile.xmf "$root/samples/mobile.xmf" 0

cat >"$work/wanted" <<'END'
XMF	2.00	171	7	7
N	0	0	1	1	58	51
N	1	0	2	3	109	0
N	2	0	2	3	109	0
N	3	0	2	3	154	0
N	4	4	0	1	138	13
N	5	5	0	3	22	0
N	6	6	0	1	37	12
M	1	S	8	0	0	Waltz
M	2	S	8	0	0	March
M	3	S	8	0	0	Reel
M	4	S	8	0	0	Piano
M	5	S	8	0	0	Organ
M	6	S	8	0	0	Drum
END
try detached.xmf "$root/samples/detached.xmf" 0

cat >"$work/wanted" <<'END'
XMF	1.00	87	1	4
N	0	0	1	1	83	4
M	0	S	8	1	2	Færge 𝄞
M	0	S	8	2	0	Ferry
M	0	S	9	0	2	\002\d8\00
END
try unicode.xmf "$root/samples/unicode.xmf" 0

printf 'R\t5\t16\n' >"$work/wanted"
try cut.xmf "$root/samples/cut.xmf" 2

# standard input that comes in two parts
{
    head -c 20 "$root/samples/cut.xmf"
    sleep 1
    tail -c +21 "$root/samples/cut.xmf"
} | {
    run "$sheet" -
    judge 'cut.xmf, in two parts' '' 2
}

printf 'R\t8\t29\n' >"$work/wanted"
try header.xmf "$root/samples/header.xmf" 2

printf 'R\t11\t32\n' >"$work/wanted"
try type.xmf "$root/samples/type.xmf" 2

cat >"$work/wanted" <<'END'
XMF	1.00	87	1	1
N	0	0	1	1	83	4
M	0	S	8	1	0	\08token-42
END
try versions000.xmf "$root/samples/versions000.xmf" 0

# two files that follow document 000 and are refused: a version after the length of its list, and field 12 with `00 00`
printf 'XMF_1.00\040\006\001\001\000\002en\022\037\016\000\015\010\000\010\001\004\001\002Hi\000\001' >"$work/file"
printf 'R\t11\t25\n' >"$work/wanted"
try "a version as document 000 has it" "$work/file" 2
printf 'XMF_1.00\027\001\000\015\026\012\000\011\004\000\014\000\000\000\001' >"$work/file"
printf 'R\t11\t20\n' >"$work/wanted"
try "field 12, Preload" "$work/file" 2

# ---- the file's length

: >"$work/file"
printf 'R\t1\t0\n' >"$work/wanted"
try 'an empty file' "$work/file" 2

make 2 5 65536
try 'a file of 65,536 bytes' "$work/file" 0

make 2 5 65537
printf 'too long\n' >"$work/wanted"
try 'a file of 65,537 bytes' "$work/file" 2

dd if=/dev/zero of="$work/file" bs=1024 count=200 2>/dev/null
try 'a file of 204,800 bytes' "$work/file" 2

# ---- the sheet's length; a byte 00h takes three

# Counts whether the sheet that was made has this length.
check_length() { # BYTES
    [ "$(wc -c <"$work/wanted")" -eq "$1" ]
    count $? "the length of a sheet of $1 bytes"
}

make 21826 5 30000
check_length 65536
try 'a sheet of 65,536 bytes' "$work/file" 0
cp "$work/file" "$work/longest"
cp "$work/wanted" "$work/longest.sheet"

make 21826 6 30000
check_length 65537
printf 'R\t22\t0\n' >"$work/wanted"
try 'a sheet of 65,537 bytes' "$work/file" 2

make 30000 0 40000
printf 'R\t22\t0\n' >"$work/wanted"
try 'a sheet of over 90,000 bytes' "$work/file" 2

# ---- what cannot be read or written

try_unread 'a missing file' "$work/missing" "$work/missing: No such file or directory"
try_unread 'a folder' "$work" "$work: Is a directory"
try_unread 'an empty name' '' ': No such file or directory'
name=$(printf 'a\tb\nc\033[31m\\d\303\251')
try_unread 'a name with control bytes' "$name" 'a\09b\0ac\1b[31m\5cd\c3\a9: No such file or directory'

: >"$work/wanted"
run "$program" <&-
judge 'no standard input, program' 'xmf_sheet: standard input: Bad file descriptor' 0
run "$sheet" <&-
judge 'no standard input' 'xmf_sheet: standard input: Bad file descriptor' 1
run "$program" "$root/samples/cut.xmf" "$root/samples/worked.xmf"
judge 'a second argument, program' 'xmf_sheet: one file at a time' 0
if [ -c /dev/full ]; then
    : >"$work/got"
    "$program" "$root/samples/cut.xmf" >/dev/full 2>"$work/error"
    status=$?
    judge 'no room for the answer, program' 'xmf_sheet: standard output: No space left on device' 0
    for file in cut worked; do
        "$sheet" "$root/samples/$file.xmf" >/dev/full 2>"$work/error"
        status=$?
        judge "no room for the answer, $file.xmf" 'sheet: standard output: the answer could not be written' 1
    done
fi
"$sheet" "$root/samples/worked.xmf" >&- 2>"$work/error"
status=$?
judge 'no standard output' 'sheet: standard output: the answer could not be written' 1

# ---- one write: standard output is a socket that keeps writes apart

# Runs a command; the file `got` has what it writes, and standard error of this script is told if that took more than one write.
one_write() { # COMMAND..
    python3 - "$work/got" "$@" <<'END'
import socket
import subprocess
import sys

ours, theirs = socket.socketpair(socket.AF_UNIX, socket.SOCK_SEQPACKET)
subprocess.run(sys.argv[2:], stdout=theirs, stdin=subprocess.DEVNULL)
theirs.close()
parts = list(iter(lambda: ours.recv(1 << 20), b""))
open(sys.argv[1], "wb").write(b"".join(parts))
sys.exit(len(parts) != 1)
END
}

# Tries both commands on a file whose answer is the file `wanted`.
try_one_write() { # NAME FILE
    for command in "$program" "$sheet"; do
        one_write "$command" "$2" 2>"$work/error"
        status=$?
        judge "$1, one write by ${command##*/}" '' 0
    done
}

printf 'R\t5\t16\n' >"$work/wanted"
try_one_write cut.xmf "$root/samples/cut.xmf"
dd if=/dev/zero of="$work/file" bs=1024 count=65 2>/dev/null
printf 'too long\n' >"$work/wanted"
try_one_write 'a file that is too long' "$work/file"
cp "$work/longest.sheet" "$work/wanted"
try_one_write 'a sheet of 65,536 bytes' "$work/longest"

# eight runs side by side, again and again
eight='1 2 3 4 5 6 7 8'
for _ in $eight $eight $eight; do
    for _ in $eight; do "$sheet" "$root/samples/cut.xmf" & done
    wait
done >"$work/lines"
[ "$(wc -l <"$work/lines")" -eq 192 ] && [ "$(sort -u "$work/lines")" = "R${tab}5${tab}16" ]
count $? 'runs side by side'

# ---- several files

cd "$root/samples" || exit 1
cp ../README.md "$work/$name"

# Tries several names: standard output has the answers of the files, one after the other.
try_several() { # NAME ERROR STATUS FILE..
    label=$1 lines=$2 wanted=$3
    shift 3
    for file; do "$program" "$file" 2>/dev/null </dev/null; done >"$work/wanted"
    run "$sheet" "$@" </dev/null
    judge "$label" "$lines" "$wanted"
}

try_several 'two sheets' "worked.xmf:${nl}mobile.xmf:" 0 worked.xmf mobile.xmf
try_several 'a sheet and a refusal' "worked.xmf:${nl}cut.xmf:" 2 worked.xmf cut.xmf
try_several 'a refusal and a sheet' "cut.xmf:${nl}worked.xmf:" 2 cut.xmf worked.xmf
try_several 'a missing file between' "cut.xmf:${nl}none:${nl}xmf_sheet: none: No such file or directory${nl}worked.xmf:" 1 cut.xmf none worked.xmf
try_several 'a name with control bytes among them' "worked.xmf:${nl}$work/a\\09b\\0ac\\1b[31m\\5cd\\c3\\a9:" 2 worked.xmf "$work/$name"
{
    "$program" worked.xmf
    "$program" cut.xmf
} >"$work/wanted"
run "$sheet" worked.xmf - <cut.xmf
judge 'standard input among them' "worked.xmf:${nl}-:" 2

# ---- options

run "$sheet" --help </dev/null
cp "$work/got" "$work/wanted"
[ "$(wc -l <"$work/got")" -eq 10 ]
count $? 'the help has ten lines'
judge 'help' '' 0
run "$sheet" -h </dev/null
judge 'help, short' '' 0

: >"$work/wanted"
run "$sheet" --wy </dev/null
judge 'an unknown option' "sheet: no such option: --wy; ./sheet --help says what there is, and a file whose name begins so is named ./--wy" 1
"$program" worked.xmf >"$work/wanted"
cp worked.xmf "$work/-x"
run sh -c 'cd "$1" && "$2" -- -x' sh "$work" "$sheet"
judge 'a name after --' '' 0

# every row of the table of refusals
grep -v '^#' ../share/refusals.tsv >"$work/rows"
[ "$(wc -l <"$work/rows")" -eq 39 ]
count $? 'the table has 39 rows'
while IFS="$tab" read -r number _ meaning advice; do
    printf 'refusal %s: %s\nwhat to do: %s\n' "$number" "$meaning" "$advice" >"$work/wanted"
    run "$sheet" --why "$number" </dev/null
    judge "why $number" '' 0
done <"$work/rows"
printf '%s\n' 'refusal 9: a node at depth 17' 'what to do: Ask the maker for a file with at most 16 levels.' >"$work/wanted"
run "$sheet" --why 9
judge 'why 9, word for word' '' 0
: >"$work/wanted"
for number in 0 08 999; do
    run "$sheet" --why "$number"
    judge "why $number" "sheet: no refusal has the number $number" 1
done
for number in '' R '1 2' -1; do
    run "$sheet" --why "$number"
    judge "why '$number'" 'sheet: usage: ./sheet --why NUMBER, the first number of the refusal line' 1
done
run "$sheet" --why
judge 'why nothing' 'sheet: usage: ./sheet --why NUMBER, the first number of the refusal line' 1
run "$sheet" --why 1 2
judge 'why two numbers' 'sheet: usage: ./sheet --why NUMBER, the first number of the refusal line' 1

# ---- from anywhere

mkdir "$work/links" "$work/links/deep"
ln -s "$sheet" "$work/links/sheet"
ln -s ../sheet "$work/links/deep/other"
"$program" worked.xmf >"$work/wanted"
for link in "$work/links/sheet" "$work/links/deep/other"; do
    run "$link" "$root/samples/worked.xmf" </dev/null
    judge "a link, $link" '' 0
done
run sh -c 'cd "$1" && PATH=$1:$PATH && sheet ../../samples/worked.xmf </dev/null' sh "$work/links"
: >"$work/wanted"
judge 'a link on the PATH, a name that is not there' 'xmf_sheet: ../../samples/worked.xmf: No such file or directory' 1
[ "$(find "$work/links" | wc -l)" -eq 4 ]
count $? 'nothing is made beside a link'

# at a terminal, on which the input ends at once
for arguments in '' -; do
    python3 - "$sheet" $arguments >"$work/got" 2>"$work/error" <<'END'
import os
import pty
import subprocess
import sys

ours, theirs = pty.openpty()
os.write(ours, b"\x04")
done = subprocess.run(sys.argv[1:], stdin=theirs)
sys.exit(done.returncode)
END
    status=$?
    printf 'R\t1\t0\n' >"$work/wanted"
    judge "at a terminal, with '$arguments'" 'sheet: waiting for a file on standard input' 2
done

# ---- builds, in a copy with a stand-in for the prover

program_crates=$(crates_of xmf_sheet)
archive_crates=$(crates_of capi_c)
building_program() { building target/bin/xmf_sheet "${2-$program_crates}" "$1"; }             # REASON [CRATES]
building_archive() { building target/staticlib/libcapi.a "${2-$archive_crates}" "$1"; } # REASON [CRATES]
make_copy sheet examples include
ln -s "$copy/sheet" "$work/links/copied"

# Runs the copy's command, from its link, on the worked file on standard input.
run_copy() {
    run copied "$work/links/copied" <worked.xmf
    untimed
}
# As new as after a build: what was touched and is the same again does not count as newer.
renew_stamps() { : >"$work/now" && find "$copy/crates" -path '*/out/*' -name '*stamp' -exec touch -r "$work/now" {} +; }

"$program" worked.xmf >"$work/wanted"
run_copy
judge 'the first use' "$(building_program 'target/bin/xmf_sheet is not there')" 0
run_copy
judge 'the second use' '' 0
newer='is newer than target/bin/xmf_sheet'
above_tree=$(crates_of xmf_sheet tree)
echo '// changed' >>"$copy/crates/tree/src/lib.rt"
run_copy
judge 'a changed source' "$(building_program "crates/tree/src/lib.rt $newer" "$above_tree")" 0
# as cp -p, tar x and rsync -a leave it
echo '// changed again' >>"$copy/crates/tree/src/lib.rt"
touch -d 2001-01-01 "$copy/crates/tree/src/lib.rt"
run_copy
judge 'a changed source with an old time' "$(building_program "crates/tree/src/lib.rt $newer" "$above_tree")" 0
: >"$copy/crates/machine/specs/New.antt"
run_copy
above_machine=$(crates_of xmf_sheet machine)
judge 'a new definition' "$(building_program "crates/machine/specs $newer" "$above_machine")" 0
rm "$copy/crates/machine/specs/New.antt"
run_copy
judge 'a file that is gone' "$(building_program "crates/machine/specs $newer" "$above_machine")" 0
echo '-- changed' >>"$copy/crates/machine/proofs/Lib.antt"
run_copy
judge 'the text of a proof' '' 0
cat "$root/crates/machine/proofs/Lib.antt" >"$copy/crates/machine/proofs/Lib.antt"
renew_stamps
echo '# changed' >>"$copy/crates.txt"
run_copy
judge 'a changed list of crates' "$(building_program "crates.txt $newer" '')" 0
echo '// changed' >>"$copy/crates/find/src/lib.rt"
: >"$copy/crates/tree/must-fail/new.edit"
echo changed >>"$copy/README.md"
run_copy
judge 'what the program is not made of' '' 0
touch "$copy/crates/tree/src/lib.rt"
cp -p "$copy/target/built/xmf_sheet" "$work/mark"
run_copy
judge 'times alone' '' 0
[ -n "$(find "$copy/target/built/xmf_sheet" -newer "$work/mark")" ]
count $? 'times alone, the mark is renewed'
# what was proved by hand is proved
renew_stamps
rm "$copy/target/built/xmf_sheet"
run_copy
judge 'built by hand' "$(building_program 'it is not known what target/bin/xmf_sheet was built from' '')" 0
echo '// changed' >>"$copy/crates/sheet/src/lib.rt"
(cd "$copy/crates/sheet" && copied rt lib) >/dev/null 2>&1 </dev/null
rm "$copy/target/built/xmf_sheet"
run_copy
judge 'one crate is proved by hand' "$(building_program 'it is not known what target/bin/xmf_sheet was built from' "$(crates_of xmf_sheet sheet | cut -d ' ' -f 2-)")" 0
cat "$root/crates/sheet/src/lib.rt" >"$copy/crates/sheet/src/lib.rt"
run_copy
judge 'a change that is taken back' "$(building_program "crates/sheet/src/lib.rt $newer" "$(crates_of xmf_sheet sheet)")" 0
rm "$copy/target/bin/xmf_sheet"
run_copy
judge 'the program is gone' "$(building_program 'target/bin/xmf_sheet is not there' '')" 0
# times alone do not make a crate stale: rt passes over it, and it is not counted
find "$copy/crates" \( -name out -o -name xmf_sheet \) -prune -o -exec touch {} +
echo '// changed' >>"$copy/crates/xmf_sheet/src/main.rt"
run_copy
judge 'one crate is changed, all times are new' "build: crates/xmf_sheet/src/main.rt $newer: building
build: proving machine, 1 of $(echo "$program_crates" | wc -w)
build: proving xmf_sheet, 1 of 1
build: target/bin/xmf_sheet is built" 0
renew_stamps
[ "$(sort -u "$work/calls" | paste -s -d ,)" = 'sheet lib,xmf_sheet run' ] && [ "$(wc -l <"$work/calls")" -eq 12 ]
count $? 'the calls of rt'

# another kit: the program of the pinned one goes on; a build is refused, and so is a program of another kit
echo 'another kit' >"$work/kit"
run_copy
judge 'another kit, a current program' '' 0
echo '// changed for another kit' >>"$copy/crates/tree/src/lib.rt"
cp "$work/wanted" "$work/sheet"
: >"$work/wanted"
run_copy
judge 'another kit, a build' "build: crates/tree/src/lib.rt $newer, and this rt does not build it: rt version prints 'another kit', and '$(cat ../share/kit)' is needed" 1
rm "$work/kit"
cp "$work/sheet" "$work/wanted"
run_copy
judge 'the kit is back' "$(building_program "crates/tree/src/lib.rt $newer" "$above_tree")" 0
sed -i '1s/.*/another kit/' "$copy/target/built/xmf_sheet"
run_copy
judge 'a program of another kit' "$(building_program 'target/bin/xmf_sheet was built with another kit, another kit' '')" 0

# a user who may not write, and who has no rt: a current program answers, also where times alone changed; a stale one does not
if [ "$(id -u)" -eq 0 ] && command -v setpriv >/dev/null; then
    chmod 755 "$work"
    run setpriv --reuid 65534 --regid 65534 --clear-groups "$copy/sheet" "$copy/samples/worked.xmf"
    judge 'another user' '' 0
    touch "$copy/crates/tree/src/lib.rt"
    run setpriv --reuid 65534 --regid 65534 --clear-groups "$copy/sheet" "$copy/samples/worked.xmf"
    judge 'another user, times alone' '' 0
    echo '// changed for another user' >>"$copy/crates/tree/src/lib.rt"
    : >"$work/wanted"
    run setpriv --reuid 65534 --regid 65534 --clear-groups "$copy/sheet" "$copy/samples/worked.xmf"
    judge 'another user, a stale program' "build: crates/tree/src/lib.rt $newer, and you may not write to $copy/target: $(id -un) has to run $copy/tools/build.sh xmf_sheet" 1
else
    echo 'not tried: another user (needs root and setpriv)'
fi

echo '// changed for a failure' >>"$copy/crates/tree/src/lib.rt"
: >"$work/broken"
: >"$work/wanted"
for use in first second; do
    run_copy
    judge "a build that fails, $use use" "build: crates/tree/src/lib.rt $newer: building
build: proving tree, 1 of $(echo "$above_tree" | wc -w)
build: not built: crates/tree/src/lib.rt:1:1: error: the goal is false
build: $copy/target/built/xmf_sheet.log has all that rt printed" 1
done
grep -q 'the goal is false' "$copy/target/built/xmf_sheet.log"
count $? 'the log of a build that fails'
rm "$work/broken"

# the usual commands but rt
mkdir "$work/usual"
for command in sh awk cat cut dd dirname env find head id mkdir mv od readlink rm sed sha256sum sort stat; do ln -s "$(command -v "$command")" "$work/usual"; done
run env PATH="$work/usual" "$copy/sheet" <worked.xmf
judge 'no rt' "build: crates/tree/src/lib.rt $newer, and there is no command rt to build it; README.md, 'What it needs', has what rt is" 1

if command -v flock >/dev/null; then
    : >"$work/slow"
    : >"$work/calls"
    for i in $eight; do copied "$copy/sheet" worked.xmf >"$work/got.$i" 2>/dev/null & done
    wait
    rm "$work/slow"
    "$program" worked.xmf >"$work/wanted"
    for i in $eight; do
        cmp -s "$work/wanted" "$work/got.$i"
        count $? "run $i beside a build"
    done
    [ "$(wc -l <"$work/calls")" -eq 1 ]
    count $? 'one build for eight runs'
fi
[ ! -e "$work/links/target" ] && [ "$(find "$work/links" | wc -l)" -eq 5 ]
count $? 'a build makes nothing beside a link'

# the archive: for the example in C and for the Rust crate. What the program shares with it is proved already.
left=
for crate in $archive_crates; do
    case " $program_crates " in *" $crate "*) ;; *) left="$left $crate" ;; esac
done
: >"$work/wanted"
run copied "$copy/tools/build.sh" capi
untimed
judge 'the archive' "$(building_archive 'target/staticlib/libcapi.a is not there' "$left")" 0
run copied "$copy/tools/build.sh" capi
judge 'the archive, second use' '' 0
if [ -f "$archive" ] && command -v gcc >/dev/null; then
    echo '// changed' >>"$copy/crates/capi_c/src/lib.rt"
    run copied "$copy/examples/c/run.sh"
    untimed
    cp "$work/got" "$work/wanted"
    judge 'the example in C after a change' "$(building_archive 'crates/capi_c/src/lib.rt is newer than target/staticlib/libcapi.a' capi_c)" 0
    run copied "$copy/examples/c/run.sh"
    judge 'the example in C again' '' 0
else
    echo 'not tried: the example in C (needs gcc and target/staticlib/libcapi.a)'
fi
if [ -f "$archive" ] && command -v cargo >/dev/null; then
    mkdir "$copy/rust"
    cp -R "$root/rust/Cargo.toml" "$root/rust/Cargo.lock" "$root/rust/xmf" "$root/rust/plain" "$root/rust/generate" "$root/rust/differ" "$root/rust/bench" "$copy/rust"
    for use in first second; do
        echo '// changed' >>"$copy/crates/capi_c/src/lib.rt"
        run sh -c 'cd "$1/rust" && PATH=$2:$PATH cargo build --offline -p xmf' sh "$copy" "$work/bin"
        [ "$status" -eq 0 ] && grep -q 'warning: .*build: crates/capi_c/src/lib.rt is newer than target/staticlib/libcapi.a' "$work/error"
        count $? "the Rust crate after a change, $use use"
    done
    run sh -c 'cd "$1/rust" && PATH=$2:$PATH cargo build --offline -p xmf' sh "$copy" "$work/bin"
    [ "$status" -eq 0 ] && ! grep -q ' is newer than ' "$work/error"
    count $? 'the Rust crate without a change'
else
    echo 'not tried: the Rust crate (needs cargo and target/staticlib/libcapi.a)'
fi

summary
