#!/bin/sh
# Tries ./xmf: every line of its table of commands on samples/*, words, names, statuses, what cannot be read or written, terminals, builds, and the
# installation. Needs python3; some parts need root, gcc, groff or shellcheck, and say so where they are not tried. The last line is `N passed, M failed`.
#
# That no way ends in status 0 without the whole answer is tried in four ways: each command with standard output that takes k bytes and no more,
# for every k below the answer's length if that is under 70, else for about 40 of them, and with NEW for every k; /dev/full and a closed pipe; a program that ends without its digit, or is killed; and NEW while the
# program is killed at many moments.
# shellcheck disable=SC2016,SC2094 # sh -c '..' has its own variables; a file is appended to itself on purpose
set -u

root=$(CDPATH='' cd -- "$(dirname -- "$0")/.." && pwd -P) || exit 1
xmf=$root/xmf
"$root/tools/build.sh" xmf && "$root/tools/build.sh" xmf_sheet || exit 1
. "$root/tools/harness.sh"
exec </dev/null
cd "$root/samples" || exit 1
chmod 755 "$work"

# Asks; standard input has the answer that is wanted, with blanks between ~ for tabs.
ask() { # STATUS ERROR WORD..
    sed "s/~/$tab/g" >"$work/wanted"
    wanted=$1 error=$2
    shift 2
    run "$xmf" "$@"
    judge "xmf $*" "$error" "$wanted"
}
# Asks what is not answered: nothing on standard output.
ask_none() { # STATUS ERROR WORD..
    ask "$@" </dev/null
}
usage() { echo "xmf: $1: $2; xmf help $1 says how"; } # COMMAND REASON
# Asks for the new file $work/none, which is not made because of trouble.
ask_unmade() { # ERROR WORD..
    reason=$1
    shift
    ask 1 "$reason${nl}xmf: $work/none: not made" "$@" -o "$work/none" </dev/null
}

# ---- sheet

for sample in *.xmf; do
    "$root/sheet" "$sample" >"$work/wanted" 2>/dev/null
    wanted=$?
    run "$xmf" sheet "$sample"
    judge "sheet $sample" '' "$wanted"
    run "$xmf" sheet - <"$sample"
    judge "sheet -, $sample" '' "$wanted"
done
{
    "$root/sheet" worked.xmf
    printf 'R\t5\t16\tcut.xmf\n'
    "$root/sheet" mobile.xmf
} >"$work/wanted"
run "$xmf" sheet worked.xmf cut.xmf mobile.xmf
judge 'sheet, several files' "worked.xmf:${nl}mobile.xmf:" 2
{
    printf 'F\tworked.xmf\n'
    "$root/sheet" worked.xmf
    printf 'F\tcut.xmf\nR\t5\t16\n'
} >"$work/wanted"
run "$xmf" sheet worked.xmf -H cut.xmf
judge 'sheet -H' '' 2
{
    printf 'F\tworked.xmf\n'
    "$root/sheet" worked.xmf
} >"$work/wanted"
run "$xmf" sheet -H worked.xmf
judge 'sheet -H, one file' '' 0

# ---- sheet -2, reorder

ask 0 '' sheet -2 folders.xmf <<'END'
XMF2~1.01~237~6~8
N~0~0~1~1~61~155
M~0~S~9~0~0~\a9 2004 \5c example
N~1~0~2~1~99~60
M~1~S~8~1~0~Tunes
M~1~S~8~2~4~Airs
N~2~1~3~1~142~10
M~2~S~1~0~0~first
M~2~C~rating~0~0~five
N~3~1~3~3~99~0
N~4~0~2~2~216~21
M~4~S~7~0~0~audio/midi
N~5~0~2~4~189~27
END
for sample in *.xmf; do
    "$xmf" sheet "$sample" >"$work/first"
    wanted=$?
    "$xmf" sheet -2 "$sample" >"$work/second"
    [ $? -eq "$wanted" ]
    count $? "sheet -2 $sample, the status"
    if [ "$wanted" -ne 0 ]; then
        cmp -s "$work/first" "$work/second"
        count $? "sheet -2 $sample, the refusal"
        continue
    fi
    cp "$work/first" "$work/wanted"
    run "$xmf" reorder "$work/second"
    judge "reorder, the second edition of $sample" '' 0
    run "$xmf" reorder <"$work/second"
    judge "reorder, standard input, $sample" '' 0
    cp "$work/second" "$work/wanted"
    run "$xmf" reorder - <"$work/first"
    judge "reorder, the first edition of $sample" '' 0
done
{
    "$xmf" sheet -2 worked.xmf
    printf 'R\t5\t16\tcut.xmf\n'
    "$xmf" sheet -2 mobile.xmf
} >"$work/wanted"
run "$xmf" sheet -2 worked.xmf cut.xmf mobile.xmf
judge 'sheet -2, several files' "worked.xmf:${nl}mobile.xmf:" 2
{
    printf 'F\tworked.xmf\n'
    "$xmf" sheet -2 worked.xmf
} >"$work/wanted"
run "$xmf" sheet -H worked.xmf -2
judge 'sheet -2 -H' '' 0
echo 'R~31~1' | ask 2 '' reorder worked.xmf
echo 'R~31~1' | ask 2 '' reorder /dev/null
"$xmf" sheet folders.xmf | sed 3d >"$work/lost"
echo 'R~31~3' | ask 2 '' reorder "$work/lost"
"$xmf" sheet folders.xmf | sed '2s/61/\\61/;$s/\\n$//' >"$work/spelt"
echo 'R~31~2' | ask 2 '' reorder "$work/spelt"
"$xmf" sheet folders.xmf | sed '1s/6/7/' >"$work/counted"
echo 'R~31~1' | ask 2 '' reorder "$work/counted"
dd if=/dev/zero of="$work/long" bs=1024 count=65 2>/dev/null
echo 'too long' | ask 2 '' reorder "$work/long"

# ---- check, show, why

echo 'ok~2.00~56~worked.xmf' | ask 0 '' check worked.xmf
echo 'R~5~16~cut.xmf' | ask 2 '' check cut.xmf
ask 2 '' check -v worked.xmf cut.xmf <<'END'
ok~2.00~56~worked.xmf
R~5~16~cut.xmf~the length in the header is not the number of bytes received
END
ask 2 '' check --color=always worked.xmf cut.xmf <<END
$(printf '\033[32mok\033[0m')~2.00~56~worked.xmf
$(printf '\033[31mR\033[0m')~5~16~cut.xmf
END
echo "too long~$work/long" | ask 2 '' check "$work/long"
ask 2 '' sheet "$work/long" <<'END'
too long
END
ask 0 '' show folders.xmf <<'END'
XMF 1.01, 237 bytes, 6 nodes, 8 items
node 0: folder
      copyright              \a9 2004 \5c example
  node 1: folder
        title (version 1)      Tunes
        title (version 2)      Airs
    node 2: file, 10 bytes at byte 142
          node name              first
          "rating"               five
    node 3: same as the node at byte 99
  node 4: file, 21 bytes at byte 216, to the file's end
        MIME type              audio/midi
  node 5: URI outside the file
2 items are hidden and not shown
not Mobile XMF: not version 2.00 with type 2 and revision 1
END
ask 0 '' show mobile.xmf <<'END'
XMF 2.00, 115 bytes, 2 nodes, 2 items
node 0: folder
  node 1: file, 63 bytes at byte 52
        resource format        \00\00
        content description    \00\01\01\00\00\00\04
Mobile XMF: all checks hold
needs 4 General MIDI voices
END
ask 2 '' show cut.xmf <<'END'
refused 5 at 16: the length in the header is not the number of bytes received
what to do: The transfer lost or added bytes. Ask for the file again and compare the sizes.
END
run "$xmf" show worked.xmf cut.xmf
[ "$status" -eq 2 ] && grep -qx 'worked.xmf:' "$work/got" && grep -qx 'cut.xmf:' "$work/got" && [ ! -s "$work/error" ]
count $? 'show, several files'
"$xmf" show mobile.xmf >"$work/wanted"
run "$xmf" show - <mobile.xmf
judge 'show, standard input' '' 0

refusal8='a node does not fit its holder (the root: does not fill the tree), its header does not fit the node, or metadata or unpackers run past the header'
advice8='what to do: The file is damaged. Ask for it again. If it repeats, report number and place to the maker.'
printf '%s\n' "refusal 8: $refusal8" "$advice8" | ask 0 '' why 8
printf '%s\n' "refusal 8 at 29: $refusal8" "$advice8" | ask 0 '' why "R${tab}8${tab}29"
printf '%s\n' "refusal 8 at 29: $refusal8" "$advice8" | ask 0 '' why R 8 29
echo 'not Mobile XMF, check 4: a node has unpackers' | ask 0 '' why "V${tab}4"
grep -v '^#' ../share/refusals.tsv | while IFS="$tab" read -r number _ meaning advice; do
    "$xmf" why "$number" >"$work/got"
    printf 'refusal %s: %s\nwhat to do: %s\n' "$number" "$meaning" "$advice" | cmp -s - "$work/got" || echo "$number"
done >"$work/others"
[ "$(cat "$work/others")" = 11 ]
count $? 'why of each number, and more for 11 alone'
run "$xmf" why 11
[ "$status" -eq 0 ] && grep -q '^- Contents in several versions' "$work/got" && grep -q '^- Field 12, Preload' "$work/got"
count $? 'why 11, the two cases of document 000'
for word in 0 40 08 99999999999999999999; do ask_none 1 "xmf: why: no such number: $word" why "$word"; done
for word in '' x -1 'R' "R${tab}x" '8;id'; do ask_none 1 "xmf: why: a refusal's number or its line is wanted; xmf help why says how" why "$word"; done

# ---- rows, verdict, find, resolve, needs

ask 0 '' rows worked.xmf <<'END'
n~0~21~35~5~1~0~1~1~27~29~26~0~0~0
n~1~27~29~26~0~0~2~1~54~2~53~0~3~0
i~0~1~0~1~32~1~0~0~0~36~2
i~1~1~1~1~39~1~0~0~7~43~2
i~2~1~2~0~3~0~0~0~6~50~2
END
echo 'R~5~16' | ask 2 '' rows cut.xmf
echo 'V~0' | ask 0 '' verdict mobile.xmf
echo 'V~7' | ask 3 '' verdict worked.xmf
echo 'R~5~16' | ask 2 '' verdict cut.xmf
ask 2 '' verdict mobile.xmf worked.xmf cut.xmf <<'END'
V~0~mobile.xmf
V~7~worked.xmf
R~5~16~cut.xmf
END
ask 3 '' verdict mobile.xmf worked.xmf <<'END'
V~0~mobile.xmf
V~7~worked.xmf
END
ask_none 0 '' verdict -q mobile.xmf
ask_none 3 '' verdict worked.xmf -q
ask_none 2 '' verdict -q cut.xmf worked.xmf
ask_none 1 'xmf: none: No such file or directory' verdict -q none cut.xmf
ask 0 '' find folders.xmf 2 S 9 <<'END'
I~0~0~0~0~9~0~0~0~0~43~16
M~0~S~9~0~0~\a9 2004 \5c example
END
echo 'I~6~2~2~1~128~3~0~0~1~134~6' | ask 0 '' find folders.xmf 2 C key
echo 'R~23~0' | ask 2 '' find --own folders.xmf 2 S 9
echo 'R~23~0' | ask 2 '' find folders.xmf 2 S --own 9
echo 'R~18~0' | ask 2 '' find folders.xmf 6 S 9
echo 'R~23~0' | ask 2 '' find folders.xmf 2 C ''
echo 'P~37~12~6~2' | ask 0 '' resolve detached.xmf 3
echo 'R~20~0' | ask 2 '' resolve folders.xmf 5
echo 'R~19~0' | ask 2 '' resolve folders.xmf 0
echo 'C~1~0~0~4' | ask 0 '' needs mobile.xmf
echo 'C~1~0~0~4' | ask 0 '' needs mobile.xmf 1
echo 'C~1~0~0~4' | ask 0 '' needs mobile.xmf 1 0 0
echo 'R~23~0' | ask 2 '' needs mobile.xmf 1 1 0
echo 'R~23~0' | ask 2 '' needs mobile.xmf 0
echo 'R~18~0' | ask 2 '' needs mobile.xmf 9
ask_none 1 'xmf: worked.xmf: the item row is hidden' needs worked.xmf 1
ask_none 1 'xmf: worked.xmf: the item row is hidden' needs worked.xmf 1 0 0

# ---- bytes

kinds() { # NUMBER..
    printf '%s~%s\n' 'file header' "$1" 'node frames' "$2" 'metadata frames' "$3" 'visible data' "$4" 'hidden data' "$5" unpackers "$6" references "$7" 'inline resources' "$8" 'all else' "$9" total "${10}"
}
mobile='21 6 12 9 0 2 2 63 0 115' worked='21 6 17 4 2 2 2 2 0 56'
# shellcheck disable=SC2086
{
    kinds $mobile | ask 0 '' bytes mobile.xmf
    kinds $mobile | ask 0 '' bytes --color=never mobile.xmf
    kinds $worked | ask 0 '' bytes worked.xmf
    kinds 22 21 44 28 6 7 12 25 6 171 | ask 0 '' bytes detached.xmf
    { kinds $worked && kinds $mobile; } | ask 0 "worked.xmf:${nl}mobile.xmf:" bytes worked.xmf mobile.xmf
    { echo 'F~worked.xmf' && kinds $worked && printf 'F~cut.xmf\nR~5~16\n'; } | ask 2 '' bytes -H worked.xmf cut.xmf
    { kinds $worked && printf 'R~5~16~cut.xmf\n'; } | ask 2 'worked.xmf:' bytes worked.xmf cut.xmf
}
echo 'R~5~16' | ask 2 '' bytes cut.xmf
echo 'too long' | ask 2 '' bytes "$work/long"
{
    echo "B $worked worked.xmf" && echo 'R 5 16 cut.xmf' && echo "B $mobile mobile.xmf"
} | tr ' ' '~' | ask 2 '' bytes -l worked.xmf cut.xmf mobile.xmf
echo "B $mobile mobile.xmf" | tr ' ' '~' | ask 0 '' bytes -l mobile.xmf
for sample in *.xmf; do
    "$xmf" bytes "$sample" 2>/dev/null | awk -F "$tab" -v size="$(wc -c <"$sample")" '$1 == "total" { total = $2 } $1 != "total" { sum += $2 } $1 == "R" { exit } END { exit $1 != "R" && (sum != total || total != size) }'
    count $? "bytes $sample, the sum"
done
# one answer for all: a refused file and one that is too long count as refused, one that cannot be read does not count
{ printf 'files~4\nrefused~2\n' && kinds 42 12 29 13 2 4 4 65 0 171; } | ask 0 '' bytes --sum worked.xmf cut.xmf mobile.xmf "$work/long"
{ printf 'files~1\nrefused~1\n' && kinds 0 0 0 0 0 0 0 0 0 0; } | ask 0 '' bytes --sum cut.xmf
# shellcheck disable=SC2086
{ printf 'files~1\nrefused~0\n' && kinds $worked; } | ask 1 'xmf: none: No such file or directory' bytes --sum none worked.xmf
# shellcheck disable=SC2086
{ printf 'files~1\nrefused~0\n' && kinds $worked; } | ask 0 '' bytes --sum worked.xmf
for language in C.UTF-8 C; do
    cell=█ half=▌
    [ "$language" != C ] || cell='#' half=
    full=$(printf '%021d' 0 | sed "s/0/$cell/g")
    cat >"$work/wanted" <<END
file header             21  18.3 % $cell$cell$cell$cell$cell$cell$cell
node frames              6   5.2 % $cell$cell
metadata frames         12  10.4 % $cell$cell$cell$cell
visible data             9   7.8 % $cell$cell$cell
hidden data              0   0.0 %
unpackers                2   1.7 %${half:+ }$half
references               2   1.7 %${half:+ }$half
inline resources        63  54.8 % $full$half
all else                 0   0.0 %
total                  115
END
    run env LC_ALL="$language" "$xmf" bytes --chart mobile.xmf
    judge "bytes --chart, $language" '' 0
    cp "$work/wanted" "$work/chart"
    { echo mobile.xmf: && cat "$work/chart" && echo cut.xmf: && printf 'R\t5\t16\n'; } >"$work/wanted"
    run env LC_ALL="$language" "$xmf" bytes --chart mobile.xmf cut.xmf
    judge "bytes --chart, several files, $language" '' 2
    { printf '%-16s %9d\n' files 2 refused 1 && cat "$work/chart"; } >"$work/wanted"
    run env LC_ALL="$language" "$xmf" bytes --sum --chart mobile.xmf cut.xmf
    judge "bytes --sum --chart, $language" '' 0
done
run env LC_ALL=C "$xmf" bytes --chart --color=always mobile.xmf
[ "$status" -eq 0 ] && grep -q "^node frames              6   5.2 % $(printf '\033')\[36m##$(printf '\033')\[0m\$" "$work/got"
count $? 'bytes --chart --color=always'
ask 0 '' bytes --runs worked.xmf <<'END'
K~0~21~file header
K~21~3~node frames
K~24~1~metadata frames
K~25~1~unpackers
K~26~1~references
K~27~3~node frames
K~30~6~metadata frames
K~36~2~visible data
K~38~5~metadata frames
K~43~2~hidden data
K~45~5~metadata frames
K~50~2~visible data
K~52~1~unpackers
K~53~1~references
K~54~2~inline resources
END
echo 'R~5~16' | ask 2 '' bytes cut.xmf --runs
echo 'too long' | ask 2 '' bytes --runs "$work/long"
ask_none 1 'xmf: none: No such file or directory' bytes --runs none
# the runs of a file follow each other, differ from their neighbours, and have the bytes that are counted for each kind
for sample in *.xmf; do
    { "$xmf" bytes "$sample"; "$xmf" bytes --runs "$sample"; } 2>/dev/null | awk -F "$tab" -v size="$(wc -c <"$sample")" '
        $1 == "R" { refused++ }
        NF == 2 && $1 != "total" { count[$1] = $2 }
        NF == 4 { if ($2 != at || $4 == before || $3 < 1) bad = 1; at += $3; sum[$4] += $3; before = $4 }
        END { for (kind in count) if (sum[kind] + 0 != count[kind]) bad = 1; exit refused != 2 && (bad || at != size) }'
    count $? "bytes --runs $sample"
done
"$xmf" bytes --runs mobile.xmf >"$work/wanted"
run "$xmf" bytes --runs - <mobile.xmf
judge 'bytes --runs, standard input' '' 0
# a file with as many nodes and items as there may be: all runs are told
python3 - "$work/most.xmf" <<'END'
import sys


def number(n):
    groups = [n & 0x7F]
    while n := n >> 7:
        groups.append(n & 0x7F | 0x80)
    return bytes(reversed(groups))


def node(contained, items, rest):
    fields = number(len(items)) + items + b"\0"
    for widths in ((1, 1), (2, 1), (2, 2), (3, 1)):
        header = sum(widths) + len(number(contained)) + len(fields)
        whole = header + 1 + len(rest)
        if (len(number(whole)), len(number(header))) == widths:
            return number(whole) + number(contained) + number(header) + fields + b"\1" + rest


item = b"\0\x08\0\2\0a"
leaves = b"".join(node(0, item * (5 if i == 0 else 4 if i < 254 else 3), b"x" * 100) for i in range(255))
root = node(255, b"", leaves)
for a in (1, 2, 3):
    for b in (1, 2, 3):
        start = 8 + a + 2 + 1 + b
        size = start + len(root)
        if len(number(size)) == a and len(number(size - 1)) == b and start < 128:
            open(sys.argv[1], "wb").write(b"XMF_1.00" + number(size) + b"\1\0" + number(start) + number(size - 1) + root)
END
run "$xmf" bytes --runs "$work/most.xmf"
[ "$status" -eq 0 ] && awk -F "$tab" -v size="$(wc -c <"$work/most.xmf")" '$2 != at { bad = 1 } { at += $3 } END { exit bad || at != size || NR < 3000 }' "$work/got"
count $? 'bytes --runs of a file with 256 nodes'

# ---- map

ask_none 0 '' map mobile.xmf -o "$work/map.svg"
python3 - mobile.xmf "$work/map.svg" <<'END'
import sys
import xml.etree.ElementTree

size = len(open(sys.argv[1], "rb").read())
root = xml.etree.ElementTree.parse(sys.argv[2]).getroot()
space = "{http://www.w3.org/2000/svg}"
cells = []
for run in root.iter(space + "g"):
    assert run.find(space + "title").text.startswith("place")
    for rect in run.iter(space + "rect"):
        x, y, width, height = (int(rect.get(key)) for key in ("x", "y", "width", "height"))
        assert height == 14 and (x - 64) % 10 == 0 and (y - 44) % 14 == 0 and width % 10 == 0
        cells += [(y - 44) // 14 * 64 + (x - 64) // 10 + i for i in range(width // 10)]
assert cells == list(range(size))
END
count $? 'map: its rectangles are the places of the file, each once, in file order'
cp "$work/map.svg" "$work/wanted"
run "$xmf" map mobile.xmf -o -
judge 'map to standard output' '' 0
sed 's/>mobile.xmf: />/' "$work/map.svg" >"$work/wanted"
run "$xmf" map - -o - <mobile.xmf
judge 'map of standard input' '' 0
ask_none 1 "xmf: $work/map.svg: File exists" map worked.xmf -o "$work/map.svg"
ask_none 0 '' map worked.xmf -f -o "$work/map.svg"
grep -q '>worked.xmf: 56 bytes, 64 a row<' "$work/map.svg"
count $? 'map -f writes over a file'
ask_none 2 "$(refused 5 16)" map cut.xmf -o "$work/none"
ask_none 2 'too long' map "$work/long" -o "$work/none"
ask_none 2 "$(refused 5 16)" map -f cut.xmf -o "$work/map.svg"
ask_unmade 'xmf: none: No such file or directory' map none
run "$xmf" map worked.xmf -o "$work/absent/none"
[ "$status" -eq 1 ] && grep -q ': not made$' "$work/error"
count $? 'map into a folder that is not there'
grep -q '>worked.xmf: 56 bytes, 64 a row<' "$work/map.svg" && [ ! -e "$work/none" ] && [ -z "$(find "$work" -name '*.xmf-*')" ]
count $? 'map, nothing is made of a refusal, and nothing is left'

# ---- id3

ask 0 '' id3 id3.xmf 0 <<'END'
F~0~TIT2~20~14
F~1~TPE1~44~17
END
echo 'F~1~TPE1~44~17' | ask 0 '' id3 id3.xmf 0 1
echo 'R~18~0' | ask 2 '' id3 id3.xmf 0 2
echo 'R~18~0' | ask 2 '' id3 id3.xmf 2
# nothing of a hidden row is read out unasked
ask_none 1 'xmf: id3.xmf: the item row is hidden: --hidden' id3 id3.xmf 1
ask_none 1 'xmf: id3.xmf: the item row is hidden: --hidden' id3 id3.xmf 1 0
ask_none 1 'xmf: id3.xmf: the item row is hidden: --hidden' id3 id3.xmf 1 7
ask_none 1 'xmf: worked.xmf: the item row is hidden: --hidden' id3 worked.xmf 1
warned='xmf: id3.xmf: the item row is hidden: what stands here is not for tickets'
echo 'F~0~TXXX~20~17' | ask 0 "$warned" id3 --hidden id3.xmf 1
echo 'F~0~TXXX~20~17' | ask 0 "$warned" id3 id3.xmf 1 0 --hidden
echo 'R~18~0' | ask 2 "$warned" id3 id3.xmf 1 1 --hidden
echo 'F~1~TPE1~44~17' | ask 0 '' id3 --hidden id3.xmf 0 1
echo 'R~33~0' | ask 2 '' id3 worked.xmf 0
echo 'R~33~0' | ask 2 '' id3 worked.xmf 2 5
echo 'R~5~16' | ask 2 '' id3 cut.xmf 0
echo 'too long' | ask 2 '' id3 "$work/long" 0
tail -c +25 id3.xmf | head -c 64 >"$work/tag"
ask 0 '' id3 --tag "$work/tag" <<'END'
F~0~TIT2~20~14
F~1~TPE1~44~17
END
echo 'F~0~TIT2~20~14' | ask 0 '' id3 "$work/tag" 0 --tag
echo 'R~18~0' | ask 2 '' id3 --tag "$work/tag" 99999999999999999999
"$xmf" id3 --tag "$work/tag" >"$work/wanted"
run "$xmf" id3 --tag - <"$work/tag"
judge 'id3 --tag, standard input' '' 0
head -c 63 "$work/tag" >"$work/damaged"
echo 'R~34~6' | ask 2 '' id3 --tag "$work/damaged"
{ head -c 5 "$work/tag" && printf '\200' && tail -c +7 "$work/tag"; } >"$work/damaged"
echo 'R~35~5' | ask 2 '' id3 --tag "$work/damaged" 0
echo 'R~33~0' | ask 2 '' id3 --tag worked.xmf
# a name of any bytes, in the sheet's spelling
printf 'ID3\004\000\000\000\000\000\012\001\\\tz\000\000\000\000\000\000' >"$work/named"
printf 'F~0~\\01\\5c\\09z~20~0\n' | ask 0 '' id3 --tag "$work/named"
# as many frames as a list has room for, and more: 22, and each by its number
python3 - "$work/many" 1900 "$work/most" 6552 <<'END'
import sys

for name, count in zip(sys.argv[1::2], map(int, sys.argv[2::2])):
    size = count * 10
    header = b"ID3\4\0\0" + bytes(size >> shift & 0x7F for shift in (21, 14, 7, 0))
    open(name, "wb").write(header + b"TIT2\0\0\0\0\0\0" * count)
END
run "$xmf" id3 --tag "$work/many"
[ "$status" -eq 0 ] && [ "$(wc -l <"$work/got")" -eq 1900 ] && [ "$(tail -n 1 "$work/got")" = "F${tab}1899${tab}TIT2${tab}19010${tab}0" ]
count $? 'id3, 1,900 frames'
echo 'R~22~0' | ask 2 '' id3 --tag "$work/most"
echo 'F~6551~TIT2~65530~0' | ask 0 '' id3 --tag "$work/most" 6551

# ---- extract

ask_none 0 'xmf: mobile.xmf: 63 bytes from byte 52' extract mobile.xmf 1 -o "$work/tune.mid"
tail -c 63 mobile.xmf | cmp -s - "$work/tune.mid" && [ "$(head -c 4 "$work/tune.mid")" = MThd ]
count $? 'extract, the tune'
tail -c 63 mobile.xmf >"$work/wanted"
run "$xmf" extract -o - mobile.xmf 1
judge 'extract to standard output' 'xmf: mobile.xmf: 63 bytes from byte 52' 0
ask_none 0 "xmf: folders.xmf: 21 bytes from byte 216, which may hold hidden data" extract folders.xmf 4 -o "$work/after"
ask_none 2 "$(refused 20 0)" extract folders.xmf 5 -o "$work/uri"
ask_none 2 "$(refused 18 0)" extract folders.xmf 77 -o "$work/uri"
ask_none 2 "$(refused 5 16)" extract cut.xmf 0 -o "$work/uri"
[ ! -e "$work/uri" ]
count $? 'extract, nothing is made of a refusal'

# ---- title

ask 0 '' title worked.xmf <<'END'
0~M~1~C~a~0~0~Hi
2~M~1~S~3~0~6~\00\00
END
echo 'R~36~0' | ask 2 '' title folders.xmf
{
    printf 'XMF_2.00\000\000\000\002\000\000\000\001\073\001\000\025\072\046\001\005\000\000\001\040\000\035\030\001a\000\006\000Hello'
    printf '\001t\000\003\007\021\042\000\003\000\003\006\000\000\000\001\252\273'
} >"$work/hello"
changed="title${tab}Hi${tab}Hello${nl}length${tab}56${tab}59"
# Tries a correction into NEW, which must be as the file `hello`.
corrected() { # NAME WORD..
    name=$1
    shift
    : >"$work/wanted"
    rm -f "$work/new"
    run "$xmf" title "$@"
    judge "$name" "$changed" 0
    cmp -s "$work/hello" "$work/new"
    count $? "$name, the new file"
}
corrected 'title' worked.xmf 0 Hello -o "$work/new"
corrected 'title, options first' -o "$work/new" worked.xmf 0 Hello
corrected 'title, options between' worked.xmf -o "$work/new" 0 -- Hello
corrected 'title, bytes' worked.xmf 0 --bytes 48656C6c6f -o "$work/new"
corrected 'title, bytes in one word' worked.xmf 0 --bytes=48656c6c6f -o "$work/new"
printf Hello >"$work/typed"
rm -f "$work/new"
run "$xmf" title worked.xmf 0 --stdin -o "$work/new" <"$work/typed"
judge 'title, standard input' "$changed" 0
cmp -s "$work/hello" "$work/new"
count $? 'title, standard input, the new file'
cp "$work/hello" "$work/wanted"
run "$xmf" title worked.xmf 0 Hello -o -
judge 'title to standard output' "$changed" 0
run "$xmf" title - 0 Hello -o - <worked.xmf
judge 'title of standard input' "$changed" 0
ask_none 0 "title${tab}Hi${tab}${nl}length${tab}56${tab}54" title worked.xmf 0 '' -o "$work/empty"
ask_none 0 "title${tab}Hi${tab}${nl}length${tab}56${tab}54" title worked.xmf 0 --bytes '' -o "$work/empty2"
cmp -s "$work/empty" "$work/empty2"
count $? 'an empty title, an empty row of bytes'
long=$(python3 -c "print('a' * 300, end='')")
cut=$(python3 -c "print('a' * 200, end='')")
ask_none 0 "title${tab}Hi${tab}$cut..${nl}length${tab}56${tab}$("$xmf" title worked.xmf 0 "$long" -o - 2>/dev/null | wc -c)" title worked.xmf 0 "$long" -o "$work/cut"
ask_unmade 'xmf: worked.xmf: the item row holds binary data: --bytes' title worked.xmf 2 x
printf x >"$work/typed"
: >"$work/wanted"
run "$xmf" title worked.xmf 2 --stdin -o "$work/none" <"$work/typed"
judge 'title, standard input into binary data' "xmf: worked.xmf: the item row holds binary data: --bytes${nl}xmf: $work/none: not made" 1
ask_none 0 "title${tab}\\00\\00${tab}\\00\\01${nl}length${tab}56${tab}56" title worked.xmf 2 --bytes 0001 -o "$work/format"
run "$xmf" title worked.xmf 0 'Æ' -o "$work/latin"
[ "$status" -eq 0 ] && [ "$(sed -n '$!d;=' "$work/error")" = 3 ] && grep -q '^xmf: worked.xmf: bytes from 80h in a row of format 0' "$work/error"
count $? 'title, a warning for bytes from 80h in format 0'
ask_none 2 "$(refused 37 0)" title worked.xmf 1 x -o "$work/none"
ask_none 2 "$(refused 18 0)" title worked.xmf 3 x -o "$work/none"
ask_none 2 "$(refused 36 0)" title folders.xmf 0 x -o "$work/none"
ask_none 2 "$(refused 26 2)" title unicode.xmf 2 "$(printf 'ab\377')" -o "$work/none"
ask_none 2 'too long' title "$work/long" 0 x -o "$work/none"
[ ! -e "$work/none" ]
count $? 'title, nothing is made of a refusal'

# ---- mend

told="FileLength${tab}16${tab}57${tab}56${nl}TreeEnd${tab}20${tab}60${tab}55"
ask 0 '' mend mendable.xmf <<END
$told
END
echo "$told" >"$work/wanted"
run "$xmf" mend - <mendable.xmf
judge 'mend, standard input' '' 0
ask_none 0 '' mend worked.xmf
ask 2 '' mend cut.xmf <<'END'
R~5~16
END
ask 2 '' mend header.xmf <<'END'
R~8~29
END
ask_none 0 "$told" mend mendable.xmf -o "$work/mended"
cmp -s worked.xmf "$work/mended"
count $? 'mend, the copy'
ask_none 0 '' mend -o "$work/same" folders.xmf
cmp -s folders.xmf "$work/same"
count $? 'mend, the copy of a file that is right'
cp worked.xmf "$work/wanted"
run "$xmf" mend mendable.xmf -o -
judge 'mend to standard output' "$told" 0
run "$xmf" mend - -o - <mendable.xmf
judge 'mend, standard input and output' "$told" 0
ask_none 2 "$(refused 5 16)" mend cut.xmf -o "$work/unmended"
[ ! -e "$work/unmended" ]
count $? 'mend, nothing is made of a refusal'
ask_none 1 "xmf: $work/mended: File exists" mend mendable.xmf -o "$work/mended"
ask_none 0 "$told" mend mendable.xmf -f -o "$work/same"
cmp -s worked.xmf "$work/same"
count $? 'mend over a file that is there'
ask_none 1 "$(usage mend '-f goes with -o')" mend -f mendable.xmf
ask_none 1 "$(usage mend 'too few or too many words')" mend mendable.xmf worked.xmf

# ---- conversions

printf Hi >"$work/wanted"
printf '\000H\000i' >"$work/units"
run "$xmf" to-utf8 "$work/units"
judge 'to-utf8' '' 0
run "$xmf" to-utf8 <"$work/units"
judge 'to-utf8, standard input' '' 0
cp "$work/units" "$work/wanted"
printf Hi >"$work/text"
run "$xmf" to-utf16 - <"$work/text"
judge 'to-utf16' '' 0
printf '\330\000' >"$work/half"
ask_none 2 "$(refused 26 0)" to-utf8 "$work/half"

# ---- terminals: what may steer one is escaped in show, in messages and in the lines of title

python3 - "$work/steer.xmf" <<'END'
import sys

text = "a\u009b31m\u202e\u2066\u2028\u200f\ufeffb".encode("utf-16-be")
item = b"\0\x08\0" + bytes([len(text) + 1, 2]) + text
fields = bytes([len(item)]) + item + b"\0"
node = bytes([len(fields) + 4, 0, len(fields) + 3]) + fields + b"\1"
size = 8 + 1 + 2 + 2 + len(node)
open(sys.argv[1], "wb").write(b"XMF_1.00" + bytes([size, 1, 0, 13, size - 1]) + node)
END
run "$xmf" show "$work/steer.xmf"
[ "$status" -eq 0 ] && grep -Fq 'title                  a\c2\9b31m\e2\80\ae\e2\81\a6\e2\80\a8\e2\80\8f\ef\bb\bfb' "$work/got"
count $? 'show escapes what steers a terminal'
run "$xmf" title "$work/steer.xmf" 0 x -o "$work/steered"
[ "$status" -eq 0 ] && ! LC_ALL=C grep -q "$(printf '\302\233\|\342\200\256\|\342\200\250')" "$work/error"
count $? 'title escapes what steers a terminal'
: >"$work/wanted"
run "$xmf" sheet "$(printf 'a\tb\nc\033[31md\302\233\342\200\256\303\246')"
judge 'a name that steers a terminal' 'xmf: a\09b\0ac\1b[31md\c2\9b\e2\80\aeæ: No such file or directory' 1
ask_none 1 'xmf: no such command: a\1b[31m; xmf help lists them' "$(printf 'a\033[31m')"

# Runs a command with standard output and standard error on a terminal, whose bytes are the file `got`.
on_terminal() { # COMMAND..
    python3 - "$work/got" "$@" <<'END'
import os
import pty
import subprocess
import sys

ours, theirs = pty.openpty()
process = subprocess.Popen(sys.argv[2:], stdin=subprocess.DEVNULL, stdout=theirs, stderr=theirs)
os.close(theirs)
got = b""
try:
    while part := os.read(ours, 65536):
        got += part
except OSError:
    pass
open(sys.argv[1], "wb").write(got.replace(b"\r\n", b"\n"))
sys.exit(process.wait())
END
    status=$?
}
: >"$work/error"
printf 'R\t5\t16\nxmf: refusal 5: the length in the header is not the number of bytes received (xmf why 5)\n' >"$work/wanted"
on_terminal "$xmf" sheet cut.xmf
judge 'a refusal on a terminal' '' 2
printf 'R\t37\t0\nxmf: refusal 37: the content to be corrected is hidden, or one of several versions (xmf why 37)\n' >"$work/wanted"
on_terminal "$xmf" title worked.xmf 1 x -o "$work/none"
judge 'a refusal of bytes on a terminal' '' 2
printf 'R\t5\t16\nxmf: refusal 5: the length in the header is not the number of bytes received (xmf why 5)\n' >"$work/wanted"
on_terminal "$xmf" map cut.xmf -o "$work/none"
judge 'a refusal of a picture on a terminal' '' 2
printf 'xmf: standard output: a terminal, which shows no picture\n' >"$work/wanted"
on_terminal "$xmf" map worked.xmf -o -
judge 'no picture to a terminal' '' 1
printf 'title\tHi\tHello\nlength\t56\t59\n' >"$work/wanted"
on_terminal "$xmf" title worked.xmf 0 Hello -o "$work/on-terminal"
judge 'a new file on a terminal' '' 0
cmp -s "$work/hello" "$work/on-terminal"
count $? 'a new file on a terminal, what is in it'
"$xmf" sheet worked.xmf >"$work/wanted"
on_terminal "$xmf" sheet worked.xmf
judge 'a sheet on a terminal' '' 0
printf '\033[32mok\033[0m\t2.00\t56\tworked.xmf\n' >"$work/wanted"
on_terminal env TERM=xterm "$xmf" check worked.xmf
judge 'check on a terminal' '' 0
printf 'ok\t2.00\t56\tworked.xmf\n' >"$work/wanted"
on_terminal env TERM=xterm NO_COLOR=1 "$xmf" check worked.xmf
judge 'NO_COLOR' '' 0
on_terminal env TERM=xterm "$xmf" check --color=never worked.xmf
judge '--color=never' '' 0
on_terminal "$xmf" title worked.xmf 0 Hello -o -
[ "$status" -eq 1 ] && grep -q '^xmf: standard output: a terminal' "$work/got"
count $? 'no bytes to a terminal'

# ---- words

ask_none 1 'xmf: no command; xmf help lists them'
ask_none 1 'xmf: no such command: shet; xmf help lists them' shet worked.xmf
for command in sheet check show verdict rows find resolve extract needs bytes map id3 title mend; do
    ask_none 1 "$(usage "$command" 'too few or too many words')" "$command"
    ask_none 1 "$(usage "$command" 'no such option: --wy')" "$command" --wy worked.xmf 0 0 0
done
for command in to-utf8 to-utf16 rows reorder map; do ask_none 1 "$(usage "$command" 'too few or too many words')" "$command" worked.xmf worked.xmf; done
for command in sheet check show verdict rows to-utf8 to-utf16 needs reorder bytes map id3 title; do ask_none 1 "$(usage "$command" 'an empty word where a file or a number belongs')" "$command" ''; done
ask_none 1 "$(usage sheet 'an empty word where a file or a number belongs')" sheet worked.xmf '' cut.xmf
ask_none 1 "$(usage resolve 'an empty word where a file or a number belongs')" resolve worked.xmf ''
ask_none 1 "$(usage find 'an empty word where a file or a number belongs')" find worked.xmf '' S 1
ask_none 1 "$(usage needs 'an empty word where a file or a number belongs')" needs mobile.xmf 1 '' 0
ask_none 1 "$(usage title 'an empty word where a file or a number belongs')" title worked.xmf '' x -o "$work/none"
ask_none 1 "$(usage title 'the name after -o is missing or empty')" title worked.xmf 0 x -o ''
ask_none 1 "$(usage title 'the name after -o is missing or empty')" title worked.xmf 0 x
ask_none 1 "$(usage extract 'the name after -o is missing or empty')" extract mobile.xmf 1
ask_none 1 "$(usage map 'the name after -o is missing or empty')" map mobile.xmf
ask_none 1 "$(usage bytes 'too few or too many words')" bytes --runs mobile.xmf worked.xmf
for option in --sum --chart -H --color=never; do ask_none 1 "$(usage bytes '--runs goes with no other option')" bytes --runs "$option" mobile.xmf; done
ask_none 1 "$(usage title 'a word is missing after -o')" title worked.xmf 0 x -o
ask_none 1 "$(usage title 'a word is missing after --bytes')" title worked.xmf 0 -o "$work/none" --bytes
ask_none 1 "$(usage title '--stdin or --bytes, not both')" title worked.xmf 0 --stdin --bytes 00 -o "$work/none"
ask_none 1 "$(usage title 'the file and the title are both standard input')" title - 0 --stdin -o "$work/none"
ask_none 1 "$(usage title 'a title as a word, or --stdin, or --bytes')" title worked.xmf 0 x --stdin -o "$work/none"
ask_none 1 "$(usage title 'a file; or a file, an item row and a title')" title worked.xmf 0 -o "$work/none"
ask_none 1 "$(usage title 'a file; or a file, an item row and a title')" title worked.xmf -o "$work/none"
ask_none 1 "$(usage needs 'a channel and a resource go together')" needs mobile.xmf 1 0
ask_none 1 "$(usage bytes '-l goes with no other option')" bytes -l --sum worked.xmf
ask_none 1 "$(usage bytes '-l goes with no other option')" bytes --chart -l worked.xmf
ask_none 1 "$(usage bytes '--sum or -H, not both')" bytes -H --sum worked.xmf
ask_none 1 "$(usage id3 '--hidden or --tag, not both')" id3 --hidden --tag "$work/tag"
ask_none 1 "$(usage id3 'a file and an item row, or --tag and a file; then a frame')" id3 id3.xmf
ask_none 1 "$(usage id3 'a file and an item row, or --tag and a file; then a frame')" id3 --tag id3.xmf 0 0
ask_none 1 "$(usage id3 'an empty word where a file or a number belongs')" id3 id3.xmf 0 ''
ask_none 1 'xmf: x: no decimal number' id3 id3.xmf x
ask_none 1 'xmf: x: no decimal number' id3 id3.xmf 0 x
ask_none 1 'xmf: x: no decimal number' id3 --tag "$work/tag" x
ask_none 1 "$(usage check 'no such option: --color=red')" check --color=red worked.xmf
for word in x -1 1x ' 1' 0x1 +1; do
    ask_none 1 "xmf: $word: no decimal number" resolve worked.xmf -- "$word"
    ask_none 1 "xmf: $word: no decimal number" find worked.xmf 0 -- S "$word"
done
echo 'R~18~0' | ask 2 '' resolve worked.xmf 99999999999999999999
ask_unmade 'xmf: --bytes: no even number of hex digits' title worked.xmf 0 --bytes 123
ask_unmade 'xmf: --bytes: no even number of hex digits' title worked.xmf 0 --bytes 0g
ask_none 1 "$(usage find 'a field is S and a number, or C and a name')" find worked.xmf 0 X 1
ask_none 1 "$(usage find 'a field is S and a number, or C and a name')" find worked.xmf 0 S ''

# ---- help: every command has one, of at most 20 lines; the manual and the completions have every command

run "$xmf" help
commands=$(sed -n 's/^  xmf \([a-z0-9-]*\).*/\1/p' "$work/got")
[ "$status" -eq 0 ] && [ "$(echo "$commands" | wc -l)" -ge 17 ]
count $? 'help lists the commands'
cp "$work/got" "$work/wanted"
for words in --help -h; do
    run "$xmf" $words
    judge "$words" '' 0
done
for command in $commands; do
    run "$xmf" help "$command"
    [ "$status" -eq 0 ] && [ "$(wc -l <"$work/got")" -le 20 ] && { grep -q '^Status: ' "$work/got" || [ "$command" = help ]; }
    count $? "help $command"
    cp "$work/got" "$work/wanted"
    if [ "$command" != help ]; then
        run "$xmf" "$command" --help
        judge "$command --help" '' 0
    fi
    grep -q "^\\.Cm $command\$" ../man/xmf.1 && grep -Eq "^\\.It Cm (.* )?$command( |\$)" ../man/xmf.1
    count $? "$command in the manual"
    grep -q "[' ]${command}[' ]" ../completion/xmf.bash && grep -q "'$command:" ../completion/_xmf
    count $? "$command in the completions"
done
for command in $commands; do
    "$xmf" help "$command" | sed -n '1s/[] ,|[()]/\n/gp' | sed -n 's/^\(--*[A-Za-z0-9-]*\).*/\1/p' | sort -u
done | sort -u >"$work/options"
while read -r option; do
    letters=${option#-} && letters=${letters#-}
    grep -Eq "Fl (Fl )?$letters( |\$)" ../man/xmf.1 && grep -q -e "$option" ../completion/xmf.bash && grep -q -e "$option" ../completion/_xmf
    count $? "$option in the manual and the completions"
done <"$work/options"
[ "$(wc -l <"$work/options")" -ge 10 ]
count $? 'options are found'
ask_none 1 'xmf: no such command: shet; xmf help lists them' help shet
run "$xmf" --version
[ "$status" -eq 0 ] && [ "$(cut -d ' ' -f 1 "$work/got" | tr '\n' ' ')" = 'xmf commit sources kit ' ] && grep -qx "kit $(cat ../share/kit)" "$work/got" && grep -Fq "$(cat ../share/kit)" ../README.md
count $? '--version'
if command -v groff >/dev/null; then
    for page in 1 3; do
        groff -mdoc -Tascii -ww "../man/xmf.$page" 2>&1 >/dev/null | head -5 >"$work/warnings"
        [ ! -s "$work/warnings" ]
        count $? "man/xmf.$page without a warning"
    done
else
    echo 'not tried: groff'
fi
python3 ../tools/manual3.py <../include/xmf.h | cmp -s - ../man/xmf.3
count $? 'man/xmf.3 is made of the header'
if command -v shellcheck >/dev/null; then
    for script in xmf sheet title install tools/build.sh tools/harness.sh tools/try_sheet.sh tools/try_title.sh tools/try_xmf.sh tools/try_refusals.sh tools/try_docs.sh tools/stack.sh examples/c/run.sh completion/xmf.bash; do
        (cd .. && LC_ALL=C.UTF-8 shellcheck "$script" >/dev/null)
        count $? "shellcheck $script"
    done
else
    echo 'not tried: shellcheck'
fi

# ---- what cannot be read

ask_none 1 "xmf: $work/missing: No such file or directory" sheet "$work/missing"
ask_none 1 "xmf: $work: Is a directory" sheet "$work"
ask_unmade "xmf: $work: Is a directory" title "$work" 0 x
printf 'R\t5\t16\tcut.xmf\nok\t2.00\t56\tworked.xmf\n' >"$work/wanted"
run "$xmf" check cut.xmf none worked.xmf
judge 'a missing file among others' 'xmf: none: No such file or directory' 1
: >"$work/wanted"
run "$xmf" sheet - <&-
judge 'no standard input' 'xmf: standard input: Bad file descriptor' 1
"$xmf" sheet worked.xmf >"$work/wanted"
run "$xmf" sheet worked.xmf <&-
judge 'no standard input, a file' '' 0
: >"$work/error"
"$xmf" sheet worked.xmf >"$work/got" 2>&-
status=$?
judge 'no standard error' '' 0
mkfifo "$work/fifo"
timeout 20 sh -c 'cat worked.xmf >"$1"' sh "$work/fifo" &
run "$xmf" sheet "$work/fifo"
judge 'a FIFO' '' 0
mkfifo "$work/fifo2"
timeout 20 sh -c 'cat mobile.xmf >"$1"' sh "$work/fifo2" &
"$xmf" show mobile.xmf >"$work/wanted"
run "$xmf" show "$work/fifo2"
judge 'show, a FIFO' '' 0
# a file that gets other contents meanwhile is shown as it was at one moment
python3 - "$xmf" "$work" >"$work/mixed" <<'END'
import os, subprocess, sys, threading

command, work = sys.argv[1:]
contents = [open(name, "rb").read() for name in ("mobile.xmf", "folders.xmf")]
name = os.path.join(work, "turning.xmf")
stopped = threading.Event()


def put(data):
    with open(name + ".new", "wb") as new:
        new.write(data)
    os.rename(name + ".new", name)


def shown():
    return subprocess.run([command, "show", name], capture_output=True, check=False)


wanted = []
for data in contents:
    put(data)
    wanted.append(shown().stdout)


def turn():
    while not stopped.is_set():
        for data in contents:
            put(data)


turning = threading.Thread(target=turn)
turning.start()
got = [shown() for _ in range(60)]
stopped.set()
turning.join()
seen = {run.stdout for run in got}
print("one at a time" if seen <= set(wanted) and len(seen) == 2 and not any(run.returncode or run.stderr for run in got) else got)
END
[ "$(cat "$work/mixed")" = 'one at a time' ]
count $? 'show, a file that changes meanwhile'
{
    head -c 20 cut.xmf
    sleep 1
    tail -c +21 cut.xmf
} | "$xmf" sheet - >"$work/got"
[ "$(cat "$work/got")" = "$(refused 5 16)" ]
count $? 'standard input in two parts'

# ---- names

mkdir "$work/names"
for name in 'two words' "a${nl}b" -x -- 'Æ – ö' "it's" '"q"' '$(id)' '*' 'back\slash' ' ' "$nl"; do
    cp worked.xmf "$work/names/$name"
    python3 - "$name" >"$work/wanted" <<'END'
import os
import sys

name = os.fsencode(sys.argv[1])
shown = "".join(chr(b) if 32 <= b < 127 and b != 92 else f"\\{b:02x}" for b in name)
print(f"ok\t2.00\t56\t{shown}")
END
    run sh -c 'cd "$1" && "$2" check -- "$3"' sh "$work/names" "$xmf" "$name"
    judge "the name '$name'" '' 0
    # as NEW, from another folder and through a link
    : >"$work/wanted"
    run sh -c 'cd "$1" && "$2" title two\ words 0 Hello -o "./new$3"' sh "$work/names" "$xmf" "$name"
    judge "NEW is '$name'" "$changed" 0
    cmp -s "$work/hello" "$work/names/new$name"
    count $? "NEW is '$name', what is in it"
done
run sh -c 'cd "$1" && "$2" title -o -y -- -x 0 Hello' sh "$work/names" "$xmf"
judge 'NEW is -y' "$changed" 0
cmp -s "$work/hello" "$work/names/-y"
count $? 'NEW is -y, what is in it'
mkdir "$work/links" "$work/links/deep"
ln -s "$xmf" "$work/links/xmf"
ln -s ../xmf "$work/links/deep/other"
ln -s deep/other "$work/links/third"
echo "ok${tab}2.00${tab}56${tab}worked.xmf" >"$work/wanted"
for link in xmf deep/other third; do
    run "$work/links/$link" check worked.xmf
    judge "the link $link" '' 0
done
run env PATH="$work/links:$PATH" xmf check worked.xmf
judge 'a link on the PATH' '' 0
run sh -c 'cd "$1" && sh xmf check samples/worked.xmf' sh "$root"
sed -i 's/worked/samples\/worked/' "$work/wanted"
judge 'sh xmf' '' 0
[ "$(find "$work/links" | wc -l)" -eq 5 ]
count $? 'nothing is made beside a link'

# ---- many files

i=0
while [ "$i" -lt 1000 ]; do
    printf '../samples/../samples/worked.xmf '
    i=$((i + 1))
done >"$work/thousand"
# shellcheck disable=SC2046
run "$xmf" check $(cat "$work/thousand")
[ "$status" -eq 0 ] && [ "$(sort "$work/got" | uniq -c | tr -s ' ')" = " 1000 ok${tab}2.00${tab}56${tab}../samples/../samples/worked.xmf" ]
count $? 'a thousand files'
# shellcheck disable=SC2046
run "$xmf" verdict -q $(cat "$work/thousand") cut.xmf
[ "$status" -eq 2 ]
count $? 'a thousand files, the status alone'
{ printf 'files~1000\nrefused~0\n' && kinds 21000 6000 17000 4000 2000 2000 2000 2000 0 56000; } | sed "s/~/$tab/g" >"$work/wanted"
# shellcheck disable=SC2046
run "$xmf" bytes --sum $(cat "$work/thousand")
judge 'bytes --sum, a thousand files' '' 0
printf 'R\t32\t0\n' >"$work/wanted"
# shellcheck disable=SC2046
run "$xmf" bytes --sum $(cat "$work/thousand") cut.xmf
judge 'bytes --sum, 1,001 files' '' 2

# ---- an installed layout with a stand-in for the program, which tells how it is run or fails

mkdir -p "$work/stand/bin" "$work/stand/libexec/xmf" "$work/stand/share"
cp "$xmf" "$work/stand/bin/xmf"
ln -s "$root/share" "$work/stand/share/xmf"
stand=$work/stand/libexec/xmf/xmf
stand_in() { # COMMANDS
    printf '#!/bin/sh\n%s\n' "$1" >"$stand"
    chmod 755 "$stand"
    run "$work/stand/bin/xmf" check worked.xmf
}
stand_in "echo run >>'$work/runs'; exec '$root/target/bin/xmf' \"\$@\""
# shellcheck disable=SC2046
run "$work/stand/bin/xmf" check $(head -c 6600 "$work/thousand")
[ "$status" -eq 0 ] && [ "$(wc -l <"$work/got")" -eq 200 ] && [ "$(wc -l <"$work/runs")" -eq 2 ]
count $? '200 files in one process'
whole() { # NAME
    [ "$status" -eq 1 ] && grep -q '^xmf: the answer is not whole' "$work/error"
    count $? "$1"
}
stand_in 'exit 0' && whole 'a program that says nothing'
stand_in 'echo ok' && whole 'a program without a digit'
stand_in 'printf 0 >&3; exit 1' && whole 'a program that fails after its digit'
stand_in 'printf 0 >&3; kill -9 $$' && whole 'a program that is killed after its digit'
stand_in 'printf 00 >&3' && whole 'a program with two digits'
stand_in 'printf 4 >&3' && whole 'a program with another digit'
stand_in 'kill -9 $$' && whole 'a program that is killed'
rm "$stand"
run "$work/stand/bin/xmf" check worked.xmf
whole 'no program'
stand_in 'printf "R\t5\t16\tx\n"; printf 2 >&3; exit 0'
[ "$status" -eq 2 ]
count $? 'the digit is the status'

# ---- what cannot be written: no status 0 without the whole answer

# Each command with room for k bytes, for k below what it writes (all of them, or about 40 of 70 and more); at that many it is 0 and whole. RLIMIT_FSIZE makes a write past k fail; the
# signal is ignored, so that the write itself answers (EFBIG). With -o the same of NEW, of which nothing may be left, nor of a temporary file.
python3 - "$xmf" "$work" >"$work/room" <<'END'
import os
import resource
import signal
import subprocess
import sys

xmf, work = sys.argv[1:]
folder = os.path.join(work, "room.d")
os.mkdir(folder)
new = os.path.join(folder, "new")
out = os.path.join(work, "room.out")
commands = [
    ["sheet", "cut.xmf"], ["sheet", "worked.xmf"], ["sheet", "-H", "worked.xmf", "cut.xmf"], ["check", "worked.xmf", "cut.xmf"],
    ["check", "-v", "cut.xmf"], ["show", "worked.xmf"], ["why", "8"], ["why", "11"], ["rows", "worked.xmf"], ["verdict", "mobile.xmf"],
    ["find", "folders.xmf", "2", "S", "9"], ["resolve", "detached.xmf", "3"], ["needs", "mobile.xmf"], ["title", "worked.xmf"],
    ["sheet", "-2", "worked.xmf"], ["reorder", work + "/second"], ["bytes", "mobile.xmf"], ["bytes", "-l", "mobile.xmf", "cut.xmf"],
    ["bytes", "--sum", "mobile.xmf", "cut.xmf"], ["bytes", "--chart", "mobile.xmf"], ["bytes", "--runs", "mobile.xmf"], ["map", "mobile.xmf", "-o", "-"], ["id3", "id3.xmf", "0"], ["id3", "--tag", work + "/tag"],
    ["extract", "mobile.xmf", "1", "-o", "-"], ["title", "worked.xmf", "0", "Hello", "-o", "-"], ["mend", "mendable.xmf"], ["mend", "mendable.xmf", "-o", "-"], ["to-utf8", work + "/units"],
    ["to-utf16", work + "/text"], ["help"], ["help", "sheet"], ["--version"],
]
made = [["extract", "mobile.xmf", "1", "-o", new], ["title", "worked.xmf", "0", "Hello", "-o", new], ["map", "worked.xmf", "-o", new], ["mend", "mendable.xmf", "-o", new]]


def ask(words, k):
    def limit():
        signal.signal(signal.SIGXFSZ, signal.SIG_IGN)
        resource.setrlimit(resource.RLIMIT_FSIZE, (k, resource.RLIM_INFINITY))

    with open(out, "wb") as file:
        done = subprocess.run([xmf, *words], stdout=file, stderr=subprocess.PIPE, stdin=subprocess.DEVNULL, preexec_fn=limit)
    return done.returncode, open(out, "rb").read(), done.stderr


def some(size):
    return range(size) if size < 70 else sorted({*range(0, size, size // 40), size - 1})


for words in commands:
    status, whole, _ = ask(words, resource.RLIM_INFINITY)
    bad = [k for k in some(len(whole)) if (got := ask(words, k))[0] != 1 or not got[2].startswith(b"xmf: ") or not whole.startswith(got[1])]
    if not whole or status not in (0, 2) or bad or ask(words, len(whole))[:2] != (status, whole):
        print("not whole:", *words, status, bad)
for words in made:
    ask(words, resource.RLIM_INFINITY)
    whole = open(new, "rb").read()
    os.remove(new)
    for k in some(len(whole)) if words[0] == "map" else range(len(whole)):
        status, _, error = ask(words, k)
        if status != 1 or not error.endswith(b"xmf: " + os.fsencode(new) + b": not made\n") or os.listdir(folder):
            print("NEW with room for", k, *words, status, error, os.listdir(folder))
    if ask(words, len(whole))[0] != 0 or open(new, "rb").read() != whole:
        print("NEW with room for all", *words)
    os.remove(new)
print("tried")
END
[ "$(cat "$work/room")" = tried ]
count $? "room for k bytes: $(cat "$work/room")"

if [ -c /dev/full ]; then
    for words in 'sheet worked.xmf' 'sheet cut.xmf' 'check worked.xmf' 'check -v cut.xmf' 'show worked.xmf' 'why 8' 'rows worked.xmf' 'verdict mobile.xmf' 'find folders.xmf 2 S 9' \
        'resolve detached.xmf 3' 'needs mobile.xmf' 'sheet -2 worked.xmf' 'bytes mobile.xmf' 'bytes -l mobile.xmf' 'bytes --sum mobile.xmf' 'bytes --chart mobile.xmf' 'bytes --runs mobile.xmf' 'map mobile.xmf -o -' 'id3 id3.xmf 0' 'title worked.xmf' 'title worked.xmf 0 x -o -' 'mend mendable.xmf' 'mend mendable.xmf -o -' 'extract mobile.xmf 1 -o -' help 'help sheet' --version; do
        # shellcheck disable=SC2086
        "$xmf" $words >/dev/full 2>"$work/error"
        [ $? -eq 1 ] && [ -s "$work/error" ]
        count $? "/dev/full: $words"
    done
fi
for words in 'sheet worked.xmf' 'show worked.xmf' 'why 8' help; do
    # shellcheck disable=SC2086
    "$xmf" $words >&- 2>"$work/error"
    [ $? -eq 1 ] && [ "$(cat "$work/error")" = 'xmf: standard output is closed' ]
    count $? "standard output is closed: $words"
done
# a pipe that nobody reads: quiet, 141; with the signal ignored it is an error
python3 - "$xmf" <<'END'
import os
import signal
import subprocess
import sys


def ask(words, restore=True):
    ours, theirs = os.pipe()
    os.close(ours)
    done = subprocess.run([sys.argv[1], *words], stdout=theirs, stderr=subprocess.PIPE, stdin=subprocess.DEVNULL, restore_signals=restore)
    os.close(theirs)
    return done.returncode, done.stderr


for words in (["sheet", "worked.xmf"], ["show", "worked.xmf"], ["check", "-v", "cut.xmf"], ["title", "worked.xmf", "0", "x", "-o", "-"]):
    if ask(words) != (141, b""):
        sys.exit(f"{words}: {ask(words)}")
signal.signal(signal.SIGPIPE, signal.SIG_IGN)
for words in (["sheet", "worked.xmf"], ["title", "worked.xmf", "0", "x", "-o", "-"]):
    status, error = ask(words, False)
    if status != 1 or not error.startswith(b"xmf: "):
        sys.exit(f"{words}, ignored: {status} {error}")
END
count $? 'a pipe that nobody reads'

# ---- NEW

cp worked.xmf "$work/own"
ask_none 1 "xmf: $work/own: File exists" title "$work/own" 0 Hello -o "$work/own"
ln -s nowhere "$work/dangling"
ask_none 1 "xmf: $work/dangling: File exists" title "$work/own" 0 Hello -o "$work/dangling"
run "$xmf" title "$work/own" 0 Hello -o "$work/no/new"
[ "$status" -eq 1 ] && grep -q '^xmf: .*: No such file or directory$' "$work/error" && grep -qx "xmf: $work/no/new: not made" "$work/error"
count $? 'NEW in no folder'
cmp -s "$work/own" worked.xmf && [ ! -e "$work/nowhere" ]
count $? 'a file that is there is as it was'
for to in '>>' '1<>'; do
    sh -c "\"\$1\" title \"\$2\" 0 Hello -o - $to\"\$2\"" sh "$xmf" "$work/own" 2>"$work/error"
    [ $? -eq 1 ] && cmp -s "$work/own" worked.xmf && [ "$(cat "$work/error")" = 'xmf: standard output is the file itself: nothing was written' ]
    count $? "standard output is the file itself, $to"
done
"$xmf" title - 0 Hello -o - <"$work/own" >>"$work/own" 2>"$work/error"
[ $? -eq 1 ] && cmp -s "$work/own" worked.xmf
count $? 'standard output is the file on standard input'
ask_none 0 "$changed" title "$work/own" 0 Hello -f -o "$work/own"
cmp -s "$work/own" "$work/hello"
count $? '-f over the file itself'
ln -s own "$work/link"
for name in "$work/link" "$work" /dev/null "$work/fifo" "$work/dangling"; do
    ask_none 1 "xmf: $name: not a regular file: nothing was written" title worked.xmf 0 Hello -f -o "$name"
done
[ -c /dev/null ] && [ -h "$work/link" ] && [ -p "$work/fifo" ]
count $? '-f leaves what is no regular file'

# two at once: one makes NEW, and it is whole
i=0
while [ "$i" -lt 20 ]; do
    rm -f "$work/race"
    "$xmf" title worked.xmf 0 Hello -o "$work/race" 2>/dev/null &
    one=$!
    "$xmf" title worked.xmf 0 Hello -o "$work/race" 2>/dev/null
    two=$?
    wait "$one"
    echo "$(($? + two))"
    cmp -s "$work/race" "$work/hello" || echo differs
    i=$((i + 1))
done | sort -u >"$work/statuses"
[ "$(cat "$work/statuses")" = 1 ] && [ "$(find "$work" -name 'race*' | wc -l)" -eq 1 ]
count $? 'two runs at once for one NEW'

# killed at many moments, the script with all that it runs or the program alone: NEW is not there, or whole
python3 - "$xmf" "$work" >"$work/kills" <<'END'
import os
import random
import signal
import subprocess
import sys
import time

xmf, work = sys.argv[1:]
folder = os.path.join(work, "killed")
os.mkdir(folder)
new = os.path.join(folder, "new")
words = [xmf, "title", "worked.xmf", "0", "a" * 60000, "-o", new]
began = time.time()
subprocess.run(words, stderr=subprocess.DEVNULL, check=True)
took = time.time() - began
whole = open(new, "rb").read()


def last(pid):
    """The child of the child, and so on."""
    try:
        below = open(f"/proc/{pid}/task/{pid}/children").read().split()
    except OSError:
        return pid
    return last(int(below[0])) if below else pid


random.seed(1)
seen = {True: 0, False: 0}
for turn in range(300):
    for name in os.listdir(folder):
        os.remove(os.path.join(folder, name))
    process = subprocess.Popen(words, stderr=subprocess.DEVNULL, start_new_session=True)
    time.sleep(random.random() * took * 1.3)
    try:
        if turn % 2:
            os.killpg(process.pid, signal.SIGKILL)
        else:
            os.kill(last(process.pid), signal.SIGKILL)
    except ProcessLookupError:
        pass
    status = process.wait()
    there = os.path.exists(new)
    seen[there] += 1
    if there and open(new, "rb").read() != whole or status == 0 and not there:
        print("half a file under NEW, or none and status 0", turn, status, os.path.getsize(new) if there else None)
if min(seen.values()) < 20:
    print("the kills came too early or too late", seen)
print("tried")
END
[ "$(cat "$work/kills")" = tried ]
count $? "killed while NEW is made: $(cat "$work/kills")"

# ---- full folders, and folders that may not be written to

if [ "$(id -u)" -eq 0 ] && mkdir "$work/disk" && mount -t tmpfs -o size=16k tmpfs "$work/disk" 2>/dev/null; then
    dd if=/dev/zero of="$work/disk/full" bs=1k count=64 2>/dev/null
    run "$xmf" title worked.xmf 0 Hello -o "$work/disk/new"
    [ "$status" -eq 1 ] && grep -q '^xmf: .*: No space left on device$' "$work/error" && grep -qx "xmf: $work/disk/new: not made" "$work/error" && [ "$(ls "$work/disk")" = full ]
    count $? 'a full disk at NEW: nothing is left'
    "$xmf" sheet worked.xmf >"$work/disk/out" 2>"$work/error"
    [ $? -eq 1 ] && [ -s "$work/error" ]
    count $? 'a full disk at standard output'
    rm "$work/disk/out"
    # a full TMPDIR changes nothing
    "$xmf" sheet worked.xmf >"$work/wanted"
    run env TMPDIR="$work/disk" "$xmf" sheet worked.xmf
    judge 'a full TMPDIR, sheet' '' 0
    cp "$work/hello" "$work/wanted"
    run env TMPDIR="$work/disk" "$xmf" title worked.xmf 0 Hello -o -
    judge 'a full TMPDIR, title' "$changed" 0
    run env TMPDIR="$work/disk" "$root/title" worked.xmf 0 Hello
    judge 'a full TMPDIR, ./title' "old title: Hi${nl}new title: Hello${nl}old length: 56${nl}new length: 59" 0
    "$xmf" show mobile.xmf >"$work/wanted"
    run env TMPDIR="$work/disk" "$xmf" show mobile.xmf
    judge 'a full TMPDIR, show' '' 0
    run env TMPDIR="$work/disk" "$xmf" show - <mobile.xmf
    judge 'a full TMPDIR, show of standard input' '' 0
    if [ -f "$root/target/staticlib/libcapi.a" ]; then
        run "$root/install" "$work/disk/prefix"
        [ "$status" -eq 1 ] && [ -s "$work/error" ] && [ -z "$(find "$work/disk" -type f ! -name full)" ]
        count $? 'a full disk at an installation: no half of a file is left'
    fi
    rm "$work/disk/full"
    ask_none 0 "$changed" title worked.xmf 0 Hello -o "$work/disk/new"
    umount "$work/disk"
else
    echo 'not tried: a full disk (needs root and mount)'
fi
other() { setpriv --reuid 65534 --regid 65534 --clear-groups "$@"; } # COMMAND..
if [ "$(id -u)" -eq 0 ] && command -v setpriv >/dev/null; then
    cp worked.xmf "$work/secret" && chmod 600 "$work/secret"
    : >"$work/wanted"
    run other "$xmf" sheet "$work/secret"
    judge 'another user, no permission' "xmf: $work/secret: Permission denied" 1
    cp worked.xmf "$work/open" && chmod 644 "$work/open"
    run other "$xmf" title "$work/open" 0 Hello -o "$work/new-of-other"
    [ "$status" -eq 1 ] && grep -q '^xmf: .*: Permission denied$' "$work/error"
    count $? 'another user, a folder that is not his'
    "$xmf" sheet worked.xmf >"$work/wanted"
    run other "$xmf" sheet worked.xmf
    judge 'another user, the repository' '' 0
else
    echo 'not tried: another user (needs root and setpriv)'
fi

# ---- builds, in a copy with a stand-in for the prover

make_copy xmf
crates=$(crates_of xmf)
run_copy() {
    run copied "$copy/xmf" sheet worked.xmf
    untimed
}
"$xmf" sheet worked.xmf >"$work/wanted"
run_copy
judge 'the first use' "$(building target/bin/xmf "$crates" 'target/bin/xmf is not there' xmf)" 0
run_copy
judge 'the second use' '' 0
echo '// changed' >>"$copy/crates/tree/src/lib.rt"
on_terminal env PATH="$work/bin:$PATH" "$copy/xmf" check worked.xmf
[ "$status" -eq 0 ] && grep -q "$(printf '\r')xmf: proving tree, 1 of [0-9]*, about [0-9]* [a-z]* left" "$work/got" && [ "$(grep -c proving "$work/got")" -eq 1 ]
count $? 'a build on a terminal is one line that is redrawn'
for command in 'why 8' help --version; do
    rm -f "$work/calls"
    # shellcheck disable=SC2086
    copied "$copy/xmf" $command >/dev/null && [ ! -e "$work/calls" ]
    count $? "no build for $command"
done
echo '// changed' >>"$copy/crates/xmf/src/main.rt"
touch -d 2001-01-01 "$copy/crates/xmf/src/main.rt"
run_copy
judge 'a changed source with an old time' "$(building target/bin/xmf xmf 'crates/xmf/src/main.rt is newer than target/bin/xmf' xmf)" 0
cp -p ../README.md "$copy/crates/answers/src/lib.rt"
run_copy
judge 'cp -p' "$(building target/bin/xmf "$(crates_of xmf answers)" 'crates/answers/src/lib.rt is newer than target/bin/xmf' xmf)" 0
if [ "$(id -u)" -eq 0 ] && command -v setpriv >/dev/null; then
    cp worked.xmf "$copy/samples" && chmod -R a-w "$copy"
    run other env PATH="$work/bin:$PATH" "$copy/xmf" sheet "$copy/samples/worked.xmf"
    judge 'a read-only repository, another user' '' 0
    echo '// changed' >>"$copy/crates/xmf/src/main.rt"
    : >"$work/wanted"
    run other env PATH="$work/bin:$PATH" "$copy/xmf" sheet "$copy/samples/worked.xmf"
    [ "$status" -eq 1 ] && grep -q ", and you may not write to $copy/target: $(id -un) has to run $copy/tools/build.sh xmf\$" "$work/error"
    count $? 'a read-only repository that is stale, another user'
fi

# ---- the installation

if [ -f "$root/target/staticlib/libcapi.a" ]; then
    prefix=$work/an\ installation
    installed=$prefix/bin/xmf
    run "$root/install" "$prefix"
    [ "$status" -eq 0 ] && [ ! -s "$work/got" ] && grep -q '^install: installed under ' "$work/error"
    count $? 'install'
    for file in bin/xmf libexec/xmf/xmf lib/libxmf.a include/xmf.h lib/pkgconfig/xmf.pc share/man/man1/xmf.1 share/man/man3/xmf.3 share/bash-completion/completions/xmf \
        share/zsh/site-functions/_xmf share/xmf/refusals.tsv share/xmf/show.awk share/xmf/VERSION share/xmf/FILES share/doc/xmf/README.md; do
        [ -r "$prefix/$file" ] || echo "$file"
    done >"$work/absent"
    [ ! -s "$work/absent" ]
    count $? "installed files: $(cat "$work/absent")"
    : >"$work/wanted"
    run "$root/install" --check "$prefix"
    judge 'install --check' '' 0
    # the same answers, with no rt, from a place that is read-only, by every user
    mkdir "$work/usual"
    for command in sh awk cat cmp env dirname head ln mktemp mv readlink rm sync; do ln -s "$(command -v "$command")" "$work/usual"; done
    chmod -R a-w "$prefix"
    user=
    if [ "$(id -u)" -eq 0 ] && command -v setpriv >/dev/null; then user=other; fi
    for words in 'sheet worked.xmf' 'sheet cut.xmf' 'check worked.xmf cut.xmf' 'show mobile.xmf' 'why 11' 'rows worked.xmf' 'verdict worked.xmf' 'find folders.xmf 2 S 9' 'resolve detached.xmf 3' \
        'needs mobile.xmf' 'sheet -2 folders.xmf' 'bytes mobile.xmf' 'bytes --sum --chart mobile.xmf cut.xmf' 'bytes --runs mobile.xmf' 'map mobile.xmf -o -' 'map cut.xmf -o -' 'id3 id3.xmf 0' 'id3 id3.xmf 1' 'id3 --hidden id3.xmf 1' 'title worked.xmf' 'extract mobile.xmf 1 -o -' 'title worked.xmf 0 Hello -o -' help 'help title'; do
        # shellcheck disable=SC2086
        {
            "$xmf" $words >"$work/wanted" 2>"$work/error.wanted"
            wanted=$?
            run $user env PATH="$work/usual" "$installed" $words
        }
        judge "installed: $words" "$(cat "$work/error.wanted")" "$wanted"
    done
    "$xmf" --version >"$work/wanted"
    run $user env PATH="$work/usual" "$installed" --version
    judge 'installed: --version' '' 0
    ln -s "$installed" "$work/links/installed"
    "$xmf" sheet worked.xmf >"$work/wanted"
    run "$work/links/installed" sheet worked.xmf
    judge 'installed: a link' '' 0
    chmod -R u+w "$prefix"
    if command -v gcc >/dev/null; then
        # only xmf_* is visible; a program in C over each library answers as the command does
        nm -D --defined-only "$prefix/lib/libxmf.so.0" | awk '{ print $3 }' | grep -v '^xmf_' >"$work/visible"
        [ ! -s "$work/visible" ] && [ "$(nm -D --defined-only "$prefix/lib/libxmf.so.0" | wc -l)" -ge 10 ]
        count $? 'only xmf_* is visible in libxmf.so.0'
        for library in lib/libxmf.a lib/libxmf.so.0; do
            gcc -std=c11 -O2 -Wall -Wextra -Werror -I "$prefix/include" "$root/examples/c/print_sheet.c" "$prefix/$library" -o "$work/print_sheet"
            run env LD_LIBRARY_PATH="$prefix/lib" "$work/print_sheet" worked.xmf
            judge "$library" '' 0
        done
        if command -v pkg-config >/dev/null; then
            pkg-config --with-path="$prefix/lib/pkgconfig" --libs xmf 2>/dev/null | grep -q -e -lxmf
            count $? 'pkg-config'
        fi
    fi
    run "$root/install" "$prefix"
    [ "$status" -eq 0 ]
    count $? 'install again'
    echo x >>"$prefix/include/xmf.h"
    run "$root/install" --check "$prefix"
    [ "$status" -eq 1 ] && grep -q 'include/xmf.h' "$work/got"
    count $? 'install --check, a changed file'
    run env DESTDIR="$work/stage" "$root/install" /usr
    [ "$status" -eq 0 ] && [ -x "$work/stage/usr/bin/xmf" ] && grep -qx 'prefix=/usr' "$work/stage/usr/lib/pkgconfig/xmf.pc"
    count $? 'install, DESTDIR'
    : >"$work/wanted"
    run "$root/install" --remove "$prefix"
    judge 'install --remove' '' 0
    find "$prefix" ! -type d >"$work/left"
    [ ! -s "$work/left" ] && [ ! -d "$prefix/share/xmf" ] && [ ! -d "$prefix/libexec/xmf" ]
    count $? "install --remove leaves nothing: $(cat "$work/left")"
    run "$root/install" --remove "$prefix"
    judge 'install --remove again' "install: $prefix/share/xmf/FILES is not there: nothing is installed under $prefix" 1
    run "$root/install" here
    judge 'install, no whole path' 'install: PREFIX is a whole path, such as /usr/local' 1
else
    echo 'not tried: the installation (needs target/staticlib/libcapi.a: tools/build.sh capi)'
fi

# ---- time: the fastest of 100 calls; it is not judged where other work leaves no processor free

python3 - "$xmf" <<'END'
import os
import subprocess
import sys
import time

times = []
for _ in range(100):
    began = time.perf_counter()
    subprocess.run([sys.argv[1], "sheet", "worked.xmf"], stdout=subprocess.DEVNULL, stdin=subprocess.DEVNULL, check=True)
    times.append(time.perf_counter() - began)
times.sort()
load = os.getloadavg()[0]
print(f"a call: fastest {times[0] * 1000:.1f} ms, median {times[50] * 1000:.1f} ms, at a load of {load:.1f} on {os.cpu_count()} processors")
sys.exit(times[0] > 0.012 and load < os.cpu_count())
END
count $? 'a call takes more than 12 ms'

summary
