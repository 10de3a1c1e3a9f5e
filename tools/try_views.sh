#!/bin/sh
# Tries the views of the account of a file's bytes: share/chart.awk (bars) and share/map.awk (a picture). Status 0 only if every try went well.
set -u
root=$(CDPATH='' cd -- "$(dirname -- "$0")/.." && pwd -P) || exit 1
work=$(mktemp -d) || exit 1
trap 'rm -rf "$work"' EXIT
failed=0

# expect WHAT: the status of the command before it must be 0
expect() {
    if [ "$2" -eq 0 ]; then
        echo "ok: $1"
    else
        echo "FAILED: $1" >&2
        failed=1
    fi
}

# the counts and the runs of samples/mobile.xmf
printf '%s\t%s\n' 'file header' 21 'node frames' 6 'metadata frames' 12 'visible data' 9 'hidden data' 0 'unpackers' 2 'references' 2 'inline resources' 63 'all else' 0 'total' 115 >"$work/bytes"
printf 'K\t%s\t%s\t%s\n' 0 21 'file header' 21 3 'node frames' 24 1 'metadata frames' 25 1 'unpackers' 26 1 'references' 27 3 'node frames' 30 6 'metadata frames' \
    36 2 'visible data' 38 5 'metadata frames' 43 7 'visible data' 50 1 'unpackers' 51 1 'references' 52 63 'inline resources' >"$work/runs"

cat >"$work/expected" <<'END'
file header             21  18.3 % ███████
node frames              6   5.2 % ██
metadata frames         12  10.4 % ████
visible data             9   7.8 % ███
hidden data              0   0.0 %
unpackers                2   1.7 % ▌
references               2   1.7 % ▌
inline resources        63  54.8 % █████████████████████▌
all else                 0   0.0 %
total                  115
END
awk -v utf8=1 -f "$root/share/chart.awk" "$work/bytes" | cmp -s - "$work/expected"
expect 'bars' $?
awk -v utf8=0 -f "$root/share/chart.awk" "$work/bytes" | sed 's/█/x/' | grep -q '^inline resources        63  54.8 % #####################$'
expect 'bars without blocks' $?
printf 'files\t2\nrefused\t2\n%s\t0\ntotal\t0\nR\t5\t16\n' 'file header' | awk -v utf8=1 -f "$root/share/chart.awk" >"$work/none" && grep -q '^file header              0   0.0 %$' "$work/none" && grep -q '^R	5	16$' "$work/none"
expect 'a sum of no bytes, and a refusal' $?

NAME='a <b> & c' LC_ALL=C awk -f "$root/share/map.awk" "$work/runs" >"$work/map.svg"
expect 'a picture' $?
# a run's rectangles are as wide as it has places, ten a place, and together they are the file
grep '^<rect x="[0-9]*" y="[0-9]*" width="[0-9]*" height="14"/>$' "$work/map.svg" | sed 's/.*width="\([0-9]*\)".*/\1/' | awk '{ s += $1 } END { exit s != 1150 }'
expect 'its rectangles add up to the file' $?
# no rectangle lies over another, or past a row's end
grep '^<rect x="[0-9]*" y="[0-9]*" width="[0-9]*" height="14"/>$' "$work/map.svg" | sed 's/[^0-9]*\([0-9]*\)[^0-9]*\([0-9]*\)[^0-9]*\([0-9]*\).*/\1 \2 \3/' |
    awk '{ for (x = $1; x < $1 + $3; x += 10) if (seen[$2, x]++ || x < 64 || x >= 704) bad = 1 } END { exit bad }'
expect 'no rectangle lies over another' $?
grep -q '<title>places 52 to 114: inline resources, 63 bytes</title>' "$work/map.svg" && grep -q '>a &lt;b&gt; &amp; c: 115 bytes, 64 a row<' "$work/map.svg"
expect 'titles, and a name with signs' $?
NAME=$(printf 'a\357\277\277b') LC_ALL=C awk -f "$root/share/map.awk" "$work/runs" | grep -q '>a?b: 115 bytes, 64 a row<'
expect 'a name with what XML has not' $?
# the nine colours as readers see them who have all kinds of cones, or lack one (matrices of Machado, Oliveira and Fernandes 2009): no two nearer than 15 in CIE L*a*b*
sed -n 's/.*split("\(#[^"]*\)", colours.*/\1/p' "$root/share/map.awk" | awk '
    function hex(h) { return (index("0123456789ABCDEF", substr(h, 1, 1)) - 1) * 16 + index("0123456789ABCDEF", substr(h, 2, 1)) - 1 }
    function linear(c) { c /= 255; return c <= 0.04045 ? c / 12.92 : exp(2.4 * log((c + 0.055) / 1.055)) }
    function within(c) { return c < 0 ? 0 : c > 1 ? 1 : c }
    function root3(t) { return t > 0.008856 ? exp(log(t) / 3) : 7.787 * t + 16 / 116 }
    function see(i, m, r, g, b, x, y, z) {
        r = within(m[1] * red[i] + m[2] * green[i] + m[3] * blue[i])
        g = within(m[4] * red[i] + m[5] * green[i] + m[6] * blue[i])
        b = within(m[7] * red[i] + m[8] * green[i] + m[9] * blue[i])
        x = root3((0.4125 * r + 0.3576 * g + 0.1804 * b) / 0.9505)
        y = root3(0.2127 * r + 0.7152 * g + 0.0722 * b)
        z = root3((0.0193 * r + 0.1192 * g + 0.9503 * b) / 1.0888)
        light[i] = 116 * y - 16
        across[i] = 500 * (x - y)
        down[i] = 200 * (y - z)
    }
    { n = split($0, colour, ",") }
    END {
        for (i = 1; i <= n; i++) {
            red[i] = linear(hex(substr(colour[i], 2, 2)))
            green[i] = linear(hex(substr(colour[i], 4, 2)))
            blue[i] = linear(hex(substr(colour[i], 6, 2)))
        }
        eye[1] = "1 0 0 0 1 0 0 0 1"
        eye[2] = "0.152286 1.052583 -0.204868 0.114503 0.786281 0.099216 -0.003882 -0.048116 1.051998"
        eye[3] = "0.367322 0.860646 -0.227968 0.280085 0.672501 0.047413 -0.011820 0.042940 0.968881"
        eye[4] = "1.255528 -0.076749 -0.178779 -0.078411 0.930809 0.147602 0.004733 0.691367 0.303900"
        least = 1000
        for (e = 1; e <= 4; e++) {
            split(eye[e], m, " ")
            for (i = 1; i <= n; i++) see(i, m)
            for (i = 1; i <= n; i++)
                for (k = 1; k < i; k++) {
                    d = sqrt((light[i] - light[k]) ^ 2 + (across[i] - across[k]) ^ 2 + (down[i] - down[k]) ^ 2)
                    if (d < least) least = d
                }
        }
        exit n != 9 || least < 15
    }'
expect 'nine colours that a colour-blind reader tells apart' $?
for line in 'K	1	3	node frames' 'K	0	0	node frames' 'K	0	3	tokens' 'R	5	16' ''; do
    printf '%s\n' "$line" | LC_ALL=C awk -f "$root/share/map.awk" >"$work/out"
    [ $? -eq 1 ] && [ ! -s "$work/out" ]
    expect "no picture of '$line'" $?
done
exit "$failed"
