#!/bin/sh
# Builds the examples, runs them on samples and compares what they print: in C, in C++, and against an installed copy that pkg-config finds
# (with each of libxmf.a and libxmf.so.0). empty, structs and words try what the header promises; the example in the header is run too.
# If the archive or the command xmf is not there, or older than its sources, it is built first, which takes some minutes.
set -eu

here=$(CDPATH='' cd -- "$(dirname -- "$0")" && pwd -P)
root=$(CDPATH='' cd -- "$here/../.." && pwd -P)
archive=$root/target/staticlib/libcapi.a
samples=$root/samples
out=$root/target/examples
warnings='-Wall -Wextra -Wpedantic -Wshadow -Werror'

"$root/tools/build.sh" capi
mkdir -p "$out"

fail() {
    echo "$1" >&2
    exit 1
}

# compare NAME STATUS COMMAND..: what it prints on standard output must be standard input, and its status the given one.
compare() {
    name=$1 wanted=$2
    shift 2
    cat >"$out/expected"
    status=0
    "$@" >"$out/printed" 2>"$out/said" || status=$?
    if [ "$status" -ne "$wanted" ] || ! cmp "$out/expected" "$out/printed"; then
        cat "$out/printed" "$out/said" >&2
        fail "$name: differs (status $status)"
    fi
}

lines() { # of the sheet of worked.xmf, with a title
    printf 'XMF\t2.00\t%s\t2\t3\n' "$2"
    printf 'N\t0\t0\t1\t1\t27\t%s\n' "$3"
    printf 'N\t1\t0\t2\t1\t%s\t2\n' "$4"
    printf 'M\t1\tC\ta\t0\t0\t%s\n' "$1"
    printf 'M\t1\tS\t3\t0\t6\t\\00\\00\n'
}

# examples WHAT COMPILER..: builds sheet, verdict, extract and title, and runs them.
examples() {
    what=$1
    shift
    for program in sheet verdict extract title; do
        # shellcheck disable=SC2086
        "$@" $warnings -o "$out/$program" $language "$here/$program.c" $plain $libraries
    done
    lines Hi 56 29 54 | compare "$what: sheet" 0 "$out/sheet" "$samples/worked.xmf"
    compare "$what: sheet, refused" 2 "$out/sheet" "$samples/cut.xmf" </dev/null
    grep -q '(5 at 16)$' "$out/said" || fail "$what: sheet does not say why"
    printf 'version 2.00, nodes 2, items 3\nnot Mobile XMF: check 7 fails\n' | compare "$what: verdict" 3 "$out/verdict" "$samples/worked.xmf"
    printf 'version 2.00, nodes 2, items 2\nMobile XMF\n' | compare "$what: verdict, mobile" 0 "$out/verdict" "$samples/mobile.xmf"
    tail -c 63 "$samples/mobile.xmf" | compare "$what: extract" 0 "$out/extract" "$samples/mobile.xmf" 1
    compare "$what: extract, a folder" 2 "$out/extract" "$samples/mobile.xmf" 0 </dev/null
    "$out/title" "$samples/worked.xmf" 0 Hello >"$out/hello.xmf"
    lines Hello 59 32 57 | compare "$what: title" 0 "$out/sheet" "$out/hello.xmf"
    "$out/title" "$out/hello.xmf" 0 Hi | compare "$what: title, back" 0 cat "$samples/worked.xmf"
    compare "$what: title, hidden" 2 "$out/title" "$samples/worked.xmf" 1 Hello </dev/null
    "$out/title" "$samples/unicode.xmf" 2 'Fähre' >"$out/wide.xmf"
    "$out/sheet" "$out/wide.xmf" | grep -q "$(printf 'M\t0\tS\t9\t0\t2\tFähre')" || fail "$what: title, UTF-16"
    echo "$what: sheet, verdict, extract, title: as expected"
}

# ---- the archive, in C and in C++
language='' plain='' libraries=$archive
examples 'C99' gcc -std=c99 -O2 -I "$root/include"
if command -v g++ >/dev/null; then
    language='-x c++' plain='-x none'
    for standard in c++11 c++20; do examples "$standard" g++ "-std=$standard" -O2 -Wconversion -I "$root/include"; done
    language='' plain=''
else
    echo 'not tried: C++ (needs g++)'
fi

# ---- the functions of words; null pointers; each function with structs; C89
compile() { # PROGRAM STANDARD
    # shellcheck disable=SC2086
    gcc "-std=$2" -O2 $warnings -I "$root/include" "$here/$1.c" "$archive" -o "$out/$1"
}
compile print_sheet c11
lines Hi 56 29 54 | compare print_sheet 0 "$out/print_sheet" "$samples/worked.xmf"
printf 'R\t5\t16\n' | compare 'print_sheet, refused' 0 "$out/print_sheet" "$samples/cut.xmf"
echo 'print_sheet: as expected'
compile empty c11
"$out/empty" "$samples/worked.xmf"
compile structs c99
"$out/structs" "$samples"/*.xmf
compile words c89
printf '200\t2\t3\n' | compare words 0 "$out/words" "$samples/worked.xmf"
echo 'C89: the functions of words: as expected'

# ---- the example in the header
given() { "$2" <"$1"; } # FILE PROGRAM
sed -n '/^ \*   #include <stdio.h>$/,/^ \*   }$/s/^ \*   //p' "$root/include/xmf.h" >"$out/header.c"
[ "$(wc -l <"$out/header.c")" -eq 10 ] || fail 'the example in the header has not ten lines'
# shellcheck disable=SC2086
gcc -std=c99 -O2 $warnings -I "$root/include" "$out/header.c" "$archive" -o "$out/header"
lines Hi 56 29 54 | compare 'the example in the header' 0 given "$samples/worked.xmf" "$out/header"
echo 'the length in the header is not the number of bytes received' |
    compare 'the example in the header, refused' 2 given "$samples/cut.xmf" "$out/header"
echo 'the example in the header: as expected'

# ---- an installed copy
if command -v pkg-config >/dev/null && [ -f "$root/install" ]; then
    "$root/install" "$out/prefix" 2>"$out/said" || fail "$(cat "$out/said")"
    PKG_CONFIG_PATH=$out/prefix/lib/pkgconfig
    export PKG_CONFIG_PATH
    [ "$(pkg-config --modversion xmf)" = "$(cat "$root/share/version")" ] || fail 'pkg-config: another version'
    flags=$(pkg-config --cflags xmf)
    libraries=$(pkg-config --libs xmf)
    LD_LIBRARY_PATH=$out/prefix/lib${LD_LIBRARY_PATH:+:$LD_LIBRARY_PATH}
    export LD_LIBRARY_PATH
    # shellcheck disable=SC2086
    examples 'installed, libxmf.so.0' gcc -std=c99 -O2 $flags
    libraries="-Wl,-Bstatic $libraries -Wl,-Bdynamic"
    # shellcheck disable=SC2086
    examples 'installed, libxmf.a' gcc -std=c99 -O2 $flags
    "$root/install" --remove "$out/prefix"
else
    echo 'not tried: an installed copy (needs pkg-config, and ./install)'
fi
