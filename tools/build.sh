#!/bin/sh
# Builds what is not there, or not current: tools/build.sh xmf makes target/bin/xmf, which ./xmf runs; xmf_sheet makes target/bin/xmf_sheet,
# which ./sheet runs; capi makes target/staticlib/libcapi.a, which examples/c, rust/xmf and ./install use; so makes target/lib/libxmf.so.0 of
# that archive, which python/xmf.py uses. share/build.sh says how.
set -u

prefix=build
root=$(CDPATH='' cd -- "$(dirname -- "$0")/.." && pwd -P) || exit 1
. "$root/share/build.sh"
case ${1-} in
xmf | xmf_sheet | capi) built "$1" ;;
so)
    built capi || exit 1
    cd -- "$root" || exit 1
    shared=target/lib/libxmf.so.0
    if [ -f "$shared" ] && [ -z "$(find target/staticlib/libcapi.a share/build.sh -newer "$shared")" ]; then exit 0; fi
    { mkdir -p target/lib && built_shared "$shared.$$" && mv -f "$shared.$$" "$shared"; } || {
        rm -f "$shared.$$"
        built_say "$shared is not made"
        exit 1
    }
    ;;
*)
    built_say 'usage: tools/build.sh xmf, xmf_sheet, capi or so'
    exit 1
    ;;
esac
