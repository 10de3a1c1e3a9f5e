# shellcheck shell=sh disable=SC2094 # the temporary file is written, then read
# Sourced by xmf: the calls of the shelf. A call holds a lock on the folder of the shelf's file while it runs. The system takes the lock away when the call's
# processes have ended, however they end, and nothing is left in the folder. A shelf that is changed gets a new file in the place of the old one (crates/storage/src/replaced.rt).
case $#,$1 in
1,new | [45],put | 4,get | 4,drop) ;;
*) usage 'new; put DESK CALL BOAT [SHEET]; get DESK CALL BOAT; or drop DESK CALL BOAT' ;;
esac
has -s || shelf=${XMF_SHELF-}
[ -n "${shelf?}" ] || usage 'no shelf: -s SHELF, or its name in XMF_SHELF'
# the file itself, also where a link leads to it, by a name that is no option and not standard input
if [ -h "$shelf" ]; then shelf=$(readlink -f -- "$shelf") || fail "$(shown "$shelf"): no file stands behind this link"; fi
case $shelf in
/*) ;;
*) shelf=./$shelf ;;
esac

# A sheet that may be slow to come, from standard input or a pipe, is taken before the lock, into a file without a name.
sheet=${5--}
if [ "$1" = put ] && { [ "$sheet" = - ] || { [ -e "$sheet" ] && [ ! -f "$sheet" ] && [ ! -d "$sheet" ]; }; }; then
    spool=$(mktemp "${TMPDIR:-/tmp}/xmf-XXXXXX") || fail 'no temporary file for the sheet'
    exec 7>"$spool" 8<"$spool"
    rm -f -- "$spool"
    [ "$sheet" = - ] || exec <"$sheet"
    head -c 65537 >&7 || fail 'the sheet could not be kept until the shelf is free'
    exec <&8 7>&- 8<&-
    sheet=-
fi

command -v flock >/dev/null || fail 'flock (of util-linux) is not there: a shelf is not used without a lock'
folder=${shelf%/*}/
{ true 9<"$folder"; } 2>/dev/null || fail "$(shown "$shelf"): the folder is not there, or not readable"
exec 9<"$folder"
if [ "$1" = get ]; then flock -s 9; else flock 9; fi || fail "$(shown "$shelf"): the folder could not be locked"
if [ "$1" = new ]; then
    [ ! -e "$shelf" ] || fail "$(shown "$shelf"): File exists"
    give shelf new "$shelf"
fi
if [ -e "$shelf" ] && [ ! -f "$shelf" ]; then fail "$(shown "$shelf"): not a regular file"; fi
# a new file has the mode of the old one
mode=$(stat -c %a -- "$shelf" 2>/dev/null)
case $mode in
*[!0-7]* | '') mode=4096 ;;
*) mode=$((0$mode)) ;;
esac
if [ "$1" = put ]; then give shelf put "$shelf" "$mode" "$2" "$3" "$4" "$sheet"; fi
give shelf "$1" "$shelf" "$mode" "$2" "$3" "$4"
