# shellcheck shell=sh
# Sourced by xmf: how the program is run. `tell`, `view`, `give` and `make` end with the command's status.

# Runs the program and ends with its status, which is the digit that it writes to descriptor 3.
run() { # WORD..
    exec 4>&1
    status=$("${core?}" --status=3 "$@" 3>&1 >&4 4>&-)
    finish "$status,$?,0"
}
# The same through a filter, whose status counts as well.
view() { # FILTER WORD..
    filter=$1 paint='' utf8=''
    shift
    case ${color?} in
    always) paint=1 ;;
    auto) [ ! -t 1 ] || [ -n "${NO_COLOR-}" ] || [ "${TERM-dumb}" = dumb ] || paint=1 ;;
    esac
    case ${LC_ALL:-${LC_CTYPE:-${LANG-}}} in *[Uu][Tt][Ff]8* | *[Uu][Tt][Ff]-8*) utf8=1 ;; esac
    exec 4>&1 6>/dev/null
    [ "$filter" != meaning.awk ] || exec 6>&2
    finish "$({
        { "$core" --status=3 "$@" 3>&5 4>&- 5>&- 6>&-; printf ,%s $? >&5; } |
            XMF_SHARE=${share?} LC_ALL=C awk -v color="$paint" -v utf8="$utf8" -v flags="${flags?}" -v several=$(($# > 2)) -f "${share?}/safe.awk" -f "$share/$filter" >&4 2>&6 4>&- 5>&- 6>&-
        printf ,%s $? >&5
    } 5>&1)"
}
# A text, on a terminal with the meaning of a refusal.
tell() { if [ -t 1 ]; then view meaning.awk "$@"; else run "$@"; fi; } # WORD..
# Bytes; a refusal's line is on standard error, on a terminal with its meaning.
give() { # WORD..
    [ -t 2 ] || run "$@"
    exec 4>&1 6>&2
    finish "$({
        { "$core" --status=3 "$@" 3>&5 2>&1 >&4 4>&- 5>&- 6>&-; printf ,%s $? >&5; } | XMF_SHARE=$share LC_ALL=C awk -f "$share/meaning.awk" >&6 2>&6 4>&- 5>&- 6>&-
        printf ,%s $? >&5
    } 5>&1)"
}
finish() { # STATUS,PROGRAM,FILTER
    case $1 in
    [0-3],0,0) exit "${1%%,*}" ;;
    *,141,0 | *,141)
        # the program ignores the signal, as its runtime does, and ends as if it had come; where the caller ignores it, it is an error
        if sh -c 'kill -s PIPE "$$"' 2>/dev/null; then fail 'standard output: Broken pipe'; fi
        exit 141
        ;;
    *) fail "the answer is not whole: the program or its filter failed ($1)" ;;
    esac
}
# Runs the program with what becomes of the bytes that it makes of FILE: standard output; a file, also over one that is there; or a new one. That
# is made under another name and takes its own by a link, which is never over a file that is there, and is made whole or not at all.
# `maker` hands them out: `give`, by the program itself, or `draw`.
make() { # FILE WORD..
    file=$1
    shift
    if [ "${new?}" = - ]; then
        [ "$file" != - ] || file=/dev/stdin
        # shellcheck disable=SC3013 # dash, bash and busybox have -ef
        if [ -f /dev/stdout ] && [ "$file" -ef /dev/stdout ]; then fail 'standard output is the file itself: nothing was written'; fi
        "${maker?}" "$@" out -
    fi
    [ -n "$new" ] || usage 'the name after -o is missing or empty'
    if has -f; then
        if [ -h "$new" ] || { [ -e "$new" ] && [ ! -f "$new" ]; }; then fail "$(shown "$new"): not a regular file: nothing was written"; fi
        "$maker" "$@" over "$new"
    fi
    if [ -h "$new" ] || [ -e "$new" ]; then fail "$(shown "$new"): File exists"; fi
    part=$new.xmf-$$
    trap 'rm -f -- "$part" "$part".xmf-*; exit 1' HUP INT TERM
    ("$maker" "$@" over "$part")
    status=$?
    if [ "$status" -eq 0 ] && ! ln -T -- "$part" "$new" 2>/dev/null; then
        # the name is taken by now, or this file system has no links
        mv -nT -- "$part" "$new" 2>/dev/null
        [ ! -e "$part" ] || status=1
    fi
    rm -f -- "$part" "$part".xmf-*
    [ "$status" -ne 1 ] || say "$(shown "$new"): not made"
    exit "$status"
}
