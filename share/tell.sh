# shellcheck shell=sh
# What needs no program; sourced by xmf, which ends here: help, why, --version, and what is no command.
if [ "$command,${1-}" = why,--help ]; then command=help && set -- why; fi
unwritten() { fail 'standard output: the answer could not be written'; }
case ${command?} in
'') fail 'no command; xmf help lists them' ;;
help | --help | -h)
    awk -v command="${1-}" -f "${share?}/help.awk" "$share/help.txt" 2>/dev/null
    case $? in
    0) ;;
    1) fail "no such command: $(shown "$1"); xmf help lists them" ;;
    *) unwritten ;;
    esac
    ;;
--version)
    if [ -f "$share/VERSION" ]; then
        text=$(cat "$share/VERSION") || exit 1
    else
        . "$share/build.sh"
        text=$(built_version) || exit 1
    fi
    { printf '%s\n' "$text"; } 2>/dev/null || unwritten
    ;;
why)
    [ "${1-}" != -- ] || shift
    # a line of an answer, in one word or in several
    # shellcheck disable=SC2048,SC2086
    set -f -- $*
    kind=R table=refusals
    case ${1-} in
    R) shift ;;
    V) kind=V table=checks && shift ;;
    esac
    case ${1-},${2-} in
    ,* | *[!0-9,]*) fail "why: a refusal's number or its line is wanted; xmf help why says how" ;;
    esac
    text=$(awk -v kind="$kind" -v number="$1" -v place="${2-}" -f "$share/why.awk" "$share/$table.tsv") || fail "why: no such number: $1"
    if [ "$kind" = R ] && [ -f "$share/why-$1.txt" ]; then
        text=$(printf '%s\n' "$text" && cat "$share/why-$1.txt") || exit 1
    fi
    { printf '%s\n' "$text"; } 2>/dev/null || unwritten
    ;;
*) fail "no such command: $(shown "$command"); xmf help lists them" ;;
esac
exit 0
