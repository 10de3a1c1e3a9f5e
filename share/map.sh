# shellcheck shell=sh
# Sourced by xmf for `map`.

# Draws the picture of a file from the runs that the program tells, once it has told all of them: to standard output; or into a file, under another name first.
draw() { # FILE out -, FILE over NEW
    answer=$("${core?}" --status=3 runs "$1" 3>&1)
    ended=$?
    # the digit follows the text
    status=${answer##*[!0-9]}
    answer=${answer%"$status"}
    case $ended,$status in
    0,0) ;;
    0,[1-3])
        if [ -t 2 ]; then
            printf '%s' "$answer" | XMF_SHARE=${share?} LC_ALL=C awk -f "$share/meaning.awk" >&2
        else
            printf '%s' "$answer" >&2
        fi
        exit "$status"
        ;;
    *) fail "the answer is not whole: the program failed ($ended)" ;;
    esac
    name=
    [ "$1" = - ] || name=$(shown "$1")
    if [ "$2" = out ]; then
        [ ! -t 1 ] || fail 'standard output: a terminal, which shows no picture'
        picture 2>/dev/null
        case $? in
        0) exit 0 ;;
        141) exit 141 ;;
        *) fail 'standard output: the answer could not be written' ;;
        esac
    fi
    drawn=$3.xmf-$$
    trap 'rm -f -- "$drawn"; exit 1' HUP INT TERM
    if { (set -C && picture >"$drawn") && sync -- "$drawn" && mv -fT -- "$drawn" "$3"; } 2>/dev/null; then exit 0; fi
    rm -f -- "$drawn"
    fail "$(shown "$3"): could not be written"
}
picture() { printf '%s' "$answer" | NAME=$name LC_ALL=C awk -f "$share/map.awk"; }
