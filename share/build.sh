# shellcheck shell=sh
# Builds what is not current. Sourced by xmf, sheet and tools/build.sh, which set `root`, the repository's folder, and `prefix`, that of messages.
# `built NAME` makes the program NAME, or the archive for C and Rust (capi, of the crate capi_c), current. Status 1: it is not, and standard error says why.
#
# target/built/NAME is the mark of a build. Its time is that of the build's start; its lines are the kit (what `rt version` printed), the sum
# of the sources (empty if one changed during the build) and the crates. A file or folder is newer than the mark also by its time of change, so
# that old times, as `cp -p`, `tar x` and `touch -d` leave them, do not hide it. What is newer but has the same sum is not built again.
# target/built/NAME.log has what `rt` printed, target/built/NAME.seconds what each crate took.
#
# `rt` keeps its work in crates/NAME/out; the program or the archive that it leaves there is copied to target/bin or target/staticlib.

built_say() { printf '%s: %s\n' "${prefix?}" "$1" >&2; }

# Looks among all that makes the program of these crates and what is proved of it: code, contracts, definitions, and what a case program reads. The
# text of a proof changes neither, so proofs, which are most of the files, are not looked at; nor is what `rt` keeps in `out`, which renews a crate's own
# folder too. Becomes find, so it stands in $(..) or in a pipeline.
built_find() { # CRATES TEST..
    list=$1
    shift
    set -- \( -name proofs -o -name must-fail -o -name out \) -prune -o \( -path 'crates/*/*' -o -path crates.txt \) "$@"
    for crate in $list; do set -- "crates/$crate" "$@"; done
    CDPATH='' cd -- "${root?}" && exec find crates.txt "$@" 2>&1
}

built_newer() { built_find "$1" \( -newer "$2" -o -cnewer "$2" \) -print -quit; } # CRATES FILE

built_sum() { built_find "$1" -type f -exec sha256sum {} + | LC_ALL=C sort | sha256sum | cut -d ' ' -f 1; } # CRATES

# The crates that one is made of, in the order in which `rt` proves them: each after those that it needs.
built_crates() { # NAME
    awk -v name="$1" '
        function visit(n, words, k, count) {
            if (!(n in needs) || n in seen) return
            seen[n] = 1
            count = split(needs[n], words, " ")
            for (k = 1; k <= count; k++) visit(words[k])
            printf "%s ", n
        }
        { sub(/#.*/, "") }
        /:/ { split(substr($0, 1, index($0, ":") - 1), words, " "); needs[words[1]] = substr($0, index($0, ":") + 1) }
        END { visit(name) }' "$root/crates.txt"
}

# Sets `why`: the reason to build, or nothing.
built_look() {
    why='' kit='' sum='' crates=''
    if [ ! -f "$root/$result" ]; then
        why="$result is not there"
        return
    fi
    if [ -r "$root/$mark" ]; then { IFS= read -r kit && IFS= read -r sum && IFS= read -r crates; } <"$root/$mark"; fi
    if [ -z "$crates" ]; then
        why="it is not known what $result was built from"
        return
    fi
    if [ "$kit" != "$pinned" ]; then
        why="$result was built with another kit, $kit"
        return
    fi
    newer=$(built_newer "$crates" "$mark")
    [ -n "$newer" ] || return
    why="$newer is newer than $result"
    # if times alone changed, the mark becomes as new as the look at the contents, where this user may write and the disk has room
    whole=''
    (printf '%s\n' "$kit" "$sum" "$crates" >"$root/$mark.$$") 2>/dev/null && whole=1
    if [ -n "$sum" ] && [ "$(built_sum "$crates")" = "$sum" ]; then
        why=''
        [ -z "$whole" ] || mv -f "$root/$mark.$$" "$root/$mark" 2>/dev/null
    fi
    rm -f "$root/$mark.$$" 2>/dev/null
}

# The crates that `rt` is going to prove, as the times of their files tell: those without the stamp that `rt` leaves, those of which something is newer
# than it, and those that need one of these or one that was proved since. `rt` itself goes by the contents, and passes over what is unchanged. An archive has
# no stamp.
built_stale() { # NAME CRATES
    stale=' '
    for crate in $2; do
        stamp=crates/$crate/out/rlib/stamp needs=$(sed -n "s/#.*//; s/^$crate\( .*\)*:\(.*\)/\2/p" crates.txt)
        [ "$crate" != "$1" ] || stamp=crates/$crate/out/$crate.stamp
        if [ -f "$stamp" ]; then
            newer=$(find "crates/$crate" \( -name must-fail -o -name out \) -prune -o -path 'crates/*/*' \( -newer "$stamp" -o -cnewer "$stamp" \) -print -quit)
            for need in $needs; do
                case $stale in *" $need "*) newer=$need ;; esac
                # shellcheck disable=SC3013 # dash, bash and busybox have -nt
                [ ! "crates/$need/out/rlib/stamp" -nt "$stamp" ] || newer=$need
            done
            [ -n "$newer" ] || continue
        fi
        stale="$stale$crate "
    done
    echo "$stale"
}

# Reads what `rt` prints, and last its status; says which crate is being proved, how many are, and how long it takes about; ends with that
# status, or with 0 where the program was started, whatever its own status. A crate that `rt` passes over is not counted. share/seconds.tsv has the
# seconds; the pace is that of the crates that are done.
built_follow() { # CRATES
    left=" $1 " proving='' told='' finished=0 gone=0 began=$(date +%s) is_run=''
    turn=$began
    built_tell
    while IFS= read -r line; do
        case $line in
        'rt: chose --jobs '*' for '*)
            name=${line##* }
            [ "$name" != "$proving" ] || continue
            case $left in *" $name "*) ;; *) continue ;; esac
            built_done
            left=" $name ${left#*" $name "}" proving=$name
            [ "$name" = "$told" ] || built_tell
            ;;
        'rt: running out/'*) is_run=1 ;;
        'status '*)
            if [ "$line" = 'status 0' ] || [ -n "$is_run" ]; then built_done; fi
            [ ! -t 2 ] || printf '\r\033[K' >&2
            [ -z "$is_run" ] || return 0
            return "${line#status }"
            ;;
        esac
    done
    return 1
}

# The crate that was being proved is proved: it is counted, and its seconds are noted.
built_done() {
    [ -n "$proving" ] || return 0
    now=$(date +%s)
    printf '%s\t%s\n' "$proving" $((now - turn)) >>"$mark.seconds"
    finished=$((finished + 1)) gone=$((gone + $(built_seconds "$proving"))) turn=$now proving=''
}

built_seconds() { awk -v names="$1" 'BEGIN { n = split(names, name, " ") } { s[$1] = $2 } END { for (; n; n--) t += s[name[n]] ? s[name[n]] : 20; print t + 0 }' share/seconds.tsv; } # CRATES

# One line, on a terminal the same one again.
built_tell() {
    # shellcheck disable=SC2086
    set -- $left
    [ $# -gt 0 ] || return
    rest=$(built_seconds "$left")
    [ "$gone" -eq 0 ] || rest=$((rest * ($(date +%s) - began) / gone))
    if [ "$rest" -lt 90 ]; then rest="$((rest / 10 * 10 + 10)) s"; else rest="$(((rest + 30) / 60)) min"; fi
    told=$1 line="proving $1, $((finished + 1)) of $((finished + $#)), about $rest left"
    if [ -t 2 ]; then printf '\r%s: %s\033[K' "$prefix" "$line" >&2; else built_say "$line"; fi
}

# The last error in what `rt` printed; or else the first line that says that something is not proved or failed, or the last line.
built_reason() { # LOG
    reason=$(grep '^[^ ]*: error' "$1" | tail -n 1)
    [ -n "$reason" ] || reason=$(grep -m 1 -e error -e 'not proved' -e 'did not build' -e FAILED "$1") || reason=$(sed '$d' "$1" | tail -n 1)
    printf '%.400s\n' "$reason"
}

# Makes it, in the repository's folder.
built_make() { # NAME
    version=$(rt version 2>/dev/null)
    if [ "$version" != "$pinned" ]; then
        built_say "$why, and this rt does not build it: rt version prints '$version', and '$pinned' is needed"
        return 1
    fi
    crates=$(built_crates "$1") && : >"$mark.new" && : >"$mark.log" && : >"$mark.seconds" || return 1
    sum=$(built_sum "$crates")
    stale=$(built_stale "$1" "$crates")
    built_say "$why: building"
    if {
        # what the program itself prints, where it is started, is let go
        (cd "crates/$1" && if [ "$verb" = run ]; then rt run 2>&1 >/dev/null </dev/null; else rt "$verb" 2>&1 </dev/null; fi)
        echo "status $?"
    } | tee "$mark.log" | built_follow "$stale" && mkdir -p "${result%/*}" && cp -- "$made" "$result.$$" && mv -f "$result.$$" "$result"; then
        # what changed meanwhile was perhaps not built
        [ -z "$(built_newer "$crates" "$mark.new")" ] || sum=''
        cp -p "$mark.new" "$mark.old" && printf '%s\n' "$pinned" "$sum" "$crates" >"$mark.new" && touch -r "$mark.old" "$mark.new" || return 1
        rm -f "$mark.old" && mv "$mark.new" "$mark" || return 1
        built_say "$result is built"
    else
        rm -f "$result.$$"
        built_say "not built: $(built_reason "$mark.log")"
        built_say "$root/$mark.log has all that rt printed"
        return 1
    fi
}

built() { # NAME
    case $1 in
    capi) of=capi_c result=target/staticlib/libcapi.a verb=lib made=crates/capi_c/out/libcapi_c.a ;;
    *) of=$1 result=target/bin/$1 verb=run made=crates/$1/out/$1 ;;
    esac
    mark=target/built/$1
    IFS= read -r pinned <"$root/share/kit" || return 1
    built_look
    [ -n "$why" ] || return 0
    root=$(CDPATH='' cd -- "$root" && pwd -P) || return 1
    (
        cd -- "$root" || exit 1
        if ! mkdir -p target/built 2>/dev/null || [ ! -w target ] || [ ! -w target/built ]; then
            built_say "$why, and you may not write to $root/target: $(stat -c %U .) has to run $root/tools/build.sh $1"
            exit 1
        fi
        if ! command -v rt >/dev/null; then
            built_say "$why, and there is no command rt to build it; README.md, 'What it needs', has what rt is"
            exit 1
        fi
        exec 9>target/built/lock || exit 1
        # one build at a time
        if command -v flock >/dev/null && ! flock -n 9; then
            built_say 'another run is building; waiting for it'
            flock 9
            built_look
            [ -n "$why" ] || exit 0
        fi
        built_make "$of"
    )
}

# What --version says: version, commit, sum of the sources of the program xmf, kit.
built_version() {
    IFS= read -r number <"$root/share/version" && IFS= read -r pinned <"$root/share/kit" || return 1
    commit=$(CDPATH='' cd -- "$root" && git rev-parse --verify -q HEAD 2>/dev/null) || commit=unknown
    sum=$(built_sum "$(built_crates xmf)") || return 1
    printf 'xmf %s\ncommit %s\nsources %s\nkit %s\n' "$number" "$commit" "$sum" "$pinned"
}

# Makes the shared library of the archive, in which only xmf_* is visible.
built_shared() { # FILE
    echo '{ global: xmf_*; local: *; };' >"$1.map" || return 1
    gcc -shared -Wl,-soname,libxmf.so.0 -Wl,--version-script,"$1.map" -Wl,-z,defs -Wl,-z,now -Wl,-z,relro -o "$1" \
        -Wl,--whole-archive "$root/target/staticlib/libcapi.a" -Wl,--no-whole-archive
    set -- "$1" $?
    rm -f "$1.map"
    return "$2"
}
