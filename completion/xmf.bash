# Completion of xmf in bash. Commands and options are those of `xmf help`.
_xmf() {
    local word=${COMP_WORDS[COMP_CWORD]} before=${COMP_WORDS[COMP_CWORD - 1]} command=${COMP_WORDS[1]-} options=
    if [ "$COMP_CWORD" -eq 1 ]; then
        mapfile -t COMPREPLY < <(compgen -W 'sheet reorder check show why rows verdict find resolve extract needs bytes map id3 title mend to-utf8 to-utf16 shelf help --help --version' -- "$word")
        return
    fi
    case $command in
    sheet) options='-2 -H' ;;
    check) options='-v --color=auto --color=always --color=never' ;;
    show) options='--color=auto --color=always --color=never' ;;
    verdict) options='-q' ;;
    find) options='--own' ;;
    extract | map) options='-o -f' ;;
    bytes) options='--sum --chart --runs -l -H --color=auto --color=always --color=never' ;;
    id3) options='--hidden --tag' ;;
    title) options='-o -f --stdin --bytes' ;;
    mend) options='-o -f' ;;
    shelf)
        options='-s'
        case $word,$before in -*,* | *,-s) ;; *,shelf | *,xmf) mapfile -t COMPREPLY < <(compgen -W 'new put get drop' -- "$word") && return ;; esac
        ;;
    help)
        mapfile -t COMPREPLY < <(compgen -W 'sheet reorder check show why rows verdict find resolve extract needs bytes map id3 title mend to-utf8 to-utf16 shelf' -- "$word")
        return
        ;;
    why)
        mapfile -t COMPREPLY < <(compgen -W "$(seq 1 39)" -- "$word")
        return
        ;;
    esac
    case $word in
    -*) mapfile -t COMPREPLY < <(compgen -W "$options --help" -- "$word") ;;
    *) [ "$before" = --bytes ] || mapfile -t COMPREPLY < <(compgen -f -- "$word") ;;
    esac
}
complete -o filenames -F _xmf xmf
