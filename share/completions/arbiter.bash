# Completion of arbiter for bash. Written by hand; tests/test_share.py compares it with what the program's own help says.

_arbiter() {
    local word=${COMP_WORDS[COMP_CWORD]} before=${COMP_WORDS[COMP_CWORD - 1]} given=''
    COMPREPLY=()
    # no reply: bash completes files behind < and >
    case $before in *[\<\>]) return ;; esac
    case $word in [\<\>]*) return ;; esac
    # --slice=5000 is three words here
    if [[ $word == = ]]; then
        given=$before word=''
    elif [[ $before == = ]]; then
        given=${COMP_WORDS[COMP_CWORD - 2]}
    else
        given=$before
    fi
    if ((COMP_CWORD == 1)); then
        mapfile -t COMPREPLY < <(compgen -W "run check help --help --version -h -V" -- "$word")
        return
    fi
    case ${COMP_WORDS[1]} in
        run)
            case $given in
                # 1 to 64, default 1
                --processors) mapfile -t COMPREPLY < <(compgen -W "1 2 4 8 16 32 64" -- "$word") ;;
                # microseconds, 1000 to 1000000, default 100000
                --period) mapfile -t COMPREPLY < <(compgen -W "10000 100000 1000000" -- "$word") ;;
                # microseconds, 1000 to the period, which it divides, default 5000
                --slice) mapfile -t COMPREPLY < <(compgen -W "1000 2000 5000 10000" -- "$word") ;;
                *) mapfile -t COMPREPLY < <(compgen -W "--processors --period --slice --help -h" -- "$word") ;;
            esac
            ;;
        check) mapfile -t COMPREPLY < <(compgen -W "--help -h" -- "$word") ;;
        help) ((COMP_CWORD == 2)) && mapfile -t COMPREPLY < <(compgen -W "run check help" -- "$word") ;;
    esac
}

complete -o bashdefault -o default -o nosort -F _arbiter arbiter
