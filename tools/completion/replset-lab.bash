# Completes the words of the lab in bash. `tools/lab/refresh` makes this of its help.

_replset_lab() {
    local word=${COMP_WORDS[COMP_CWORD]} options=
    if ((COMP_CWORD == 1)); then
        mapfile -t COMPREPLY < <(compgen -W "run picture shell verdict check convert expand test shrink vary sweep seed explain --help" -- "$word")
        return
    fi
    case ${COMP_WORDS[1]} in
    run) options="-h --help --state" ;;
    picture) options="-h --help -o --lines --title" ;;
    shell) options="-h --help --nodes" ;;
    verdict) options="-h --help" ;;
    check) options="-h --help" ;;
    convert) options="-h --help --to --from --insert" ;;
    expand) options="-h --help" ;;
    test) options="-h --help" ;;
    shrink) options="-h --help --keep --verdict --check -j" ;;
    vary) options="-h --help --watch --only --faults --orders --verdict --no-verdicts --save --limit --all -j" ;;
    sweep) options="-h --help --seeds --events --nodes --verdict --no-verdicts --part --join -j" ;;
    seed) options="-h --help" ;;
    explain) options="-h --help" ;;
    esac
    if [[ ${COMP_WORDS[COMP_CWORD - 1]} == --verdict ]]; then
        mapfile -t COMPREPLY < <(compgen -W "acked-lost w1-lost dirty-read stale-read rolled-back two-primaries uncommitted-config no-primary" -- "$word")
    elif [[ $word == -* ]]; then
        mapfile -t COMPREPLY < <(compgen -W "$options" -- "$word")
    else
        mapfile -t COMPREPLY < <(compgen -f -- "$word")
    fi
}

complete -o filenames -F _replset_lab replset-lab
complete -o filenames -F _replset_lab ./lab
