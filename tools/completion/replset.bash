# Completes the words of `replset` in bash.

_replset() {
    local word=${COMP_WORDS[COMP_CWORD]} at=1 options="--prove --unproved --web --install --uninstall --help --version"
    if ((COMP_CWORD > 1)) && [[ ${COMP_WORDS[1]} == --prove || ${COMP_WORDS[1]} == --unproved ]]; then
        at=2 options=
    fi
    if ((COMP_CWORD == at)); then
        mapfile -t COMPREPLY < <(compgen -W "run chaos sync linear watch trace check $options" -- "$word")
    elif [[ ${COMP_WORDS[at]} == --install || ${COMP_WORDS[at]} == --uninstall ]] && ((COMP_CWORD == 2)); then
        mapfile -t COMPREPLY < <(compgen -d -- "$word")
    fi
}

complete -F _replset replset
complete -F _replset ./replset
