# completion of vximage's words for bash: `source` it, or put it into /usr/share/bash-completion/completions/vximage
# the options of a command, or file names; `word` is that of `_vximage`
_vximage_words() {
    if [[ $word == -* ]]; then
        mapfile -t COMPREPLY < <(compgen -W "$1" -- "$word")
    else
        mapfile -t COMPREPLY < <(compgen -f -- "$word")
    fi
}

_vximage() {
    local word=${COMP_WORDS[COMP_CWORD]} before=${COMP_WORDS[COMP_CWORD-1]} at
    COMPREPLY=()
    if [[ $COMP_CWORD -eq 1 ]]; then
        mapfile -t COMPREPLY < <(compgen -W 'make show dis help --help --version' -- "$word")
        return
    fi
    for ((at = 2; at < COMP_CWORD; at++)); do
        [[ ${COMP_WORDS[at]} == -- ]] && { mapfile -t COMPREPLY < <(compgen -f -- "$word"); return; }
    done
    case $before in
        --section|--thread|--entry|--start|--stack|--from|--to) return ;;
        --functions) mapfile -t COMPREPLY < <(compgen -W 'procedures routines none' -- "$word"); return ;;
        --entries|--elf|--names) mapfile -t COMPREPLY < <(compgen -f -- "$word"); return ;;
    esac
    case ${COMP_WORDS[1]} in
        make) _vximage_words '--section --thread --entry --entries --elf --start --stack --functions --help' ;;
        show) _vximage_words '--help' ;;
        dis) _vximage_words '--alpha --from --to --names --help' ;;
    esac
}
complete -o filenames -F _vximage vximage
