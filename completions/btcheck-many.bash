# Completion of btcheck-many for bash.

_btcheck_many() {
    local text=${COMP_WORDS[COMP_CWORD]} before=${COMP_WORDS[COMP_CWORD - 1]} options=''
    local checks='-q --quiet --bad --json --extra --summary'
    COMPREPLY=()
    if [ "$COMP_CWORD" -eq 1 ]; then
        mapfile -t COMPREPLY < <(compgen -W 'check create archive slurm --help --version' -- "$text")
        return
    fi
    case $before in
        -j | --jobs | --parts | --name | --piece-length | --exclude) return ;;
        --keep) mapfile -t COMPREPLY < <(compgen -d -- "$text") ;;
        *)
            case ${COMP_WORDS[1]} in
                check) options="-j --jobs --parts --hosts --keep --anew $checks --help" ;;
                create)
                    options='-j --jobs --parts --hosts --keep --anew --name --piece-length --file --hybrid --exclude'
                    options+=' --follow-symlinks --skip-special --no-clobber --help'
                    ;;
                archive) options="-j --jobs --hosts --anew $checks --help" ;;
                slurm) options='--parts --keep --anew --submit --help' ;;
            esac
            case $text in
                -*) mapfile -t COMPREPLY < <(compgen -W "$options" -- "$text"); return ;;
                *) mapfile -t COMPREPLY < <(compgen -f -- "$text") ;;
            esac
            ;;
    esac
    compopt -o filenames 2>/dev/null
}

complete -F _btcheck_many btcheck-many
