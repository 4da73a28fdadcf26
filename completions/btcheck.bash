# Completion of btcheck for bash.

# Sets `options` to what a command takes, `kinds` to what its arguments are, in order, and `last` if the last of them may
# be there many times.
_btcheck_command() {
    options='-h --help'
    case $1 in
        root) options+=' -j --json --reasons' kinds=(file) ;;
        show) options+=' --long -j --json --reasons' kinds=(torrent) ;;
        check) options+=' -q --quiet --bad --extra --summary --part -j --json --reasons' kinds=(torrent folder) ;;
        join) options+=' -j --json --reasons' kinds=(torrent file) last=more ;;
        create)
            options+=' --file --name --piece-length --hybrid --exclude --follow-symlinks --skip-special --no-clobber --part --reasons'
            kinds=(folder file)
            ;;
        assemble) options+=' --reasons' kinds=(file file) last=more ;;
        convert) options+=' --reasons' kinds=(file file) ;;
        replay) options+=' --info-only --seed -o --answers --padded --pieces --summary -j --json --reasons' kinds=(torrent file) ;;
        help) options='' kinds=(command) ;;
        *) options='' kinds=() ;;
    esac
}

# Sets `kind` to what stands after an option.
_btcheck_value() {
    case $1 in
        --seed) kind=folder ;;
        -o | --answers | --file) kind=file ;;
        --name | --piece-length | --exclude | --part) kind=text ;;
        *) kind='' ;;
    esac
}

# Sets COMPREPLY to what an argument of this kind can be, of those that begin with the text.
_btcheck_argument() {
    local text=$2
    case $1 in
        command) mapfile -t COMPREPLY < <(compgen -W 'root show check join create assemble replay convert help' -- "$text") ;;
        folder) mapfile -t COMPREPLY < <(compgen -d -- "$text") ;;
        file) mapfile -t COMPREPLY < <(compgen -f -- "$text") ;;
        torrent)
            mapfile -t COMPREPLY < <(compgen -f -X '!*.torrent' -- "$text"; compgen -d -- "$text")
            [ ${#COMPREPLY[@]} -gt 0 ] || mapfile -t COMPREPLY < <(compgen -f -- "$text")
            ;;
    esac
    [ "$1" = command ] || compopt -o filenames 2>/dev/null
}

_btcheck() {
    local text=${COMP_WORDS[COMP_CWORD]} command='' count=0 ended='' kind='' word at options kinds last=''
    COMPREPLY=()
    for ((at = 1; at < COMP_CWORD; at++)); do
        word=${COMP_WORDS[at]}
        if [ -n "$kind" ]; then
            kind=''
        elif [ -z "$ended" ] && [ "$word" = -- ]; then
            ended=yes
        elif [ -z "$ended" ] && [[ $word == -* ]]; then
            _btcheck_value "$word"
        elif [ -n "$ended" ] || [[ $word != -* ]]; then
            if [ -z "$command" ]; then command=$word; else ((count += 1)); fi
        fi
    done
    if [ -z "$command" ]; then
        options='-h --help -V --version' kinds=(command)
    else
        _btcheck_command "$command"
    fi
    if [ -n "$kind" ]; then
        _btcheck_argument "$kind" "$text"
    elif [ -z "$ended" ] && [[ $text == -* ]]; then
        mapfile -t COMPREPLY < <(compgen -W "$options" -- "$text")
    elif [ "$count" -lt ${#kinds[@]} ]; then
        _btcheck_argument "${kinds[count]}" "$text"
    elif [ -n "$last" ]; then
        _btcheck_argument "${kinds[-1]}" "$text"
    fi
}

complete -F _btcheck btcheck
