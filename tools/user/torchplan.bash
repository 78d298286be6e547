# Completion of torchplan's commands and options for bash: . tools/user/torchplan.bash

_torchplan() {
    local word=${COMP_WORDS[COMP_CWORD]} before=${COMP_WORDS[COMP_CWORD-1]} command=${COMP_WORDS[1]}
    local rules="--headroom --rule --table"
    local all="--help"
    COMPREPLY=()
    case $before in
        --headroom) COMPREPLY=($(compgen -W "1 2" -- "$word")); return ;;
        --rule) COMPREPLY=($(compgen -W "1.18 1.17" -- "$word")); return ;;
        --workers | --turns) return ;;
        --table) COMPREPLY=($(compgen -f -X '!*.toml' -- "$word") $(compgen -d -- "$word")); return ;;
        --proof) COMPREPLY=($(compgen -f -- "$word")); return ;;
    esac
    if [[ $COMP_CWORD == 1 ]]; then
        COMPREPLY=($(compgen -W "plan check dark levels rows help --help --version" -- "$word"))
    elif [[ $word == -* ]]; then
        case $command in
            plan) all="$rules --proof --workers --turns --progress --help" ;;
            check) all="$rules --help" ;;
            dark | levels) all="$rules --progress --help" ;;
            rows) all="--table --help" ;;
        esac
        COMPREPLY=($(compgen -W "$all" -- "$word"))
    else
        COMPREPLY=($(compgen -f -- "$word"))
    fi
} && complete -o filenames -F _torchplan torchplan
