# Completion of archive(1) for bash.

_archive() {
    local word=${COMP_WORDS[COMP_CWORD]} before=${COMP_WORDS[COMP_CWORD - 1]} command= place
    local commands="new index search show status check renew restore set backup leaks lock"
    local options="--archive --progress --help"
    COMPREPLY=()
    for ((place = 1; place < COMP_CWORD; place++)); do
        case ${COMP_WORDS[place]} in
            --archive) ((place++)) ;;
            -*) ;;
            *) command=${COMP_WORDS[place]}; break ;;
        esac
    done
    case $before in
        --archive) COMPREPLY=($(compgen -d -- "$word")); return ;;
        --key-command) COMPREPLY=($(compgen -c -- "$word")); return ;;
        --key) COMPREPLY=($(compgen -f -- "$word")); return ;;
        --server | --owner | --vault | --new-vault | --limit | -b | -B | -Q) return ;;
    esac
    case $command in
        '') options="$options --version"; [[ $word == -* ]] || options=$commands ;;
        new) options="$options --server --owner --vault --key-command -b -B -Q" ;;
        index) options="$options --gone" ;;
        search) options="$options --at-once --limit --json --files --null -0" ;;
        show) options="$options --stored" ;;
        status) options="$options --offline" ;;
        renew) options="$options --server --owner --vault --key-command" ;;
        restore) options="$options --key --vault --server --new-vault" ;;
    esac
    if [[ $word == -* || -z $command ]]; then
        COMPREPLY=($(compgen -W "$options" -- "$word"))
    elif [[ $command == set ]]; then
        COMPREPLY=($(compgen -W vault -- "$word"))
    elif [[ $command == new || $command == restore ]]; then
        COMPREPLY=($(compgen -d -- "$word"))
    elif [[ $command == index || $command == show || $command == backup ]]; then
        COMPREPLY=($(compgen -f -- "$word"))
    fi
}

complete -o filenames -F _archive archive
