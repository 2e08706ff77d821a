# Completions of turnexplain for bash.

_turnexplain() {
    local word=${COMP_WORDS[COMP_CWORD]} before=${COMP_WORDS[COMP_CWORD - 1]} command='' at offered
    COMPREPLY=()
    for ((at = 1; at < COMP_CWORD; at++)); do
        if [[ ${COMP_WORDS[at]} != -* ]]; then
            command=${COMP_WORDS[at]}
            break
        fi
    done
    case $command in
        '') offered='verdict lanes client faults evidence help --help --version -h -V' ;;
        verdict) offered='--policy --creds --cert --workers --json --expect-answers --help -h' ;;
        lanes) offered='--policy --creds --cert --workers --json --broken --help -h' ;;
        client) offered='--policy --creds --cert --workers --json --lane --around --help -h' ;;
        faults) offered='--policy --creds --workers --help -h' ;;
        evidence) offered='--policy --creds --cert --workers --output -o --excluded --help -h' ;;
        help) offered='verdict lanes client faults evidence' ;;
        *) return ;;
    esac
    case $before in
        --policy | --creds | --cert | --output | -o | --excluded) offered='' ;;
        --workers) offered='1 2 4 8 16' ;;
        --around) offered='5 20 100 1000000' ;;
        --expect-answers) offered='1 50 90 100' ;;
        --lane) return ;;
    esac
    if [[ -n $offered && ($word == -* || -z $command || $command == help || $before == --workers || $before == --around || $before == --expect-answers) ]]; then
        mapfile -t COMPREPLY < <(compgen -W "$offered" -- "$word")
        return
    fi
    compopt -o filenames 2> /dev/null
    mapfile -t COMPREPLY < <(compgen -f -- "$word")
}

complete -F _turnexplain turnexplain
