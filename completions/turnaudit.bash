# Completions of turnaudit for bash.

_turnaudit() {
    local word=${COMP_WORDS[COMP_CWORD]} before=${COMP_WORDS[COMP_CWORD - 1]} command='' at offered
    COMPREPLY=()
    for ((at = 1; at < COMP_CWORD; at++)); do
        if [[ ${COMP_WORDS[at]} != -* ]]; then
            command=${COMP_WORDS[at]}
            break
        fi
    done
    case $command in
        '') offered='audit find live check help --help --version -h -V' ;;
        audit | find) offered='--policy --creds --workers --help -h' ;;
        live) offered='--policy --creds --idle --turns --help -h' ;;
        check) offered='--policy --creds --cert --workers --help -h' ;;
        help) offered='audit find live check' ;;
        *) return ;;
    esac
    case $before in
        --policy | --creds | --cert) offered='' ;;
        --workers) offered='1 2 4 8 16' ;;
        --idle) offered='1 600 6000' ;;
        --turns) offered='10000 1000000' ;;
    esac
    if [[ -n $offered && ($word == -* || -z $command || $command == help || $before == --workers || $before == --idle || $before == --turns) ]]; then
        mapfile -t COMPREPLY < <(compgen -W "$offered" -- "$word")
        return
    fi
    compopt -o filenames 2> /dev/null
    mapfile -t COMPREPLY < <(compgen -f -- "$word")
}

complete -F _turnaudit turnaudit
