# Completions of turnprep for bash.

_turnprep() {
    local word=${COMP_WORDS[COMP_CWORD]} before=${COMP_WORDS[COMP_CWORD - 1]} command='' places=-f at offered
    COMPREPLY=()
    for ((at = 1; at < COMP_CWORD; at++)); do
        if [[ ${COMP_WORDS[at]} != -* ]]; then
            command=${COMP_WORDS[at]}
            break
        fi
    done
    case $command in
        '') offered='ready policy users join reassemble translate look cut help --help --version -h -V' ;;
        ready) offered='--turnserver-conf --policy --creds -o --since --until --lifetime --released-ms --from-start --no-tcp --keep-inner --help -h' ;;
        policy) offered='--turnserver-conf --listening-ip --relay-ip --translated --help -h' ;;
        users) offered='--turnserver-conf --secret-file --realm --help -h' ;;
        join | reassemble) offered='-o --help -h' ;;
        translate) offered='--policy --external-ip -o --help -h' ;;
        look) offered='--policy --lifetime --help -h' ;;
        cut) offered='--policy -o --since --until --lifetime --released-ms --from-start --no-tcp --keep-inner --help -h' ;;
        help) offered='ready policy users join reassemble translate look cut' ;;
        *) return ;;
    esac
    case $before in
        --policy | --turnserver-conf | --secret-file | --creds) offered='' ;;
        -o)
            offered=''
            if [[ $command != join ]]; then places=-d; fi
            ;;
        --lifetime) offered='600 3600 7200' ;;
        --released-ms) offered='100 1000 10000' ;;
        --listening-ip | --relay-ip | --external-ip | --realm | --since | --until) return ;;
    esac
    if [[ -n $offered && ($word == -* || -z $command || $command == policy || $command == help || $before == --lifetime || $before == --released-ms) ]]; then
        mapfile -t COMPREPLY < <(compgen -W "$offered" -- "$word")
        return
    fi
    compopt -o filenames 2> /dev/null
    mapfile -t COMPREPLY < <(compgen $places -- "$word")
}

complete -F _turnprep turnprep
