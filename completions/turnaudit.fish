# Completions of turnaudit for fish.

set -l commands audit find live check help
set -l judging audit find live check

complete -c turnaudit -n "not __fish_seen_subcommand_from $commands" -f
complete -c turnaudit -n "not __fish_seen_subcommand_from $commands" -s V -l version -d "Print the release"
complete -c turnaudit -s h -l help -d "Print the help"

complete -c turnaudit -n "not __fish_seen_subcommand_from $commands" -a audit -d "Find an order in which the server kept to its rules, and judge by it"
complete -c turnaudit -n "not __fish_seen_subcommand_from $commands" -a find -d "Find such an order, and write it as a certificate"
complete -c turnaudit -n "not __fish_seen_subcommand_from $commands" -a live -d "Judge captures while they grow"
complete -c turnaudit -n "not __fish_seen_subcommand_from $commands" -a check -d "Judge captures by a certificate"
complete -c turnaudit -n "not __fish_seen_subcommand_from $commands" -a help -d "Print the help of the program or of a command"

complete -c turnaudit -n "__fish_seen_subcommand_from help" -f -a "$judging"
complete -c turnaudit -n "__fish_seen_subcommand_from $judging" -l policy -r -F -d "Which endpoints are the server's"
complete -c turnaudit -n "__fish_seen_subcommand_from $judging" -l creds -r -F -d "The server's users and their passwords"
complete -c turnaudit -n "__fish_seen_subcommand_from check" -l cert -r -F -d "Where each datagram is placed"
complete -c turnaudit -n "__fish_seen_subcommand_from audit find check" -l workers -x -a "1 2 4 8 16" -d "How many threads go to work at once, 1 to 256"
complete -c turnaudit -n "__fish_seen_subcommand_from live" -l idle -x -a "1 600 6000" -d "After how many turns without a byte the captures have ended"
complete -c turnaudit -n "__fish_seen_subcommand_from live" -l turns -x -a "10000 1000000" -d "After how many turns the captures have ended"
