# Completions of turnexplain for fish.

# Whether the command is one of these. Files may have names of commands, too: `--policy client`.
function __turnexplain_command_is
    for word in (commandline -opc)[2..]
        if not string match -q -- "-*" $word
            contains -- $word $argv
            return
        end
    end
    return 1
end

set -l commands verdict lanes client faults evidence help
set -l judging verdict lanes client faults evidence

complete -c turnexplain -n "not __turnexplain_command_is $commands" -f
complete -c turnexplain -n "not __turnexplain_command_is $commands" -s V -l version -d "Print the release"
complete -c turnexplain -s h -l help -d "Print the help"

complete -c turnexplain -n "not __turnexplain_command_is $commands" -a verdict -d "Tell the verdict, and where a rule is broken what happened"
complete -c turnexplain -n "not __turnexplain_command_is $commands" -a lanes -d "Tell each client by a line, with its first breach"
complete -c turnexplain -n "not __turnexplain_command_is $commands" -a client -d "Tell the events of one client in their order"
complete -c turnexplain -n "not __turnexplain_command_is $commands" -a faults -d "Tell each datagram that no order of the captures explains"
complete -c turnexplain -n "not __turnexplain_command_is $commands" -a evidence -d "Write one page to be filed, with the verdict and what it was given on"
complete -c turnexplain -n "not __turnexplain_command_is $commands" -a help -d "Print the help of the program or of a command"

complete -c turnexplain -n "__turnexplain_command_is help" -f -a "$judging"
complete -c turnexplain -n "__turnexplain_command_is $judging" -l policy -r -F -d "Which endpoints are the server's"
complete -c turnexplain -n "__turnexplain_command_is $judging" -l creds -r -F -d "The server's users and their passwords"
complete -c turnexplain -n "__turnexplain_command_is verdict lanes client evidence" -l cert -r -F -d "The certificate to judge by"
complete -c turnexplain -n "__turnexplain_command_is $judging" -l workers -x -a "1 2 4 8 16" -d "How many threads go to work at once, 1 to 256"
complete -c turnexplain -n "__turnexplain_command_is verdict lanes client" -l json -d "One JSON object in place of the text"
complete -c turnexplain -n "__turnexplain_command_is verdict" -l expect-answers -x -a "1 50 90 100" -d "Status 6 if fewer requests have a response, 0 to 100"
complete -c turnexplain -n "__turnexplain_command_is lanes" -l broken -d "Only the clients that break a rule"
complete -c turnexplain -n "__turnexplain_command_is client" -l lane -x -d "The client's lane, 0 to 65535"
complete -c turnexplain -n "__turnexplain_command_is client" -l around -x -a "5 20 100 1000000" -d "How many events each side of its first breach, 0 to 1000000"
complete -c turnexplain -n "__turnexplain_command_is evidence" -s o -l output -r -F -d "The page that is made"
complete -c turnexplain -n "__turnexplain_command_is evidence" -l excluded -r -F -d "The list of what turnprep cut excluded"
