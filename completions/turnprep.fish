# Completions of turnprep for fish.

# Whether the command is one of these. Files have names of commands, too: `--policy policy`.
function __turnprep_command_is
    for word in (commandline -opc)[2..]
        if not string match -q -- "-*" $word
            contains -- $word $argv
            return
        end
    end
    return 1
end

set -l commands ready policy users join reassemble translate look cut help
set -l making ready policy users join reassemble translate look cut

complete -c turnprep -n "not __turnprep_command_is $commands" -f
complete -c turnprep -n "not __turnprep_command_is $commands" -s V -l version -d "Print the release"
complete -c turnprep -s h -l help -d "Print the help"

complete -c turnprep -n "not __turnprep_command_is $commands" -a ready -d "Do all that captures need before an audit"
complete -c turnprep -n "not __turnprep_command_is $commands" -a policy -d "Write the policy that coturn's configuration comes to"
complete -c turnprep -n "not __turnprep_command_is $commands" -a users -d "Write the credentials of the users that coturn's configuration or a secret makes"
complete -c turnprep -n "not __turnprep_command_is $commands" -a join -d "Join the captures of a ring, in their order, to one capture"
complete -c turnprep -n "not __turnprep_command_is $commands" -a reassemble -d "Put the fragments of UDP datagrams over IPv4 together"
complete -c turnprep -n "not __turnprep_command_is $commands" -a translate -d "Put the public address of a one-to-one translation in the place of the private one"
complete -c turnprep -n "not __turnprep_command_is $commands" -a look -d "Tell what captures hold, and what to do before their audit"
complete -c turnprep -n "not __turnprep_command_is $commands" -a cut -d "Leave out what can't be judged, and list it"
complete -c turnprep -n "not __turnprep_command_is $commands" -a help -d "Print the help of the program or of a command"

complete -c turnprep -n "__turnprep_command_is help" -f -a "$making"
complete -c turnprep -n "__turnprep_command_is policy" -f
complete -c turnprep -n "__turnprep_command_is ready policy users" -l turnserver-conf -r -F -d "coturn's configuration"
complete -c turnprep -n "__turnprep_command_is policy" -l listening-ip -x -d "An address at which coturn listens"
complete -c turnprep -n "__turnprep_command_is policy" -l relay-ip -x -d "An address from which coturn relays"
complete -c turnprep -n "__turnprep_command_is policy" -l translated -d "The captures have the addresses of external-ip"
complete -c turnprep -n "__turnprep_command_is users" -l secret-file -r -F -d "The file of the secret of which passwords are made"
complete -c turnprep -n "__turnprep_command_is users" -l realm -x -d "The realm that the configuration doesn't say, or the only one"
complete -c turnprep -n "__turnprep_command_is ready translate look cut" -l policy -r -F -d "The policy of the audit"
complete -c turnprep -n "__turnprep_command_is ready" -l creds -r -F -d "The credentials"
complete -c turnprep -n "__turnprep_command_is translate" -l external-ip -x -d "A public address, and the one in the captures that it stands for"
complete -c turnprep -n "__turnprep_command_is join" -s o -r -F -d "The file that is made"
complete -c turnprep -n "__turnprep_command_is reassemble translate cut" -s o -x -a "(__fish_complete_directories)" -d "The folder, which is there, in which files are made"
complete -c turnprep -n "__turnprep_command_is ready" -s o -x -a "(__fish_complete_directories)" -d "The folder that is made"
complete -c turnprep -n "__turnprep_command_is ready cut" -l since -x -d "Leave out what is before: in nanoseconds since 1970, or as 2026-12-01T09:00:00Z"
complete -c turnprep -n "__turnprep_command_is ready cut" -l until -x -d "Leave out what is after: a moment as of --since"
complete -c turnprep -n "__turnprep_command_is ready look cut" -l lifetime -x -a "600 3600 7200" -d "The longest lifetime of an allocation from before, in seconds"
complete -c turnprep -n "__turnprep_command_is ready cut" -l released-ms -x -a "100 1000 10000" -d "Leave out what is relayed so long after a Refresh with LIFETIME 0"
complete -c turnprep -n "__turnprep_command_is ready cut" -l from-start -d "The server started with the captures, or at --since"
complete -c turnprep -n "__turnprep_command_is ready cut" -l no-tcp -d "No client comes by TCP, TLS, DTLS or IPv6"
complete -c turnprep -n "__turnprep_command_is ready cut" -l keep-inner -d "Data between the server's own addresses stays in"
