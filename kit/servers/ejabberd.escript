%%! +S 1:1 +sbwt none
%% A TURN server by ejabberd's library stun, with long-term credentials, over UDP alone.
%%
%%     LISTEN RELAY_LOW RELAY_HIGH REALM USER PASSWORD [OTHER_USER OTHER_PASSWORD]

main([Listen, Low, High, Realm | Users]) ->
    [Address, Port] = string:split(Listen, ":"),
    {ok, IP} = inet:parse_address(Address),
    Passwords = passwords(Users),
    {ok, _} = application:ensure_all_started(stun),
    Find = fun(User, _) -> maps:get(User, Passwords, <<>>) end,
    ok = stun_listener:add_listener(IP, list_to_integer(Port), udp, [
        use_turn,
        {auth_type, user},
        {auth_fun, Find},
        {auth_realm, list_to_binary(Realm)},
        {turn_ipv4_address, IP},
        {turn_min_port, list_to_integer(Low)},
        {turn_max_port, list_to_integer(High)},
        {turn_blacklist, []},
        {shaper, none}
    ]),
    receive stop -> ok end.

passwords([User, Password | Others]) -> maps:put(list_to_binary(User), list_to_binary(Password), passwords(Others));
passwords([]) -> #{}.
