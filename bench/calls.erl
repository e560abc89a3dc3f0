#!/usr/bin/env escript
%% Two processes of Erlang: one asks the other for the number behind a number, so many times, each time behind the reply to the last.
-mode(compile).

main([Times]) ->
    Server = spawn_link(fun serve/0),
    Count = list_to_integer(Times),
    Count = ask(Server, Count, 0),
    io:format("~b~n", [Count]).

ask(_, 0, Number) -> Number;
ask(Server, Left, Number) ->
    Call = make_ref(),
    Server ! {ask, self(), Call, Number},
    receive {reply, Call, Next} -> ask(Server, Left - 1, Next) end.

serve() ->
    receive {ask, From, Call, Number} -> From ! {reply, Call, Number + 1}, serve() end.
