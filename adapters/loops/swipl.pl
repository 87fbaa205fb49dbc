% Evaluates lines for prompted.py: one in double quotes is a query, with \n for its line ends, another one the halves of a marker.
:- module(tmhost_lines, []).
:- use_module(library(readutil)).

most(10).  % solutions of a query

main :-
    on_signal(int, _, throw),
    stream_property(Commands, alias(user_input)),
    set_stream(Commands, encoding(utf8)), set_stream(user_output, encoding(utf8)),
    open('/dev/null', read, Nothing), set_prolog_IO(Nothing, user_output, user_error), prompt(_, ''),
    lines(Commands).

lines(Commands) :-
    catch(read_line_to_string(Commands, Line), _, fail), !,
    (   Line == end_of_file -> halt
    ;   catch(line(Line), Error, reported(Error)), flush_output(user_output), lines(Commands)
    ).
lines(Commands) :- lines(Commands).

line(Line) :- string_concat("\"", Rest, Line), !, sub_string(Rest, 0, _, 1, Quoted), unescaped(Quoted, Text), answer(Text).
line(Line) :- split_string(Line, " ", "", Halves), atomic_list_concat(Halves, Mark), format(user_output, "~w~n", [Mark]).

unescaped(Quoted, Text) :- string_codes(Quoted, Codes), phrase(plain(Plain), Codes), string_codes(Text, Plain).
plain([0'\n|T]) --> "\\n", !, plain(T).
plain([C|T]) --> "\\", [C], !, plain(T).
plain([C|T]) --> [C], !, plain(T).
plain([]) --> [].

answer(Text) :- split_string(Text, "", " \t\n", [""]), !.
answer(Text) :- string_concat("[user].", Clauses, Text), !, open_string(Clauses, Stream), load_files(user:user, [stream(Stream)]).
answer(Text) :-
    term_string(Goal, Text, [variable_names(Names), module(user)]),
    ( Goal = (:- Called) -> Names1 = [], Query = Called ; Goal = (?- Called) -> Names1 = Names, Query = Called ; Names1 = Names, Query = Goal ),
    most(Most), Count = count(0),
    (   user:expand_goal(Query, Expanded), catch_with_backtrace(user:Expanded, Error, throw(Error)), deterministic_end(Names1, Count, Most) -> true
    ;   arg(1, Count, 0) -> format(user_output, "false.~n", [])
    ;   true
    ).

% Tells a solution, and fails for the next one; succeeds at the last that is reported.
deterministic_end(Names, Count, Most) :-
    arg(1, Count, Before), Now is Before + 1, nb_setarg(1, Count, Now),
    include(is_bound, Names, Bound), solution(Bound),
    Now >= Most, format(user_output, "...~n", []).

is_bound(Name=Value) :- \+ sub_atom(Name, 0, _, _, '_'), \+ var(Value).

solution([]) :- !, format(user_output, "true.~n", []).
solution(Bound0) :-
    copy_term(Bound0, Bound, _), numbervars(Bound, 0, _, [singletons(true)]),
    maplist(shown, Bound, Shown), atomic_list_concat(Shown, ', ', Text), format(user_output, "~w.~n", [Text]).
shown(Name=Value, Text) :- format(atom(Text), "~w = ~W", [Name, Value, [quoted(true), numbervars(true), portray(true), spacing(next_argument)]]).

reported(unwind(halt(Status))) :- !, halt(Status).
reported(Error) :-
    getenv('TMHOST_ERROR', Fault), flush_output(user_output),
    message_to_codes_(Error, Text), format(user_output, "~w~w~n", [Fault, Text]).
message_to_codes_(Error, Text) :- message_to_lines(Error, Text), !.
message_to_codes_(Error, Text) :- term_to_atom(Error, Text).
message_to_lines(Error, Text) :-
    strip(Error, Bare), message_to_codes(Bare, Text).
strip(error(Formal, _), error(Formal, _)) :- !.
strip(Error, Error).
message_to_codes(Error, Text) :- '$messages':translate_message(Error, Lines, []), with_output_to(string(Text), print_message_lines(current_output, '', Lines)).
:- initialization(main, main).
