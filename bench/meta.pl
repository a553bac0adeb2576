% A plain meta-interpreter for books: reads the same text, walks the same cut tree, prints the same line.
%
%   swipl -O -o meta --goal=main --toplevel=halt -c meta.pl && ./meta BOOK
%
% The line goes to standard output, the seconds of the search alone to standard error.
% It takes books that the program accepts; of the refusals it knows only 14.
%
% Constants are Prolog's own: integers, atoms, strings; a float is the Prolog float whose value is the
% integer of its 32 bits, so that floats are equal when their bits are. A term of the book is a Prolog term.

:- module(meta, [main/0]).
:- use_module(library(aggregate)).
:- use_module(library(lists)).
:- use_module(library(readutil)).

:- dynamic book/6.      % book(Name, Arity, Number, Head, Goals, Rest): Goals is the body, then Rest

limit(32).
allowance(100000).

main :-
    current_prolog_flag(argv, Argv),
    last(Argv, File),
    read_file_to_codes(File, Codes, [encoding(octet)]),
    phrase(program(Clauses, Question), Codes),
    add_clauses(Clauses),
    get_time(Start),
    catch(search(Question, Line), refused(N), format(atom(Line), 'refused ~w', [N])),
    get_time(End),
    writeln(Line),
    Seconds is End - Start,
    format(user_error, '~6f~n', [Seconds]).

% ---- the clauses, each with its number in its predicate's list

add_clauses(Clauses) :-
    forall(member(Head-Body, Clauses), add_clause(Head, Body)).

add_clause(Head, Body) :-
    functor(Head, Name, Arity),
    aggregate_all(count, book(Name, Arity, _, _, _, _), Number),
    append(Body, Rest, Goals),
    assertz(book(Name, Arity, Number, Head, Goals, Rest)).

% ---- the search: one pass over the whole cut tree, what it has seen is in the term Seen

% seen(Steps, Uses, Path, Cut, NotWrong): Uses is none, or that of the best path so far
search(Question, Line) :-
    Seen = seen(0, none, [], false, false),
    node(Question, true, 0, [], Seen),
    Seen = seen(Steps, Uses, _, Cut, NotWrong),
    (   Uses \== none    -> format(atom(Line), 'holds ~w ~w', [Uses, Steps])
    ;   Cut == true      -> format(atom(Line), 'unsettled - ~w', [Steps])
    ;   NotWrong == true -> format(atom(Line), 'fails - ~w', [Steps])
    ;   format(atom(Line), 'erroneous - ~w', [Steps])
    ).

node([], Flag, Depth, Path, Seen) :- !,
    nb_setarg(5, Seen, true),
    (   Flag == true -> success(Depth, Path, Seen) ; true ).
node(_, _, Depth, _, Seen) :-
    limit(Depth), !,
    nb_setarg(4, Seen, true),
    nb_setarg(5, Seen, true).
node([Goal|Rest], Flag, Depth, Path, Seen) :-
    functor(Goal, Name, Arity),
    Next is Depth + 1,
    (   \+ book(Name, Arity, _, _, _, _)
    ->  step(Seen),
        node(Rest, false, Next, Path, Seen)
    ;   (   book(Name, Arity, Number, Head, Goals, Rest),
            step(Seen),
            child(Goal, Head, Goals, Rest, Flag, Next, [Number|Path], Seen),
            fail
        ;   true
        )
    ).

% solved goes on with the body, false without the goal under the old bindings, wrong is a leaf
child(Goal, Head, Goals, Rest, Flag, Depth, Path, Seen) :-
    (   unify_with_occurs_check(Goal, Head)
    ->  node(Goals, Flag, Depth, Path, Seen)
    ;   \+ kinds_differ(Goal, Head)
    ->  node(Rest, false, Depth, Path, Seen)
    ;   true
    ).

step(Seen) :-
    arg(1, Seen, Before),
    Steps is Before + 1,
    allowance(Most),
    (   Steps =< Most -> nb_setarg(1, Seen, Steps) ; throw(refused(14)) ).

% branches come in list order, so of equally short ones the first is kept
success(Uses, Path, Seen) :-
    arg(2, Seen, Best),
    (   ( Best == none ; Uses < Best )
    ->  nb_setarg(2, Seen, Uses),
        reverse(Path, InOrder),
        nb_setarg(3, Seen, InOrder)
    ;   true
    ).

% ---- kinds: do the two terms clash even when a constant stands for its kind?

kinds_differ(A, B) :-
    \+ same_kinds(A, B).

same_kinds(A, B) :-
    (   var(A)      -> unify_with_occurs_check(A, B)
    ;   var(B)      -> unify_with_occurs_check(B, A)
    ;   atomic(A)   -> atomic(B), kind(A, Kind), kind(B, Kind)
    ;   compound(B),
        functor(A, Name, Arity),
        functor(B, Name, Arity),
        same_kinds(1, Arity, A, B)
    ).

same_kinds(I, Arity, A, B) :-
    (   I > Arity
    ->  true
    ;   arg(I, A, X),
        arg(I, B, Y),
        same_kinds(X, Y),
        J is I + 1,
        same_kinds(J, Arity, A, B)
    ).

kind(X, Kind) :-
    (   integer(X) -> Kind = integer
    ;   atom(X)    -> Kind = atom
    ;   string(X)  -> Kind = string
    ;   Kind = float
    ).

% ---- book text

program(Clauses, Question) --> blanks, clauses(Clauses), question(Question).

clauses([Clause|Clauses]) --> clause(Clause), !, clauses(Clauses).
clauses([]) --> [].

clause(Head-Body) --> goal(Head, [], Names), body(Body, Names), mark(".").

body(Body, Names) --> mark(":-"), !, goals(Body, Names, _).
body([], _) --> [].

question(Goals) --> mark("?-"), ( mark(".") -> { Goals = [] } ; goals(Goals, [], _), mark(".") ).

goals([Goal|Goals], Names0, Names) -->
    goal(Goal, Names0, Names1),
    (   mark(",") -> goals(Goals, Names1, Names) ; { Goals = [], Names = Names1 } ).

goal(Goal, Names0, Names) --> name(Name), brackets(Name, Goal, Names0, Names).

brackets(Name, Term, Names0, Names) -->
    (   mark("(")
    ->  arguments(Args, Names0, Names),
        mark(")"),
        { compound_name_arguments(Term, Name, Args) }
    ;   { Term = Name, Names = Names0 }
    ).

arguments([Arg|Args], Names0, Names) -->
    term(Arg, Names0, Names1),
    (   mark(",") -> arguments(Args, Names1, Names) ; { Args = [], Names = Names1 } ).

term(Term, Names0, Names) --> name(Name), !, brackets(Name, Term, Names0, Names).
term(Float, Names, Names) --> "0f", hex(8, 0, Bits), !, { Float is float(Bits) }, blanks.
term(Integer, Names, Names) --> integer(Integer), !, blanks.
term(String, Names, Names) --> "\"", !, bytes(Bytes), "\"", { string_codes(String, Bytes) }, blanks.
term(Var, Names0, Names) --> variable(Name), { look_up(Name, Var, Names0, Names) }.

look_up('_', _, Names, Names) :- !.
look_up(Name, Var, Names, Names) :- memberchk(Name=Known, Names), !, Var = Known.
look_up(Name, Var, Names, [Name=Var|Names]).

mark(Codes) --> Codes, blanks.

name(Name) --> [C], { code_type(C, lower), C < 128 }, word(Cs), { atom_codes(Name, [C|Cs]) }, blanks.
variable(Name) --> [C], { C == 0'_ ; code_type(C, upper), C < 128 }, !, word(Cs), { atom_codes(Name, [C|Cs]) }, blanks.

word([C|Cs]) --> [C], { C < 128, code_type(C, csym) }, !, word(Cs).
word([]) --> [].

integer(Value) --> "-", !, digits(Digits), { number_codes(Plain, Digits), Value is -Plain }.
integer(Value) --> digits(Digits), { number_codes(Value, Digits) }.

digits([D|Ds]) --> digit(D), more_digits(Ds).
more_digits([D|Ds]) --> digit(D), !, more_digits(Ds).
more_digits([]) --> [].
digit(D) --> [D], { D >= 0'0, D =< 0'9 }.

hex(0, Bits, Bits) --> !, [].
hex(N, Bits0, Bits) -->
    [C],
    { C >= 0'0, C =< 0'9 -> V is C - 0'0 ; C >= 0'a, C =< 0'f, V is C - 0'a + 10 },
    { Bits1 is Bits0 * 16 + V, M is N - 1 },
    hex(M, Bits1, Bits).

bytes([C|Cs]) --> [C], { C \== 0'" }, !, bytes(Cs).
bytes([]) --> [].

blanks --> [C], { memberchk(C, [9, 10, 13, 32]) }, !, blanks.
blanks --> [].
