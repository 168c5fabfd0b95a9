% swipl tabling.pl FILE MINUTE|spans
% Memberships of a credentials file by tabling: over all spans, or at one minute. Prints their count and the microseconds of
% processor time that the evaluation took, without the start of Prolog and the reading of the file.
:- initialization(main, main).

:- dynamic states/5.          % states(Head, Kind, Left, Right, Spans)

% A role has a set in these spans; answers for the same set are united.
:- table holds(_, _, lattice(unite/3)).

unite(A, B, C) :- C is A \/ B.

holds(Head, Set, Spans) :-
    states(Head, Kind, Left, Right, Valid),
    gives(Kind, Left, Right, Set, Found),
    Spans is Found /\ Valid,
    Spans =\= 0.

gives(0, Set, _, Set, -1).
gives(1, Left, _, Set, Spans) :- holds(Left, Set, Spans).
gives(2, Left, Name, Set, Spans) :-
    holds(Left, One, A),
    One /\ (One - 1) =:= 0,
    Linked is msb(One) * 32 + Name,
    holds(Linked, Set, B),
    Spans is A /\ B.
gives(3, Left, Right, Set, Spans) :- holds(Left, Set, A), holds(Right, Set, B), Spans is A /\ B.
gives(4, Left, Right, Set, Spans) :- holds(Left, X, A), holds(Right, Y, B), Set is X \/ Y, Spans is A /\ B.
gives(5, Left, Right, Set, Spans) :-
    holds(Left, X, A), holds(Right, Y, B), X /\ Y =:= 0, Set is X \/ Y, Spans is A /\ B.

% The file: sizes, statements of 12 bytes, periods. A statement's serial, its last four bytes, is not read. A period is kept half-open: it covers `to`, so it stops at to + 1.
number_at(Bytes, At, Width, N) :-
    findall(B, (between(1, Width, I), J is At + Width - I, nth(J, Bytes, B)), Bs),
    foldl([B, X, Y]>>(Y is X * 256 + B), Bs, 0, N).

nth(I, Bytes, B) :- J is I + 1, arg(J, Bytes, B).

load(Path, When) :-
    setup_call_cleanup(open(Path, read, In, [type(binary)]), read_stream_to_codes(In, Codes), close(In)),
    Bytes =.. [bytes|Codes],
    number_at(Bytes, 4, 2, N),
    Last is N - 1,
    findall(From-Until,
            ( between(0, Last, I), A is 6 + 12 * N + 8 * I, B is A + 4,
              number_at(Bytes, A, 4, From), number_at(Bytes, B, 4, To), Until is To + 1 ),
            Periods),
    findall(E, (member(F-U, Periods), member(E, [F, U])), Es),
    sort(Es, Ends),
    forall(nth0(I, Periods, Period), load_one(Bytes, I, Period, Ends, When)).

load_one(Bytes, I, Period, Ends, When) :-
    findall(B, (between(0, 6, K), J is 6 + 12 * I + K, nth(J, Bytes, B)), [Kind, A, R, Bb, S, C, T]),
    spans(When, Period, Ends, Spans),
    Head is A * 32 + R,
    (   Kind =:= 0 -> Left is 1 << Bb ; Left is Bb * 32 + S ),
    Right is C * 32 + T,
    (   Spans =:= 0 -> true
    ;   retract(states(Head, Kind, Left, Right, Before)) -> V is Before \/ Spans, assertz(states(Head, Kind, Left, Right, V))
    ;   assertz(states(Head, Kind, Left, Right, Spans)) ).

spans(spans, From-Until, Ends, Spans) :- !,
    nth0(A, Ends, From), nth0(B, Ends, Until), Spans is (1 << B) - (1 << A).
spans(Minute, From-Until, _, Spans) :-
    (   From =< Minute, Minute < Until -> Spans = 1 ; Spans = 0 ).

% Every head once, then the time of one evaluation from empty tables.
all(Count) :-
    setof(H, K^L^R^V^states(H, K, L, R, V), Heads),
    aggregate_all(count, (member(H, Heads), holds(H, _, _)), Count).

main([Path, Word]) :-
    (   Word == spans -> When = spans ; atom_number(Word, When) ),
    load(Path, When),
    once(all(_)),
    abolish_all_tables,
    statistics(cputime, Start),
    once(all(Count)),
    statistics(cputime, End),
    Us is (End - Start) * 1.0e6,
    format("~d ~1f~n", [Count, Us]).
