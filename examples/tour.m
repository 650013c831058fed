% Each construct of the language, once at least.
:- module tour.

% A type, with its functors and the types of their arguments.
:- type shape ---> dot ; square(int) ; box(int, int).

% A predicate: its name, the types and modes of its arguments, and how often it succeeds. Its one clause stands below.
:- pred area(shape::in, int::out) is det.
area(S, A) :-
    ( S = dot, A = 0                            % a disjunction, here a switch on S
    ; S = square(N), squared(N, A)              % X = f(..) takes a term apart or makes one
    ; S = box(M, N), A = M * N ).               % arithmetic: one of + - * and two variables

:- pred squared(int::in, int::out) is det.
squared(N, A) :- M = N, A = N * M.              % the variables of a goal are pairwise different

:- pred pick(shape::out) is multi.              % succeeds at least once
pick(S) :- ( N = 3, S = square(N) ; M = 4, N = 5, S = box(M, N) ; S = dot ).

% A higher-order argument: the types, then the modes and the determinism.
:- pred apply(pred(shape, int)::in(pred(in, out) is det), shape::in, int::out) is det.
apply(P, S, A) :- call(P, S, A).                % the call of a closure

:- pred large(int::in, shape::out) is nondet.   % fails, or succeeds any number of times
large(Least, S) :-
    pick(S), P = area, apply(P, S, A),          % P = area makes a closure
    A >= Least,                                 % a comparison: one of < =< > >=
    not ( S = dot ).                            % a negation binds nothing

:- pred sample.point(int::out) is semidet.      % a name may have the name of another module before it
sample.point(X) :- ( X = -1, true ), Y = 0, X < Y.

:- pred never is failure.
never :- fail.

:- pred main(io::di, io::uo) is det.
main(IO0, IO) :-
    N = 9,
    ( some [S] ( large(N, S) ) ->               % some: once is enough; if, then and else
        T = "a \"large\" shape\n"
    ;
        T = "none\n"
    ),
    io.write_string(T, IO0, IO1),
    ( tour.never -> I = N ; I = 20 ),           % tour.never is never: tour is this module
    io.write_int(I, IO1, IO2), io.nl(IO2, IO).
