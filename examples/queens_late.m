:- module queens.
:- type list ---> nil ; cons(int, list).
:- pred main(io::di, io::uo) is det.
main(IO0, IO) :- N = 6, up_to(N, L), E = nil,
    ( some [Q] ( place(L, E, Q) ) -> S = "solvable" ; S = "not solvable" ),
    io.write_string(S, IO0, IO1), io.nl(IO1, IO).
:- pred up_to(int::in, list::out) is det.
up_to(N, L) :- Z = 0, ( N =< Z -> L = nil ; D = 1, M = N - D, up_to(M, T), L = cons(N, T) ).
:- pred place(list::in, list::in, list::out) is nondet.
place(Free, Done, Q) :- ( Free = nil, Q = Done
    ; Free = cons(First, More), member(X, Free), D = 1, safe(X, D, Done),
      without(X, Free, Rest), Done1 = cons(X, Done), place(Rest, Done1, Q) ).
:- pred member(int::out, list::in) is nondet.
member(X, L) :- L = cons(H, T), ( X = H ; member(X, T) ).
:- pred without(int::in, list::in, list::out) is det.
without(X, L, R) :- ( L = nil, R = nil
    ; L = cons(H, T), ( X = H -> R = T ; without(X, T, R1), R = cons(H, R1) ) ).
:- pred safe(int::in, int::in, list::in) is semidet.
safe(X, D, L) :- ( L = nil
    ; L = cons(Y, T), U = X + D, V = X - D, not ( Y = U ), not ( Y = V ),
      One = 1, D1 = D + One, safe(X, D1, T) ).
