% Two sums that don't need one another: which calls could run side by side?
:- module sides.
:- type list ---> nil ; cons(int, list).
:- pred main(io::di, io::uo) is det.
main(IO0, IO) :- N = 200, M = 300, up_to(N, Xs), up_to(M, Ys), sum(Xs, A), sum(Ys, B),
    C = A + B, io.write_int(C, IO0, IO1), io.nl(IO1, IO).
:- pred up_to(int::in, list::out) is det.
up_to(N, Xs) :- Z = 0, ( N =< Z -> Xs = nil ; D = 1, M = N - D, up_to(M, Ys), Xs = cons(N, Ys) ).
:- pred sum(list::in, int::out) is det.
sum(Xs, S) :- ( Xs = nil, S = 0 ; Xs = cons(X, Ys), sum(Ys, T), S = X + T ).
