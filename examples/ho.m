:- module t.
:- pred main(io::di, io::uo) is det.
main(IO0, IO) :- A = 1, N = 3, P = add(A), Q = double, drive(P, Q, N), IO = IO0.
:- pred drive(pred(int, int)::in(pred(in, out) is det), pred(int, int)::in(pred(in, out) is det), int::in) is det.
drive(P, Q, N) :- Z = 0, ( N =< Z -> true ; call(P, N, R), D = 1, M = N - D, drive(Q, P, M) ).
:- pred add(int::in, int::in, int::out) is det.
add(A, B, C) :- C = A + B.
:- pred double(int::in, int::out) is det.
double(A, B) :- T = 2, B = A * T.
