:- module t.
:- pred main(io::di, io::uo) is det.
main(IO0, IO) :- N = 5, even(N, R), io.write_int(R, IO0, IO).
:- pred even(int::in, int::out) is det.
even(N, R) :- Z = 0, ( N =< Z -> R = 1 ; D = 1, M = N - D, odd(M, R) ).
:- pred odd(int::in, int::out) is det.
odd(N, R) :- Z = 0, ( N =< Z -> R = 0 ; D = 1, M = N - D, even(M, R) ).
