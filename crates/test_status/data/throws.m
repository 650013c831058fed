:- module t.
:- pred main(io::di, io::uo) is det.
main(IO0, IO) :- N = 2, f(N), IO = IO0.
:- pred f(int::in) is det.
f(N) :- Z = 0, ( N =< Z -> S = "bad", require.error(S) ; D = 1, M = N - D, f(M) ).
