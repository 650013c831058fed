:- module t.
:- pred main(io::di, io::uo) is det.
main(IO0, IO) :- N = 3, count(N), IO = IO0.
:- pred count(int::in) is det.
count(N) :- Z = 0, ( N =< Z -> true ; D = 1, M = N - D, count(M) ).
