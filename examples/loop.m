:- module t.
:- pred main(io::di, io::uo) is det.
main(IO0, IO) :- N = 2, loop(N, IO0, IO).
:- pred loop(int::in, io::di, io::uo) is det.
loop(N, IO0, IO) :- Z = 0, ( N =< Z -> IO = IO0 ; D = 1, M = N - D, P = loop(M), call(P, IO0, IO) ).
