:- module report.
:- pred main(io::di, io::uo) is det.
main(IO0, IO) :- N = 20, parse(N), print(N), IO = IO0.
:- pred parse(int::in) is det.
parse(N) :- Z = 0, ( N =< Z -> true ; K = 8, lookup(K), D = 1, M = N - D, parse(M) ).
:- pred print(int::in) is det.
print(N) :- Z = 0, ( N =< Z -> true ; K = 8, lookup(K), W = 30, words(W), D = 1, M = N - D, print(M) ).
:- pred words(int::in) is det.
words(W) :- Z = 0, ( W =< Z -> true ; D = 1, V = W - D, words(V) ).
:- pred lookup(int::in) is det.
lookup(K) :- Z = 0, ( K =< Z -> true ; D = 1, J = K - D, lookup(J) ).
