:- module t.
:- pred main(io::di, io::uo) is det.
main(IO0, IO) :- K = 2, x(K), IO = IO0.
:- pred x(int::in) is det.
x(K) :- Z = 0, A = 1, ( K = A -> true ; n ), ( K = Z -> true ; r(A) ).
:- pred r(int::in) is det.
r(J) :- Z = 0, ( J = Z -> true ; x(Z) ).
:- pred n is det.
n :- Z = 0, r(Z).
