:- module t.
:- type list ---> nil ; cons(int, list).
:- pred main(io::di, io::uo) is det.
main(IO0, IO) :- A = 1, B = 2, C = 3, E = nil, L3 = cons(C, E), L2 = cons(B, L3), L = cons(A, L2),
    V = 5, ( not ( member(X, L), X > V ) -> S = "none" ; S = "some" ), io.write_string(S, IO0, IO).
:- pred member(int::out, list::in) is nondet.
member(X, L) :- L = cons(H, T), ( X = H ; member(X, T) ).
