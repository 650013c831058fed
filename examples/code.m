:- module t.
:- pred main(io::di, io::uo) is det.
main(IO0, IO) :- IO = IO0.
:- type colour ---> red ; green ; blue.
:- pred code(colour::in, int::out) is det.
code(C, N) :- ( C = red, N = 1 ; C = green, N = 2 ).
