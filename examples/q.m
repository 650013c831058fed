:- module t.
:- pred main(io::di, io::uo) is det.
main(IO0, IO) :- q(X), io.write_int(X, IO0, IO).
:- pred q(int::out) is det.
q(X) :- pick(X).
:- pred pick(int::out) is multi.
pick(X) :- ( X = 1 ; X = 2 ).
