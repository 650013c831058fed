:- module t.
:- pred main(io::di, io::uo) is det.
main(IO0, IO) :- p(IO0, IO1), p(IO1, IO).
:- pred p(io::di, io::uo) is det.
p(IO0, IO) :- q, io.nl(IO0, IO).
:- pred q is det.
q :- true.
