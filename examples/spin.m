:- module t.
:- pred main(io::di, io::uo) is det.
main(IO0, IO) :- spin, IO = IO0.
:- pred spin is det.
spin :- spin.
