:- module t.
:- pred main(io::di, io::uo) is det.
main(IO0, IO) :- IO = IO1.
