:- module t.
:- pred main(io::di, io::uo) is det.
main(IO0, IO) :- S = "hello", io.write_string(S, IO0, IO1), io.nl(IO1, IO).
