:- module t.
:- pred main(io::di, io::uo) is det.
main(IO0, IO) :- A = 9223372036854775807, B = 1, C = A + B, io.write_int(C, IO0, IO1), io.nl(IO1, IO).
