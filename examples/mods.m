:- module t.
:- pred main(io::di, io::uo) is det.
main(IO0, IO) :- a.f, IO = IO0.
:- pred a.f is det.
a.f :- b.g.
:- pred b.g is det.
b.g :- a.h.
:- pred a.h is det.
a.h :- true.
