% The best relaxation of a sheet given as facts: option(slot, weight), ordering(slot, first, second, weight), before(a, b).
{ kept(I) } :- option(I, _).
{ asked(U) } :- ordering(U, A, B, _), kept(A), kept(B).
#edge (A, B) : before(A, B), kept(A), kept(B).
#edge (A, B) : asked(U), ordering(U, A, B, _).
#minimize { W, option(I) : option(I, W), not kept(I); W, ordering(U) : ordering(U, _, _, W), not asked(U) }.
#show kept/1.
#show asked/1.
