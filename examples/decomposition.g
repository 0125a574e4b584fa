# a decomposition into irreducible semigroups, and that it intersects to the semigroup
S := NumericalSemigroup(7,9,11,13);
L := DecomposeIntoIrreducibles(S);
Print(L, "\n");
T := L[1];
for M in L do
  T := Intersection(T, M);
od;
Print(T = S, " ", ForAll(L, M -> IsIrreducible(M)), "\n");
# each special gap is missing from one of them
Print(ForAll(SpecialGaps(S), h -> ForAny(L, M -> not h in M)), "\n");
