# closures of <5,8>: each holds the one before
S := NumericalSemigroup(5,8);
A := ArfClosure(S);
T := SaturatedClosure(S);
Print("S ", Genus(S), " gaps\n");
Print("Arf closure ", A, ", ", Genus(A), " gaps\n");
Print("saturated closure ", T, ", ", Genus(T), " gaps\n");
Print(IsArf(A), " ", IsSaturated(A), " ", ForAll(SmallElements(A), x -> x in T), "\n");
