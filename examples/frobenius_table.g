# Frobenius number, genus and type of <a, a+1, a+3>, for a from 4 to 9
Print("a F g t\n");
for a in [4..9] do
  S := NumericalSemigroup(a, a+1, a+3);
  Print(a, " ", FrobeniusNumber(S), " ", Genus(S), " ", Type(S), "\n");
od;
