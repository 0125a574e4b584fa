# catenary degrees over the semigroups of a, a+1, .., a+k
for a in [3..9] do
  Print(a, ":");
  for k in [1..5] do
    Print(" ", CatenaryDegree(NumericalSemigroup([a..a+k])));
  od;
  Print("\n");
od;
