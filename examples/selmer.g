# Selmer's formulas: F and the genus, read off an Apery list modulo any member
S := NumericalSemigroup(7,11,19);
for n in [7,11,14,18] do
  A := AperyList(S,n);
  # n g = (sum of the list) - n (n-1) / 2, without division
  Print(n, ": ", Maximum(A) - n = FrobeniusNumber(S), " ", 2 * n * Genus(S) = 2 * Sum(A) - n * (n-1), "\n");
od;
