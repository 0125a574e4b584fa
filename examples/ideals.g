# the canonical ideal tells whether a semigroup is symmetric: it is so where S is its own canonical ideal
for S in [ NumericalSemigroup(3,5), NumericalSemigroup(3,7,8) ] do
  K := CanonicalIdeal(S);
  Print(K, " ", K = [0] + S, " ", IsSymmetric(S), "\n");
od;

# duals: the dual of the dual of an ideal with respect to the canonical ideal is the ideal itself
T := NumericalSemigroup(4,6,7,9);
K := CanonicalIdeal(T);
for I in [ [0,1] + T, [0,2] + T, MaximalIdeal(T), 3 + K ] do
  Print(MinimalGenerators(I), " ", MinimalGenerators(K - I), " ", K - (K - I) = I, "\n");
od;

# the blow-up of the maximal ideal: kM - kM grows with k, and stops at the semigroup that 4, 9-4 and 11-4 generate
S := NumericalSemigroup(4,9,11);
M := MaximalIdeal(S);
for k in [1..4] do
  Print(k, " ", MinimalGenerators((k * M) - (k * M)), "\n");
od;
L := NumericalSemigroup(4,5,7);
B := (4 * M) - (4 * M);
Print(ForAll([-4..20], x -> (x in L) = (x in B)), "\n");
