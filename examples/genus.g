# how many numerical semigroups there are of each genus: from each of them a generator past the Frobenius number is taken
# away, which gives every semigroup of the next genus once; the sequence is 1, 1, 2, 4, 7, 12, 23, 39, 67, 118, 204
level := [NumericalSemigroup(1)];
for g in [0..10] do
  Print(g, " ", Length(level), "\n");
  below := [];
  for S in level do
    for x in Filtered(MinimalGenerators(S), n -> n > FrobeniusNumber(S)) do
      below := Concatenation(below, [NumericalSemigroupByGaps(Concatenation(Gaps(S), [x]))]);
    od;
  od;
  level := below;
od;
