# Wilf's question over all numerical semigroups up to genus 9: is the embedding dimension times the number of members
# below the conductor at least the conductor? Where are both equal?
level := [NumericalSemigroup(1)];
for g in [0..9] do
  Print(g, ": ", ForAll(level, S -> EmbeddingDimension(S) * (Conductor(S) - Genus(S)) >= Conductor(S)), ", equal for ",
    Number(level, S -> EmbeddingDimension(S) * (Conductor(S) - Genus(S)) = Conductor(S)), " of ", Length(level), "\n");
  below := [];
  for S in level do
    for x in Filtered(MinimalGenerators(S), n -> n > FrobeniusNumber(S)) do
      below := Concatenation(below, [NumericalSemigroupByGaps(Concatenation(Gaps(S), [x]))]);
    od;
  od;
  level := below;
od;
