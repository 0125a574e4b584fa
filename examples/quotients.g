# a proportionally modular semigroup, its half, and both by their gaps
S := ProportionallyModularNumericalSemigroup(5,17,2);
H := QuotientOfNumericalSemigroup(S, 2);
Print(S, " ", Gaps(S), "\n");
Print(H, " ", Gaps(H), "\n");
Print(ForAll(SmallElements(H), x -> 2*x in S), " ", NumericalSemigroupByGaps(Gaps(H)) = H, " ", NumericalSemigroupByFundamentalGaps(FundamentalGaps(H)) = H, "\n");
