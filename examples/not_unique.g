# the factorizations of 60 pieces into boxes of 6, 9 and 20, and how one comes from another
S := NumericalSemigroup(6,9,20);
for z in Factorizations(60,S) do Print(z, ", ", Sum(z), " boxes\n"); od;
Print("lengths ", LengthsOfFactorizations(60,S), ", deltas ", DeltaSet(60,S), "\n");
Print("each comes from each by steps that change at most ", CatenaryDegree(60,S), " boxes\n");
