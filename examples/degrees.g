# how far a semigroup is from unique factorization, by five numbers: none is less than the catenary degree but the
# elasticity, and omega primality is never more than the tame degree
for g in [[3,5],[4,6,9],[6,9,20],[5,7,9,11,13],[7,15,17,18,20]] do
  S := NumericalSemigroup(g);
  Print(g, " elasticity ", Elasticity(S), ", deltas ", MinimumDelta(S), " to ", MaximumDelta(S), ", catenary ", CatenaryDegree(S),
    ", omega ", OmegaPrimality(S), ", tame ", TameDegree(S), "\n");
od;
