# which of the semigroups <a,b,c> with a < b < c <= 12 and no common divisor are symmetric, and which pseudo-symmetric
count := [];
for a in [3..10] do
  for b in [a+1..11] do
    for c in [b+1..12] do
      if Gcd(a,b,c) = 1 then
        S := NumericalSemigroup(a,b,c);
        if EmbeddingDimension(S) = 3 then
          count := Concatenation(count, [[MinimalGenerators(S), IsSymmetric(S), IsPseudoSymmetric(S)]]);
        fi;
      fi;
    od;
  od;
od;
Print(Length(count), " of embedding dimension 3\n");
Print(Number(count, e -> e[2]), " symmetric, ", Number(count, e -> e[3]), " pseudo-symmetric\n");
Print(List(Filtered(count, e -> e[3]), e -> e[1]), "\n");
