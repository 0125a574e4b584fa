# the ideal of the monomial curve (t^3, t^5, t^7): one binomial for each relation of the minimal presentation
S := NumericalSemigroup(3,5,7);
for relation in MinimalPresentation(S) do
  for side in [1,2] do
    for i in [1..3] do
      if relation[side][i] > 0 then Print(["x","y","z"][i], "^", relation[side][i], " "); fi;
    od;
    if side = 1 then Print("- "); fi;
  od;
  Print("\n");
od;
Print("in degrees ", BettiElements(S), "\n");
