# the coin problem for boxes of 6, 9 and 20: which numbers of pieces can't be bought?
S := NumericalSemigroup(6,9,20);
Print(FrobeniusNumber(S), " is the greatest, of ", Genus(S), "\n");
Print(Gaps(S), "\n");
if 43 in S then Print("43 can be bought\n"); else Print("43 can't be bought\n"); fi;
