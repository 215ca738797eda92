# Thirteen lists of some 110 KB, each shorter than one that is read in pieces; each has its own sum.
awk 'BEGIN {
  for (p = 1; p <= 13; p++) printf "%sp%d: vec[i64]", p == 1 ? "|" : ", ", p
  printf "|\n"
  for (p = 1; p <= 13; p++) printf "%sresult(for(p%d, merger[i64,+], |m,i,x| merge(m, x)))", p == 1 ? "{" : ",\n", p
  printf "}\n%%%%\n"
  for (p = 1; p <= 13; p++) {
    printf "%%value\n"
    for (i = 0; i < 20000; i++) printf "%s%d", i == 0 ? "[" : ",", 10000 + (i * p) % 9973
    print "]"
  }
}'
