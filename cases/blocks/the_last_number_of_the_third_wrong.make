# Four lists of some 400 KB: the third has a number out of its range at its end, and the fourth isn't in form from its first byte.
printf '|a: vec[i64], b: vec[i64], c: vec[u16], d: vec[i64]| len(a)\n%%%%\n'
awk 'BEGIN {
  for (p = 1; p <= 4; p++) {
    printf "%%value\n"
    for (i = 0; i < 70000; i++) printf "%s%d", i == 0 ? (p == 4 ? "(" : "[") : ",", i % 50000
    print p == 3 ? ",65536]" : "]"
  }
}'
