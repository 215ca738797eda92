# Four lists of some 400 KB: the last number of the second is out of its range, the third isn't in form, the fourth at its first number.
printf '|a: vec[i64], b: vec[u16], c: vec[i64], d: vec[i64]| len(a)\n%%%%\n'
awk 'BEGIN {
  for (p = 1; p <= 4; p++) {
    printf "%%value\n"
    for (i = 0; i < 70000; i++) printf "%s%d", i == 0 ? "[" : ",", i == 0 && p == 4 ? -1 "x" : i % 50000
    print p == 2 ? ",65536]" : p == 3 ? ",]" : "]"
  }
}'
