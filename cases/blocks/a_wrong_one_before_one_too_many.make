# Three parameters, and four lists of some 400 KB; the third has a number out of its range.
printf '|a: vec[i64], b: vec[i64], c: vec[i32]| len(a)\n%%%%\n'
awk 'BEGIN {
  for (p = 1; p <= 4; p++) {
    printf "%%value\n"
    for (i = 0; i < 70000; i++) printf "%s%d", i == 0 ? "[" : ",", i
    print p == 3 ? ",2147483648]" : "]"
  }
}'
