# Three parameters, and five lists of some 400 KB; the fourth isn't in form.
printf '|a: vec[i64], b: vec[i64], c: vec[i64]| len(a)\n%%%%\n'
awk 'BEGIN {
  for (p = 1; p <= 5; p++) {
    printf "%%value\n"
    for (i = 0; i < 70000; i++) printf "%s%d", i == 0 ? "[" : ",", i
    print p == 4 ? ",]" : "]"
  }
}'
