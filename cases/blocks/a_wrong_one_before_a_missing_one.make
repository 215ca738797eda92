# Four parameters, and two lists of some 400 KB, of which the second has a comma at its end.
printf '|a: vec[i64], b: vec[i64], c: i64, d: i64| len(a)\n%%%%\n'
awk 'BEGIN {
  for (p = 1; p <= 2; p++) {
    printf "%%value\n"
    for (i = 0; i < 70000; i++) printf "%s%d", i == 0 ? "[" : ",", i
    print p == 2 ? ",]" : "]"
  }
}'
