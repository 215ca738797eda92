# Four dictionaries of 40,000 entries: the third has a key twice at its end, and the fourth isn't in form.
printf '|a: dict[i64,i64], b: dict[i64,i64], c: dict[i64,i64], d: dict[i64,i64]| lookup(a, 1L)\n%%%%\n'
awk 'BEGIN {
  for (p = 1; p <= 4; p++) {
    printf "%%value\n"
    for (i = 0; i < 40000; i++) printf "%s%d:%d", i == 0 ? "dict{" : ",", i, p
    print p == 3 ? ",39999:3}" : p == 4 ? ",:}" : "}"
  }
}'
