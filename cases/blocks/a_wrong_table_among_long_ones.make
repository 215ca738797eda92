# A list, a table whose last record is too short, a list that isn't in form, and a table with a number out of its range.
printf '|a: vec[i64], t: {vec[i64], vec[u8]}, b: vec[i64], u: {vec[u8]}| len(a)\n%%%%\n'
awk 'BEGIN {
  for (p = 1; p <= 4; p++) {
    printf p == 2 ? "%%table\na,b\n" : p == 4 ? "%%table\na\n300\n" : "%%value\n"
    for (i = 0; i < 70000; i++) {
      if (p == 2) printf "%d,%d\n", 2 * i, i % 256
      else if (p == 4) printf "%d\n", i % 256
      else printf "%s%d", i == 0 ? "[" : ",", p * i
    }
    print p == 1 ? "]" : p == 2 ? "7" : p == 3 ? ",]" : "1"
  }
}'
