# An input, a table and an input of some 400 KB each, read side by side; a call stands between their lines.
cat <<'SCRIPT'
input v: vec[i64]
d = vectors.dot(v, v)
table t(units: i64, price: i64)
input w: vec[i64]
u = columns.column(t, "units")
e = vectors.dot(w, u)
show d, e
%%
SCRIPT
awk 'BEGIN {
  for (p = 1; p <= 3; p++) {
    print p == 2 ? "%table\nprice,units" : "%value"
    for (i = 0; i < 70000; i++) {
      if (p == 2) printf "%d,%d\n", i, 3
      else printf "%s%d", i == 0 ? "[" : ",", p == 1 ? i % 1000 : i
    }
    if (p != 2) print "]"
  }
}'
