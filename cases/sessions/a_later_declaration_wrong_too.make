# Three inputs and a table of some 400 KB each: the second input has a number out of its range at its end, the table a record that is
# too short, and the third input isn't in form.
cat <<'SCRIPT'
input v: vec[i64]
input w: vec[u16]
table t(units: i64, price: i64)
input x: vec[i64]
d = vectors.dot(v, x)
show d
%%
SCRIPT
awk 'BEGIN {
  for (p = 1; p <= 4; p++) {
    print p == 3 ? "%table\nprice,units" : "%value"
    for (i = 0; i < 70000; i++) {
      if (p == 3) printf "%d,%d\n", i, 3
      else printf "%s%d", i == 0 ? "[" : ",", i % 50000
    }
    print p == 1 ? "]" : p == 2 ? ",65536]" : p == 3 ? "1" : ",]"
  }
}'
