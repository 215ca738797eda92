# Five dictionaries of 40,000 entries, each read by one thread; what is looked up tells which parameter has which.
cat << 'W'
|a: dict[i64,i64], b: dict[i64,i64], c: dict[i64,i64], d: dict[i64,i64], e: dict[i64,i64]|
  {lookup(a, 39999L), lookup(b, 39999L), lookup(c, 39999L), lookup(d, 39999L), lookup(e, 39999L)}
%%
W
awk 'BEGIN {
  for (p = 1; p <= 5; p++) {
    printf "%%value\n"
    for (i = 0; i < 40000; i++) printf "%s%d:%d", i == 0 ? "dict{" : ",", i, p * 100000 + i
    print "}"
  }
}'
