# A list, a table, a list and a table, each of some 400 KB.
cat << 'W'
|a: vec[i64], t: {vec[i64], vec[u8]}, b: vec[i64], u: {vec[i64]}|
  {result(for(a, merger[i64,+], |m,i,x| merge(m, x))), result(for(t.$0, merger[i64,+], |m,i,x| merge(m, x))),
   len(t.$1), result(for(b, merger[i64,+], |m,i,x| merge(m, x))), result(for(u.$0, merger[i64,+], |m,i,x| merge(m, x)))}
%%
W
awk 'BEGIN {
  for (p = 1; p <= 4; p++) {
    printf p == 2 ? "%%table\na,b\n" : p == 4 ? "%%table\na\n" : "%%value\n"
    for (i = 0; i < 70000; i++) {
      if (p == 2) printf "%d,%d\n", 2 * i, i % 256
      else if (p == 4) printf "%d\n", 5 * i
      else printf "%s%d", i == 0 ? "[" : ",", p * i
    }
    if (p % 2 == 1) print "]"
  }
}'
