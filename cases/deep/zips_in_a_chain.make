# 250 loops, each over the list of the one before and a vector, nine of which come in turn.
awk 'BEGIN {
  printf "|v: vec[i64]"
  for (k = 0; k < 9; k++) printf ", w%d: vec[i64]", k
  printf "| "
  for (i = 0; i < 250; i++) printf "let v%d = result(for(zip(%s, w%d), vecbuilder[i64], |b,i,x| merge(b, x.$0 + x.$1))); ", i, i == 0 ? "v" : "v" i - 1, i % 9
  print "result(for(v249, merger[i64,+], |b,i,x| merge(b, x)))"
  print "%%"
  for (k = 0; k < 10; k++) printf "%%value\n[%d,%d,%d]\n", k, 10 * k, 100 * k
}'
