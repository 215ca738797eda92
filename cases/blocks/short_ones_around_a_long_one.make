# A list of some 900 KB behind two short values, and before two.
cat << 'W'
|a: i64, b: vec[i64], c: vec[i64], d: i64, e: vec[i64]|
  {a, result(for(b, merger[i64,+], |m,i,x| merge(m, x))), result(for(c, merger[i64,+], |m,i,x| merge(m, x))), d, e}
%%
%value
7
%value
[1,2]
%value
W
awk 'BEGIN { for (i = 0; i < 140000; i++) printf "%s%d", i == 0 ? "[" : ",", i; print "]" }'
printf '%%value\n8\n%%value\n[9]\n'
