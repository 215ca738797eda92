# Structs in which lists of structs stand: a comma behind a brace isn't always one between items.
cat << 'W'
|v: vec[{i64, vec[{i64, i64}]}]| result(for(v, merger[i64,+], |b,i,x| merge(b, x.$0 + len(x.$1) + lookup(x.$1, 1L).$1)))
%%
%value
W
awk 'BEGIN { for (i = 0; i < 30000; i++) printf "%s{%d,[{1,2},{3,%d},{5,6}]}", i == 0 ? "[" : ",", i, i; print "]" }'
