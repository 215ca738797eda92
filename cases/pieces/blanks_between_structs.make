# The same structs with blanks before and behind commas and braces, which one reader takes.
cat << 'W'
|v: vec[{i64, bool, u8}]| result(for(v, merger[i64,+], |b,i,x| if(x.$1, merge(b, x.$0 * i64(x.$2)), b)))
%%
%value
W
awk 'BEGIN { for (i = 0; i < 60000; i++) printf "%s{ %d ,\t%s, %d } ", i == 0 ? "[" : ",\n", i - 30000, i % 3 == 0 ? "true" : "false", i % 256; print "]" }'
