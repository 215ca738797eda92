# 40,000 structs of a number, a string and a list.
printf '|v: vec[{i64, vec[i8], vec[u8]}]| v\n%%%%\n%%value\n'
awk 'BEGIN { for (i = 0; i < 40000; i++) printf "%s{%d,\"x},%d\",[%d,7]}", i == 0 ? "[" : ",", i - 20000, i, i % 256; print "]" }'
