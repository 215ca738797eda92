# One of the last structs has a number out of its range.
printf '|v: vec[{i64, u8}]| len(v)\n%%%%\n%%value\n'
awk 'BEGIN { for (i = 0; i < 60000; i++) printf "%s{%d,%d}", i == 0 ? "[" : ",", i, i == 59990 ? -1 : i % 256; print "]" }'
