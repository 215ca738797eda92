# The second struct has a number out of its range, and the last isn't in form: that is told.
printf '|v: vec[{i64, u8}]| len(v)\n%%%%\n%%value\n'
awk 'BEGIN { for (i = 0; i < 60000; i++) printf "%s{%d,%d}", i == 0 ? "[" : ",", i, i == 1 ? 256 : i % 256; print ",{1,}]" }'
