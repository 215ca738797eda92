# A list of some 900 KB, then a number out of its range, then one that isn't in form.
printf '|a: vec[i64], b: u8, c: i64| a\n%%%%\n%%value\n'
awk 'BEGIN { for (i = 0; i < 140000; i++) printf "%s%d", i == 0 ? "[" : ",", i; print "]" }'
printf '%%value\n256\n%%value\n,\n'
